"""Words that a reader of the books on Windows NT may look for in the script language, and that aren't built."""

CALLS = {
    "NtCallbackReturn",
    "NtCreateWaitablePort",
    "NtImpersonateThread",
    "NtOpenProcess",
    "NtOpenThread",
    "NtQueryInformationPort",
    "NtReplyWaitReceivePortEx",
    "NtReplyWaitReplyPort",
    "NtSecureConnectPort",
}
DIRECTIVES = {"rule", "tick", "version"}
