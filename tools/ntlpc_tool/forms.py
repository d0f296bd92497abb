"""The forms of lines and of words in a script.

docs/SCRIPTS.md, "Lines" and "Forms of words", has the same tables. They say what is expected in a place; whether a line
is well formed, and what its fault is, the program alone says.
"""

MOST_GROUPS = 16
DIRECTIVES = {
    "boot": ("PID", "TID", "[TOKEN]"),
    "thread": ("TID", "PID"),
    "token": ("TOKEN", "USER", *["[GROUP]"] * MOST_GROUPS),
    "dir": ("PATH",),
    "link": ("PATH", "TARGET"),
    "resident": ("TID", "win32", "H"),
    "turn": ("TID",),
}
CALLS = {
    "NtCreatePort": ("NAME", "[DACL]"),
    "NtConnectPort": ("NAME", "QOS", "VIEW", "INFO"),
    "NtListenPort": ("H",),
    "NtAcceptConnectPort": ("CTX", "MSG", "accept|refuse", "VIEW"),
    "NtCompleteConnectPort": ("H",),
    "NtRequestPort": ("H", "MSG"),
    "NtRequestWaitReplyPort": ("H", "MSG"),
    "NtReplyPort": ("H", "MSG"),
    "NtReplyWaitReceivePort": ("H", "[MSG]"),
    "NtRegisterThreadTerminatePort": ("H",),
    "NtCreateProcess": ("PID", "TID"),
    "NtCreateThread": ("H|self", "TID"),
    "NtTerminateThread": ("H|self", "CODE"),
    "NtTerminateProcess": ("H|self", "CODE"),
    "NtSetInformationProcess": ("H|self", "CLASS", "PORT"),
    "raise": ("CODE", "handled|unhandled"),
    "NtCreateSection": ("SIZE", "PROT"),
    "NtMapViewOfSection": ("H", "OFFSET", "SIZE", "PROT"),
    "NtUnmapViewOfSection": ("ADDRESS",),
    "NtReadVirtualMemory": ("ADDRESS", "LEN"),
    "NtWriteVirtualMemory": ("ADDRESS", "HEX"),
    "NtReadRequestData": ("H", "MSG", "INDEX", "LEN"),
    "NtWriteRequestData": ("H", "MSG", "INDEX", "HEX"),
    "NtImpersonateClientOfPort": ("H", "MSG"),
    "NtSetInformationThread": ("CLASS", "null"),
    "NtOpenThreadToken": (),
    "NtOpenProcessToken": (),
    "NtQueryInformationToken": ("H", "CLASS"),
    "NtClose": ("H",),
    "NtDuplicateObject": ("H", "ACCESS|same"),
    "NtQueryObject": ("H",),
}
# Each word of a form: what it is, and a word that may stand in its place.
WORDS = {
    "PID": ("a process: a number from 1 to 2147483647", "4"),
    "TID": ("a thread: a number from 1 to 2147483647", "4"),
    "H": ("a handle: a number from 0 to 4294967295", "4"),
    "H|self": ("a handle: a number from 0 to 4294967295, or self", "self"),
    "PORT": ("a handle to a port: a number from 0 to 4294967295", "4"),
    "CODE": ("a code: a number from 0 to 4294967295", "0"),
    "CTX": ("a context: a number from 0 to 4294967295", "4"),
    "SIZE": ("a size: a number from 0 to 4294967295", "0"),
    "OFFSET": ("an offset: a number from 0 to 4294967295", "0"),
    "ADDRESS": ("an address: a number from 0 to 4294967295", "0x10000"),
    "INDEX": ("an entry of a range table: a number from 0 to 4294967295", "0"),
    "LEN": ("a length: a number from 0 to 4294967295", "4"),
    "PROT": ("a protection: a number, 2 to be read alone or 4 to be written too", "4"),
    "HEX": ("bytes: a pair of hexadecimal digits for each", "00"),
    "MSG": ("a message: m:HEX, d:HEX or r:P.T.M:HEX", "d:"),
    "[MSG]": ("a message, or nothing: m:HEX, d:HEX or r:P.T.M:HEX", "d:"),
    "INFO": ("the bytes of a connect: - for none, or d:HEX", "-"),
    "NAME": ("a name: any word", "-"),
    "PATH": ("a path: any word", "\\"),
    "TARGET": ("a path: any word", "\\"),
    "TOKEN": ("a token's name: 1 to 32 letters, digits or _", "T"),
    "[TOKEN]": ("a token's name, or nothing: 1 to 32 letters, digits or _", "T"),
    "USER": ("a user: a SID, as S-1-5-18", "S-1-5-18"),
    "[GROUP]": ("a group, or nothing: a SID, as S-1-1-0", "S-1-1-0"),
    "[DACL]": ("a list of who may connect, or nothing: acl: and entries A/MASK/SID or D/MASK/SID", "acl:"),
    "QOS": ("a quality of service: - for q:2:d, or q:L:s or q:L:d", "-"),
    "CLASS": ("a class: a number from 0 to 4294967295", "5"),
    "null": ("the word null", "null"),
    "win32": ("a kind of server: win32", "win32"),
    "VIEW": ("a view: - for none, or w:H:OFFSET:SIZE", "-"),
    "ACCESS|same": ("rights: a number from 0 to 4294967295, or same", "same"),
    "accept|refuse": ("accept or refuse", "accept"),
    "handled|unhandled": ("handled or unhandled", "handled"),
}
NUMBER = "decimal without leading zeros, or a small 0x and 1 to 8 hexadecimal digits"
HEX = "pairs of hexadecimal digits, or nothing"
FIRST = f"a directive ({', '.join(DIRECTIVES)}), or a thread's number and behind it a call"


def named(name):
    """The words of a call's or directive's lines; None where the name is neither. The first word of a directive and the
    name of a call stand for themselves."""
    if name in DIRECTIVES:
        return (name, *DIRECTIVES[name])
    return ("TID", name, *CALLS[name]) if name in CALLS else None


def form_of(name):
    """A line's form, as `TID NtListenPort H`; None where the name is neither a call nor a directive. Of the groups of a
    token the form has one, with two points behind it."""
    words = named(name)
    if words is None:
        return None
    others = [it for it in words if it != "[GROUP]"]
    return " ".join(others if len(others) == len(words) else [*others, "[GROUP] .."])


def of_words(words):
    """For each word of a line the word of the form that stands in its place, as far as the line's form is known."""
    known = named(words[0]) if words and words[0] in DIRECTIVES else None
    return known or (named(words[1]) if len(words) > 1 and words[1] in CALLS else ())
