"""What a transcript tells beside its entries: which messages were received, and of which process a thread is."""

# The call that shows a message to the thread that asked, and not to one that receives.
ASKS = "NtRequestWaitReplyPort"


def received(transcript):
    """The messages that are shown to the threads that receive them, in their order."""
    return [it.message() for it in transcript.entries if it.call != ASKS and it.message()]


def processes(transcripts, script=None):
    """The process of each thread, as far as the script's directives or a message's ClientId tell it."""
    found = script.processes(transcripts[0]) if script else {}
    for transcript in transcripts:
        for shown in received(transcript):
            found.setdefault(shown.thread, shown.process)
    return found
