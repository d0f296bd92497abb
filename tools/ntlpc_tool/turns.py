"""What the server on a thread did in the line of a turn. docs/RESIDENT.md has the table of its calls.

A turn's line names the thread alone; the call stands in the transcript. So what is told here is read off the entries.
"""
from ntlpc_tool import facts, script_lines, statuses

TURN = "turn"
RECEIVE, ACCEPT, COMPLETE = "NtReplyWaitReceivePort", "NtAcceptConnectPort", "NtCompleteConnectPort"
DEEDS = {COMPLETE: "completes a connection", "NtClose": "lets a connection go"}


def thread_of(words):
    """The thread whose turn a line is, None where it is no turn."""
    return script_lines.number(words[1]) if len(words) == 2 and words[0] == TURN else None


def deed(words, step):
    """What the server did in a line, by the line's words and its entries; None where the line is no turn with a call."""
    thread = thread_of(words)
    own = next((it for it in step if it.thread == thread and it.kind in ("answer", "wait")), None)
    if thread is None or own is None:
        return None
    told = DEEDS.get(own.call) or {RECEIVE: _received, ACCEPT: _accepted}.get(own.call, _other)(own, step)
    failed = own.kind == "answer" and own.status != statuses.SUCCESS
    return f"the server {told}, which is refused" if failed else f"the server {told}"


def _received(own, step):
    """A receive, and before it perhaps a reply, which wakes the thread that asked."""
    asked = [it for it in step if it.kind == "wake" and it.call == facts.ASKS]
    reply = f"replies to thread {asked[0].thread} and " if asked else ""
    return f"{reply}receives"


def _accepted(own, _):
    """A connect is answered: it is accepted where there is a handle."""
    refused = own.status == statuses.SUCCESS and own.field("h") is None
    return "refuses a connect" if refused else "accepts a connect"


def _other(own, _):
    """A call that no server of the table makes."""
    return f"calls {own.call}"
