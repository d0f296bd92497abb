"""Why an answer is right: the rules of docs/SERVICES.md, a sentence each, by call and by what of an entry they rule.

`REFUSALS` has for each call and directive its refusals in the order in which they are tested, and `RULES` all else.
A key of `RULES` is a call (or `*` for all) and what is ruled. A value is the sentence, and the heading of its page.
"""

# A refusal: the status, and what has to hold for it.
HANDLE = (
    ("c0000008", "no handle of the caller's process has the value"),
    ("c0000024", "the handle is one to something that is no port"),
    ("c0000022", "the handle doesn't grant the right to use the port"),
)
MESSAGE = (
    ("c000000d", "the bytes are no message of lawful shape"),
    ("c000002f", "the MessageSize is above 256"),
)
CLIENT = (("c000000b", "no live thread has the thread number and the process number that the message names"),)
PATH = (
    ("c000003b", "the path doesn't begin with a backslash"),
    ("c0000033", "a component of the path is empty, or it has more than 256 bytes"),
    ("c000003a", "an inner component of the path is missing, or is no directory"),
    ("c0000033", "a link gives way to a path of more than 256 bytes, or is the 33rd on the way"),
)
QUOTA = (("c0000044", "the process has 256 handles, its threads that wait in a connect counted among them"),)
CLOSED = "c0000037"
OFFERED = (
    ("c0000008", "a view is offered, and no handle of the caller's process has its value"),
    ("c0000024", "a view is offered, and its handle is one to something that is no section"),
    ("c0000022", "a view is offered, and its handle doesn't grant the right 2, to map a view that may be written"),
)
PART = (
    ("c0000220", "a view is offered, and its offset is no multiple of 4096"),
    ("c000004e", "a view is offered, and its section is one to be read alone"),
    ("c000001f", "a view is offered that would pass the section's end, or begin there"),
)
NO_HANDLE, NO_RIGHT = HANDLE[0], ("c0000022", "ACCESS has a bit that the handle's own access lacks")
PROTECTION = ("c0000045", "the protection is neither 2, to be read alone, nor 4, to be written too")
REQUEST_DATA = (
    *HANDLE,
    *MESSAGE,
    *CLIENT,
    ("c000021f", "the message fits no request through this port; an event is none"),
    ("c000000d", "the request's own range table has no such entry"),
)
NOTHING_FITS = ("c000021f", "the message fits no request and no event through this port")
NO_WAY = (CLOSED, "the pair of the port is cut or was never made, or the port to which the message would go isn't open")

REFUSALS = {
    "boot": (
        ("c0000034", "no token has the name"),
        ("c0000035", "the number of the process or of the thread was used before"),
    ),
    "thread": (
        ("c000000b", "no live process has the number"),
        ("c0000035", "the number of the thread was used before"),
        ("c0000044", "the process has 64 live threads"),
    ),
    "token": (("c0000035", "a token has the name already"),),
    "dir": (*PATH, ("c0000035", "something stands there already")),
    "link": (
        ("c000003b", "the target doesn't begin with a backslash"),
        ("c0000033", "a component of the target is empty, or it has more than 256 bytes"),
        *PATH,
        ("c0000035", "something stands at the path already"),
    ),
    "resident": (
        ("c000000b", "no live thread has the number"),
        ("c0000035", "a server is on the thread already"),
    ),
    "turn": (("c000000b", "no live thread has the number, or no server is on it"),),
    "NtCreatePort": (*PATH, ("c0000035", "something stands there already"), *QUOTA),
    "NtConnectPort": (
        *OFFERED,
        ("c000002f", "INFO has more than 232 bytes"),
        *PART,
        *PATH,
        ("c0000034", "nothing stands there"),
        ("c0000024", "a directory stands there"),
        ("c00000a5", "the thread acts as a client whose level is below 2"),
        ("c0000022", "the port's access list doesn't grant right 1 to the token with which the thread acts"),
        *QUOTA,
        ("c0000044", "a view is offered, and the process has 128 views, or no place is left for it"),
    ),
    "NtListenPort": (*HANDLE, ("c0000042", "the port is no connection port")),
    "NtAcceptConnectPort": (
        *OFFERED,
        *MESSAGE,
        *CLIENT,
        (
            "c000021f",
            "the message names no connect that was received, isn't accepted, and went to a port of the caller's "
            "process",
        ),
        *PART,
        *QUOTA,
        ("c0000044", "with the views of the connection the caller's process or the client's would have more than 128"),
    ),
    "NtCompleteConnectPort": (
        *HANDLE,
        ("c0000042", "the port is no server port"),
        ("c000000d", "its connection is completed already"),
        (CLOSED, "the pair of the port is cut"),
    ),
    "NtRequestPort": (
        *HANDLE,
        *MESSAGE,
        NO_WAY,
        ("c0000044", "32 datagrams that were sent on the port aren't received"),
    ),
    "NtRequestWaitReplyPort": (*HANDLE, *MESSAGE, NO_WAY),
    "NtReplyPort": (*HANDLE, *MESSAGE, *CLIENT, NOTHING_FITS),
    "NtReplyWaitReceivePort": (
        *HANDLE,
        *MESSAGE,
        (CLOSED, "the queue isn't open, or the port is a client port with a cut pair and an empty queue"),
        *CLIENT,
        NOTHING_FITS,
    ),
    "NtRegisterThreadTerminatePort": (*HANDLE, ("c0000044", "the thread has registered 16 other ports")),
    "NtCreateProcess": (
        ("c0000035", "the number of the process or of the thread was used before"),
        ("c0000044", "the caller's process has 64 live children"),
        ("c0000044", "two handles more would be more than 256, threads that wait in a connect counted among them"),
    ),
    "NtCreateThread": (
        NO_HANDLE,
        ("c0000024", "the handle is one to something that is no process"),
        ("c0000022", "the handle doesn't grant the right to make a thread of the process"),
        ("c000000b", "the process has ended"),
        ("c0000035", "the number of the thread was used before"),
        ("c0000044", "the process has 64 live threads"),
        ("c0000044", "the caller's process has 256 handles, its threads that wait in a connect counted among them"),
    ),
    "NtTerminateThread": (
        NO_HANDLE,
        ("c0000024", "the handle is one to something that is no thread"),
        ("c0000022", "the handle doesn't grant the right to end the thread"),
        ("c000000b", "the thread has ended"),
    ),
    "NtTerminateProcess": (
        NO_HANDLE,
        ("c0000024", "the handle is one to something that is no process"),
        ("c0000022", "the handle doesn't grant the right to end the process"),
        ("c000000b", "the process has ended"),
    ),
    "NtSetInformationProcess": (
        NO_HANDLE,
        ("c0000024", "the handle is one to something that is no process"),
        ("c0000022", "the handle doesn't grant the right to set the port of the process"),
        ("c0000008", "no handle of the caller's process has the value of the port"),
        ("c0000024", "the port's handle is one to something that is no port"),
        ("c0000022", "the port's handle doesn't grant the right to use the port"),
        ("c000000b", "the process has ended"),
        ("c000000d", "the class is neither 7 nor 8"),
        ("c0000048", "the process has a port of this class already, open or not"),
    ),
    "NtCreateSection": (
        PROTECTION,
        ("c00000f2", "the size is 0"),
        ("c0000040", "the size is above 4 MiB"),
        ("c0000044", "the sections that the caller's process made would have more than 4 MiB together"),
        *QUOTA,
    ),
    "NtMapViewOfSection": (
        NO_HANDLE,
        ("c0000024", "the handle is one to something that is no section"),
        ("c0000022", "the handle doesn't grant the right: 2 where the protection is 4, and 4 where it is another"),
        ("c0000220", "the offset is no multiple of 4096"),
        PROTECTION,
        ("c000004e", "the view is to be written, and the section is one to be read alone"),
        ("c000001f", "the view would pass the section's end, or begin there"),
        ("c0000044", "the process has 128 views, or no place is left for the view"),
    ),
    "NtUnmapViewOfSection": (("c0000019", "no view of the caller's process holds the address"),),
    "NtReadVirtualMemory": (
        ("c000000d", "the length is 0, or above 4096"),
        ("c0000005", "no one view of the caller's process holds all bytes of the range"),
    ),
    "NtWriteVirtualMemory": (
        ("c000000d", "there are more than 4096 bytes"),
        ("c0000005", "no one view of the caller's process holds all bytes of the range, or it is one to be read alone"),
    ),
    "NtReadRequestData": (
        *REQUEST_DATA,
        ("c000000d", "the length is 0, above 4096, or above the size of the entry"),
        ("c0000005", "no one view of the client's process holds all bytes of the range"),
    ),
    "NtWriteRequestData": (
        *REQUEST_DATA,
        ("c000000d", "there are more than 4096 bytes, or more than the entry has"),
        ("c0000005", "no one view of the client's process holds all bytes of the range, or it is one to be read alone"),
    ),
    "NtImpersonateClientOfPort": (
        *HANDLE,
        *MESSAGE,
        ("c0000042", "the port is no server port"),
        *CLIENT,
        ("c000021f", "the message names no request of the port's client that was received; an event is none"),
    ),
    "NtSetInformationThread": (("c000000d", "the class isn't 5"),),
    "NtOpenThreadToken": (
        ("c000007c", "the thread acts as itself"),
        ("c00000a6", "the thread acts as a client whose level is 0"),
        *QUOTA,
    ),
    "NtOpenProcessToken": QUOTA,
    "NtQueryInformationToken": (
        NO_HANDLE,
        ("c0000024", "the handle is one to something that is no token"),
        ("c0000022", "the handle doesn't grant the right to query the token"),
        ("c000000d", "the class isn't 1, 2 or 9, or it is 9 and the token is that of a process"),
    ),
    "NtClose": (NO_HANDLE,),
    "NtDuplicateObject": (NO_HANDLE, NO_RIGHT, *QUOTA),
    "NtQueryObject": (NO_HANDLE,),
}

SERVICES, SCRIPTS = "SERVICES.md", "SCRIPTS.md"
SHARED = f"{SERVICES}, Rules that all calls share"
KINDS = f"{SERVICES}, The four kinds of port"
WRITTEN = f"{SERVICES}, What the machine writes over"
TAKERS = f"{SERVICES}, Who takes a message"
FITS = f"{SERVICES}, What fits a reply"
CLOSING = f"{SERVICES}, Closing a port"
TOLD = f"{SERVICES}, Port closed"
VIEWS = f"{SERVICES}, Sections and views"
ENDING = f"{SERVICES}, Threads and processes that end"
DIED = f"{SERVICES}, Client died"
CHANCES = f"{SERVICES}, The chances of an exception"
EVENTS = f"{SERVICES}, Events"
ANSWERS = f"{SERVICES}, Replies to an event"
SETTLING = f"{SERVICES}, Settling"
TRANSCRIPT = f"{SCRIPTS}, The transcript"
FAULTS = f"{SCRIPTS}, Faulty lines"


def of_call(call):
    """The heading of a call or directive."""
    return f"{SERVICES}, {'Directives' if call in ('boot', 'thread', 'token', 'dir', 'link', 'resident', 'turn') else call}"


_OLDEST_TAKER = (
    "A message that enters a queue goes at once to the thread that has waited longest there: any message to a receive,"
    " a connection request also to a listen."
)
_STEPS = (
    "What a closing port ends, it ends in this order: receives and listens; requests that were sent on the port; "
    "requests that stand in its queue; connects that wait for it and aren't accepted; then at its other end a connect "
    "that isn't completed, requests that were sent there, and receives there. Inside a step the one that has waited "
    "longest is first. Events of these ports go on behind all that."
)
_SETTLES = (
    "Behind all that a line's call does, events that weren't handled go on, in the order in which they came to that; "
    "where none is left, the process of the least number ends whose exception nothing handled, and so on until nothing "
    "is left to do."
)
_EVENT_GOES_ON = (
    "An event that was replied to without 02000100 in front, or whose port closed, goes on to the next chance of its "
    "exception: the frame handlers, whose answer is the word of the raise, the debug port again, the exception port."
)
_HANDLES_CLOSE = (
    "When the last live thread of a process has died, the process's handles are closed, those with lower values first, "
    "each as NtClose closes it."
)
_REPLY_WAKES = "A reply that fits wakes the thread that asked, and nobody else."
_REPLY_TO_EVENT = (
    "A reply that fits an event wakes its thread with 00010002 where the data begin with 02000100. Any other one sends "
    "it on: its thread wakes with 00000000 where the frame handlers come next and handle it."
)
_AS_GIVEN = "DataSize, MessageSize, VirtualRangesOffset and the data stay as the caller gave them"
_SENT = f"{_AS_GIVEN}; a message that the machine makes has MessageSize 24 + DataSize and no range table."

RULES = {
    # The caller's own entry.
    ("*", "own"): (
        "Each line that makes a call, or is a directive, has one entry of its own, and a wake for each wait that it "
        "ends; a comment and a line without a word have none.",
        TRANSCRIPT,
    ),
    ("*", "first"): (
        "The entry of the line's own thread is the first of its step, and the threads that died and the wakes follow "
        "it.",
        TRANSCRIPT,
    ),
    ("*", "thread"): (
        "The entry names the thread of the script's line, or `-` where the line is a directive.",
        TRANSCRIPT,
    ),
    ("died", "own"): (
        "A thread that ends itself has no answer, neither alone nor with its process, by self or by a handle: its own "
        "entry is that it died. One that ends others has its answer, and their deaths stand behind it.",
        ENDING,
    ),
    ("died", "who"): (
        "NtTerminateThread ends the thread that it names, NtTerminateProcess all live threads of the process, in the "
        "order in which they were made. An exception that nothing handles ends all live threads of its process so, "
        "behind all else that its line does.",
        ENDING,
    ),
    ("died", "code"): (
        "A thread dies with the code of the call, or with that of the exception that ended its process, in 8 "
        "hexadecimal digits. Of two exceptions of one process the one counts that found no handler first.",
        ENDING,
    ),
    ("died", "first"): (
        "All threads that a call ends die before its line tells of anything else, but for the call's answer.",
        ENDING,
    ),
    ("died", "settles"): (_SETTLES, SETTLING),
    ("*", "call"): ("An answer and a wait name the call of the line; a wake names the call that waited.", TRANSCRIPT),
    ("*", "busy"): (
        "A thread that waits can make no call: its line is answered `busy`, and nothing changes. Once its wait ended "
        "it can.",
        SHARED,
    ),
    ("*", "nothread"): (
        "A line whose number is that of no live thread is answered `nothread`, and nothing changes.",
        SHARED,
    ),
    ("*", "waits"): (
        "Only NtConnectPort, NtListenPort, NtRequestWaitReplyPort, NtReplyWaitReceivePort and raise can wait.",
        f"{SERVICES}, Ports and connections, and Messages, and Exceptions",
    ),
    ("raise", "waits"): (
        "A raise waits where an event is sent: to the debug port of its process first, and where the frame handlers "
        "don't handle it to the debug port or the exception port. It returns at once with 00000000 where no debug port "
        "has a way and the frame handlers handle it.",
        CHANCES,
    ),
    ("NtConnectPort", "waits"): (
        "A connect that isn't refused always waits: it returns when the connection is completed or refused, or a "
        "closing ends it.",
        of_call("NtConnectPort"),
    ),
    ("NtListenPort", "waits"): (
        "A listen takes the oldest connection request of the port's queue at once, and waits only where none stands "
        "there; other messages don't count.",
        of_call("NtListenPort"),
    ),
    ("NtRequestWaitReplyPort", "waits"): (
        "A request that isn't refused always waits: it returns with the reply, or when a closing ends it.",
        of_call("NtRequestWaitReplyPort"),
    ),
    ("NtReplyWaitReceivePort", "waits"): (
        "A receive takes the oldest message of the queue at once, and waits only where the queue is empty.",
        of_call("NtReplyWaitReceivePort"),
    ),
    ("*", "port closed"): (
        "When a client port of a completed connection closes and its connection port is open, a message of type 5 "
        "enters the connection port's queue, once for each such port.",
        TOLD,
    ),
    ("*", "client died"): (
        "When a thread dies, a message of type 6 is sent on each port that it has registered, in the order of "
        "registration, where that port is open and what is sent on it has a way.",
        DIED,
    ),
    # Fields.
    ("*", "fields"): (
        "Each answer has the fields of its call in the order of its page, and a refused call has none.",
        SERVICES,
    ),
    ("*", "h"): (
        "A new handle is the least multiple of 4, from 4, that no handle of the process has; a value is free again "
        "once its handle is closed.",
        SHARED,
    ),
    ("NtCreateProcess", "thread"): (
        "The handle to the new process is the least multiple of 4, from 4, that no handle of the caller's process has, "
        "and `thread`, the handle to its first thread, the next one that is free.",
        of_call("NtCreateProcess"),
    ),
    ("NtConnectPort", "h"): (
        "The client's handle is the least multiple of 4, from 4, that is free in its process when the connection is "
        "completed.",
        of_call("NtConnectPort"),
    ),
    ("*", "id"): (
        "Each thread draws identifiers of its own, 1, 2 and so on: one for each datagram, request and connect that "
        "isn't refused, one for each event of its exceptions, and none for anything else.",
        SHARED,
    ),
    ("*", "ctx"): (
        "A message that was sent on a client port, also an event, and one that tells of its end, have the context with "
        "which its connect was accepted; every other one, also what a server port sends and a connection request, has "
        "0.",
        KINDS,
    ),
    ("NtConnectPort", "max"): ("A message has at most 256 bytes, which `max` tells.", of_call("NtConnectPort")),
    ("NtConnectPort", "info"): (
        "`info` is the data of the message that accepted or refused the connect, and empty where a closing ended it.",
        of_call("NtConnectPort"),
    ),
    ("NtConnectPort", "base"): (
        "The view that a connect offers is mapped by its call, at the least multiple of 65536, from 00010000, where it "
        "meets no other view of its process.",
        of_call("NtConnectPort"),
    ),
    ("NtConnectPort", "target"): (
        "A client that offered a view is told where the accept mapped it in the server's process, behind the server's "
        "own view where there is one.",
        of_call("NtAcceptConnectPort"),
    ),
    ("NtConnectPort", "vbase"): (
        "Where the server offered a view, the client is told where it lies in the client's own process: the accept "
        "maps it last, at the least base that is free.",
        of_call("NtAcceptConnectPort"),
    ),
    ("NtConnectPort", "vsize"): (
        "`vsize` is the size of the server's view in whole pages of 4096 bytes; size 0 asks for the rest of the "
        "section.",
        of_call("NtAcceptConnectPort"),
    ),
    ("NtAcceptConnectPort", "base"): (
        "The server's own view is mapped first, at the least base that is free in the caller's process.",
        of_call("NtAcceptConnectPort"),
    ),
    ("NtAcceptConnectPort", "target"): (
        "`target` is where the server's view lies in the client's process: the accept maps it there last, at the least "
        "base that is free.",
        of_call("NtAcceptConnectPort"),
    ),
    ("NtAcceptConnectPort", "vbase"): (
        "The client's view is mapped into the caller's process behind the server's own, at the least base that is "
        "free.",
        of_call("NtAcceptConnectPort"),
    ),
    ("NtAcceptConnectPort", "vsize"): (
        "`vsize` is the size of the client's view in whole pages of 4096 bytes, as the SectionSize of the connection "
        "request told it.",
        of_call("NtAcceptConnectPort"),
    ),
    ("NtMapViewOfSection", "base"): (
        "A view lies at the least multiple of 65536, from 00010000, where it meets no other view of its process.",
        VIEWS,
    ),
    ("NtMapViewOfSection", "size"): (
        "`size` is the size of the view in whole pages of 4096 bytes; size 0 asks for the rest of the section.",
        of_call("NtMapViewOfSection"),
    ),
    ("NtReadVirtualMemory", "data"): (
        "A section holds zeros at first, and then what was written last, through whichever view; a view shows it from "
        "its offset on.",
        VIEWS,
    ),
    ("NtReadRequestData", "data"): (
        "The bytes are those that the client's process has now from the base of the entry on. The entry is that of the "
        "request as it was sent.",
        of_call("NtReadRequestData"),
    ),
    ("NtQueryInformationToken", "user"): (
        "`user` is the user of the token. A token that was opened stays as it was then, also where the thread acts as "
        "another one later.",
        of_call("NtQueryInformationToken"),
    ),
    ("NtQueryInformationToken", "groups"): (
        "`groups` are the groups of the token in the order in which its `token` line has them.",
        of_call("NtQueryInformationToken"),
    ),
    ("NtQueryInformationToken", "level"): (
        "`level` is the lesser of the level of the connect's QOS and that with which the client's thread acts, or with "
        "static tracking acted when it connected, which is 3 where it acts as itself.",
        of_call("NtImpersonateClientOfPort"),
    ),
    ("NtQueryObject", "type"): (
        "`type` is the kind of object that the handle names: `port`, `section`, `token`, `process` or `thread`.",
        of_call("NtQueryObject"),
    ),
    ("NtQueryObject", "access"): (
        "`access` is what this very handle grants: 001f0001 for a new port's, 000f001f for a new section's, 00000001 "
        "for that of a new process or thread and of a token, and for a duplicate's the ACCESS that was given, or for "
        "`same` what the other handle grants.",
        of_call("NtQueryObject"),
    ),
    ("NtQueryObject", "handles"): ("`handles` is how many handles name the object.", of_call("NtQueryObject")),
    ("NtQueryObject", "pointers"): (
        "`pointers` counts the handles to the object. For a port it also counts the ports whose other end it is, the "
        "client and server ports whose connection port it is, the queued messages that were sent on it, the waits that "
        "were made on it, the live threads that registered it, the live processes whose debug port it is and those "
        "whose exception port, and the views that it owns; for a section the views "
        "that show it, and the connects that wait, offer it and aren't accepted; for a process its live threads; for a "
        "thread one while it lives.",
        of_call("NtQueryObject"),
    ),
    # Messages.
    ("*", "which message"): (
        "A receive takes the oldest message of the queue, whatever its type is.",
        TAKERS,
    ),
    ("NtListenPort", "which message"): (
        "A listen takes the oldest connection request of the queue, and leaves all other messages there.",
        TAKERS,
    ),
    ("*", "which type"): (
        "What is sent gets the type of its call, whatever type was given: 1 for NtRequestWaitReplyPort, 3 for "
        "NtRequestPort. A connection request has type 10, a client port's end type 5, a thread's end type 6, an event "
        "type 8 at the debug port and 7 at the exception port.",
        WRITTEN,
    ),
    ("NtRequestWaitReplyPort", "which type"): (
        "A reply is shown with type 2, whatever type its message was given.",
        WRITTEN,
    ),
    ("*", "which client"): (
        "The process and the thread that send are written over ClientId, whatever was given.",
        WRITTEN,
    ),
    ("NtRequestWaitReplyPort", "which client"): ("A reply keeps the ClientId that it was given.", WRITTEN),
    ("*", "which identifier"): (
        "The identifier that the sending thread drew is written over MessageId, a new one for each event; a client "
        "port's end has that of its connect, a thread's end 0.",
        WRITTEN,
    ),
    ("NtRequestWaitReplyPort", "which identifier"): ("A reply keeps the MessageId that it was given.", WRITTEN),
    ("*", "which section"): (
        "SectionSize is written over: with the size of the view that a connect offers in its connection request, and "
        "with 0 in every other message.",
        WRITTEN,
    ),
    ("*", "which bytes"): (_SENT, WRITTEN),
    ("*", "which closing"): (
        "The data of a client port's end are 8 bytes, low bytes first: the number of the thread that connected, and "
        "which of the things that this thread has made the client port was, from 1: ports, sections, tokens, processes "
        "and threads.",
        TOLD,
    ),
    ("*", "which death"): (
        "The data of a thread's end are 8 bytes, low bytes first: the thread that made it, and which of the things "
        "that this one has made it was, from 1; for a thread of a directive 0, and its own number.",
        DIED,
    ),
    ("*", "which event"): (
        "The data of an event are 8 bytes, low bytes first: the code of the exception, and the chance, 1 where the "
        "debug port is asked before the frame handlers, and else 2.",
        EVENTS,
    ),
    # Wakes, by the call of the line and the call that waited.
    ("*", "taker"): (_OLDEST_TAKER, TAKERS),
    ("NtReplyPort", "wakes NtRequestWaitReplyPort"): (_REPLY_WAKES, FITS),
    ("NtReplyWaitReceivePort", "wakes NtRequestWaitReplyPort"): (
        f"The reply is made first. {_REPLY_WAKES} Its entry stands behind the caller's.",
        of_call("NtReplyWaitReceivePort"),
    ),
    ("NtReplyPort", "wakes raise"): (_REPLY_TO_EVENT, ANSWERS),
    ("NtReplyWaitReceivePort", "wakes raise"): (_REPLY_TO_EVENT, ANSWERS),
    ("NtReplyPort", "wakes NtReplyWaitReceivePort"): (f"{_EVENT_GOES_ON} {_OLDEST_TAKER}", SETTLING),
    ("NtReplyWaitReceivePort", "wakes NtReplyWaitReceivePort"): (f"{_EVENT_GOES_ON} {_OLDEST_TAKER}", SETTLING),
    ("raise", "wakes NtReplyWaitReceivePort"): (_OLDEST_TAKER, TAKERS),
    ("NtClose", "wakes raise"): (_EVENT_GOES_ON, SETTLING),
    ("died", "wakes raise"): (_EVENT_GOES_ON, SETTLING),
    ("NtRequestPort", "wakes NtReplyWaitReceivePort"): (_OLDEST_TAKER, TAKERS),
    ("NtRequestWaitReplyPort", "wakes NtReplyWaitReceivePort"): (_OLDEST_TAKER, TAKERS),
    ("NtConnectPort", "wakes NtReplyWaitReceivePort"): (_OLDEST_TAKER, TAKERS),
    ("NtConnectPort", "wakes NtListenPort"): (_OLDEST_TAKER, TAKERS),
    ("NtRequestPort", "wakes NtListenPort"): ("A listen takes connection requests alone.", TAKERS),
    ("NtRequestWaitReplyPort", "wakes NtListenPort"): ("A listen takes connection requests alone.", TAKERS),
    ("NtAcceptConnectPort", "wakes NtConnectPort"): (
        "A connect that is refused ends at once with c0000041 and the data of the message; one that is accepted waits "
        "on.",
        of_call("NtAcceptConnectPort"),
    ),
    ("NtCompleteConnectPort", "wakes NtConnectPort"): (
        "Completing the connection wakes the thread that connected, with 00000000.",
        of_call("NtCompleteConnectPort"),
    ),
    ("NtClose", "wakes NtReplyWaitReceivePort"): (
        "With its last handle a port closes, and not before. Receives that were made on it, that wait on its queue, or"
        " at its other end where that is a client port, end with c0000037; and a client port's end goes to the receive"
        " that has waited longest.",
        CLOSING,
    ),
    ("NtClose", "wakes NtListenPort"): (
        "With its last handle a port closes, and not before. Listens that wait on its queue end with c0000037.",
        CLOSING,
    ),
    ("NtClose", "wakes NtRequestWaitReplyPort"): (
        "With its last handle a port closes, and not before. Requests that were sent on it end with c0000037; those "
        "that stand in its queue, or were sent on its other end, with c0000253.",
        CLOSING,
    ),
    ("NtClose", "wakes NtConnectPort"): (
        "With its last handle a port closes, and not before. A connect that waits for it and isn't accepted ends with "
        "c0000041 and an empty `info`, and so does one that is accepted and not completed where its server port "
        "closes.",
        CLOSING,
    ),
    ("NtClose", "order"): (_STEPS, CLOSING),
    ("died", "wakes NtReplyWaitReceivePort"): (
        f"{_OLDEST_TAKER} {_HANDLES_CLOSE}",
        ENDING,
    ),
    ("died", "wakes NtListenPort"): (_HANDLES_CLOSE, ENDING),
    ("died", "wakes NtRequestWaitReplyPort"): (_HANDLES_CLOSE, ENDING),
    ("died", "wakes NtConnectPort"): (_HANDLES_CLOSE, ENDING),
    ("died", "order"): (
        "First the ends of threads are told, thread by thread and port by port; then the handles of a process that has "
        f"no thread left are closed, those with lower values first. {_SETTLES}",
        ENDING,
    ),
    ("*", "order"): ("Wakes follow the caller's entry in the order in which they come about.", TRANSCRIPT),
    ("*", "wakes nobody"): (
        "This call wakes nobody: only what is sent, raised, replied, accepted, completed, closed or ended ends a wait.",
        SERVICES,
    ),
    # The last line.
    ("end", "LINES"): (
        "All lines of the script are counted: comments, lines without a word, and a rest without byte 10 that isn't "
        "empty.",
        TRANSCRIPT,
    ),
    ("end", "ENTRIES"): ("The second number is how many entries were printed.", TRANSCRIPT),
    ("end", "OBJECTS"): (
        "Processes, threads, ports, sections and tokens that are left are counted: live threads and their processes, "
        "those that have ended and that a handle names, ports, sections that a handle names, a view shows or a waiting "
        "connect offers, and tokens that a handle names. A port that "
        "nothing names any longer goes at the end of the line: no handle, no port as its other end or its connection "
        "port, no queued message that was sent on it, no wait that was made on it, no live thread that registered it, "
        "and no live process whose debug or exception port it is.",
        SHARED,
    ),
    ("stop", "LINE"): ("The script stops at its first faulty line; the lines before it are run and printed.", FAULTS),
    ("stop", "KIND"): (
        "A line's first fault is looked for in this order: its number and its length; its bytes; its first word; the "
        "call's name; the count of words; the words from left to right.",
        FAULTS,
    ),
    ("*", "last line"): (
        "Behind a well-formed script the last line is `end`, and at a faulty line `stop`.",
        TRANSCRIPT,
    ),
    # Names that differ.
    ("*", "renamed"): (
        "Names that differ have to differ alike everywhere: a handle as long as it stands, an identifier of a thread "
        "always.",
        SHARED,
    ),
}
# What a difference means for the system that GOT is of.
MEANS = {
    "missing": "it made no call in this line, or told nothing of it",
    "extra": "it told something of a line in which no call is made",
    "further": "it told of one thread twice in one line",
    "answers": "it answers a call that doesn't return",
    "lives": "the thread lives on there, and later lines of it make calls",
    "dies": "it ended a thread that nothing ends",
    "code": "it ended the thread with another code",
    "order of deaths": "it ended the threads in another order",
    "deaths": "it told of an end, or closed a handle, before all threads had died",
    "settles": "it did in another order what a line brings about behind its call",
    "which event": "it names another exception or another chance by the data of the message",
    "client died": "nothing told of the thread's end on the port that it had registered",
    "which death": "it names another thread by the data of the message",
    "first": "it told of a wake before it told of the call that made it",
    "thread": "it took the line for that of another thread",
    "call": "it made another call, or ended another one",
    "busy": "it takes the thread for one that waits: a wait went on that should have ended, or began where none should",
    "not busy": "it made a call of a thread that waits: the wait ended early, or never began",
    "nothread": "it knows no such thread: it wasn't made, or was ended",
    "not nothread": "it made a call of a thread that was never made",
    "refused": "it refuses a call that nothing speaks against",
    "let through": "it makes a call that has to be refused",
    "refused, otherwise": "it refuses the call for another cause, or tests the causes in another order",
    "waits": "the call waits, where it has to return at once",
    "returns": "the call returns at once, where it has to wait",
    "fields": "its answer has other parts",
    "h=": "it counts other handles of the process as taken",
    "thread=": "it counts other handles of the process as taken",
    "id=": "the thread drew more or fewer identifiers before this line",
    "ctx=": "the message came with the context of another connection, or of none",
    "handles=": "more or fewer handles name the object there",
    "pointers=": "more or fewer rows count for the object there",
    "user=": "the thread acts as another one there, or its process has another token",
    "groups=": "the token has other groups there, or has them in another order",
    "level=": "the client allowed another level there, or acts at another one itself",
    "value": "it tells another value",
    "which message": "it took another message from the queue than the oldest one",
    "port closed": "nothing told the server that the client's port closed",
    "which closing": "it names another port by the data of the message",
    "header": "it shows the message with another header or other data",
    "woken": "it woke another thread than the one whose turn it is",
    "asleep": "the thread waits on, and later lines of it are answered `busy`",
    "awake": "the thread's wait ended where nothing ended it",
    "ending": "the wait ended for another cause",
    "order": "it ended the waits in another order",
    "renamed": "it uses one name for two things, or two names for one",
    "LINES": "it counted the lines of the script in another way",
    "ENTRIES": "it printed more or fewer entries, or counted them wrong",
    "OBJECTS": "more or fewer objects are left: something was freed that still counts, or the other way round",
    "LINE": "it found the first faulty line elsewhere",
    "KIND": "it looks for the faults of a line in another order, or tells them apart in another way",
    "stops": "it takes a line for faulty that is well formed",
    "runs on": "it takes a faulty line for well formed",
    "broken off": "it ended before the script did",
    "not broken off": "it went on where the wanted transcript breaks off",
}


def rule(call, *what):
    """The sentence and its page for the first of `what` that has one, for the call before that for all calls."""
    for it in what:
        for key in ((call, it), ("*", it)):
            if key in RULES:
                return RULES[key]
    return None


def causes(call, status):
    """What has to hold where a call is refused with a status; None where the call is never refused so."""
    found = [cause for it, cause in REFUSALS.get(call, ()) if it == status]
    return "; or ".join(found) or None


def comes_before(call, first, second):
    """Whether one refusal of a call is tested before another, for each cause of both."""
    order = [status for status, _ in REFUSALS[call]]
    last = len(order) - 1 - order[::-1].index(first)
    return last < order.index(second)
