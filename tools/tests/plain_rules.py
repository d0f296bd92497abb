"""What the plain implementation goes by: statuses, paths, range tables, and the rules that can be broken."""

# The calls and directives that the plain implementation doesn't have; `hunt` makes no lines of them.
LEFT_OUT = {
    "NtCreateSection",
    "NtMapViewOfSection",
    "NtUnmapViewOfSection",
    "NtReadVirtualMemory",
    "NtWriteVirtualMemory",
    "NtReadRequestData",
    "NtWriteRequestData",
    "token",
    "resident",
    "turn",
    "NtImpersonateClientOfPort",
    "NtSetInformationThread",
    "NtOpenThreadToken",
    "NtOpenProcessToken",
    "NtQueryInformationToken",
    "NtSetInformationProcess",
    "raise",
}
WRONGS = {
    "newest-first": "a receive takes the newest message of the queue",
    "newest-waiter": "a message wakes the thread that has waited shortest",
    "id-alone": "a reply fits a request by its thread and identifier, through any port",
    "unreceived": "a reply fits a request that wasn't received",
    "31-datagrams": "a port has room for 31 datagrams",
    "counted-at-queue": "datagrams are counted by the queue that they enter",
    "refused-draws": "a refused datagram or request draws an identifier",
    "process-ids": "identifiers are drawn by process",
    "no-reuse": "a free handle isn't given again",
    "no-context": "a client's message has the context 0",
    "reply-type": "a reply keeps type 1",
    "waiters-stay": "a port that closes wakes no receives that wait on it",
    "other-end-stays": "a port that closes ends no requests of its other end",
    "no-port-closed": "a client port's end isn't told",
    "no-client-died": "a thread's end isn't told on the ports that it registered",
    "connects-first": "a port that closes ends the connects before the requests in its queue",
    "wake-first": "the wake of a reply stands before the caller's own entry",
    "accept-unreceived": "a connect can be accepted that wasn't received",
    "accept-elsewhere": "a connect is accepted without a handle to its connection port",
    "info-lost": "what accepted a connect isn't its info",
    "name-stays": "the name of a connection port stays when it closes",
    "close-by-handle": "a port closes with any of its handles",
    "listen-takes-all": "a listen takes any message",
    "register-twice": "a port that is registered again is told twice",
    "one-name-space-of-births": "a connect counts for nothing among what a thread has made",
    "message-last": "a send looks for its way before it reads the message",
    "all-rights": "a duplicate grants what the first handle does",
    "cut-by-close-alone": "a client's death doesn't cut the pair of an accepted connect",
    "access-first": "a call tests what a handle grants before the kind of its object",
    "room-first": "NtCreatePort tests the room for a handle before the name",
    "reply-first": "the reply of a receive is made where the receive is refused",
    "33-links": "a path may lead along 33 links",
    "255-bytes": "a path has 255 bytes at most",
    "case-blind": "names are compared without the case of their letters",
    "last-link-stays": "a link that is the last component of a path isn't followed",
    "table-uncounted": "a range table may have more entries than the message has room for",
    "connects-unreserved": "threads that wait in a connect don't count among the handles",
    "ended-children-count": "children that have ended count among the 64",
    "closed-uncounted": "ports that are closed don't count among the 16 that a thread registered",
    "numbers-again": "the number of a thread that has ended is free again",
    "accepted-again": "a connect that is accepted can be answered again",
    "cut-loses-queue": "nothing is received on a client port whose pair is cut, whatever stands in its queue",
    "queue-stays": "the datagrams in the queue of a port that closes stay there",
    "wakes-by-number": "a port that closes wakes its receives by the numbers of their threads",
    "handles-by-age": "a process that ends closes its handles in the order in which it got them",
    "died-by-number": "the threads of a process end in the order of their numbers",
    "one-by-one": "a thread's end is told before the next thread of the process ends",
    "last-registered-first": "a thread's end is told on the port first that it registered last",
    "died-without-context": "a thread's end has the context 0",
    "births-of-directives": "a thread's end names the thread itself, whoever made it",
    "request-once": "a request that is queued counts once for the port on which it was sent",
    "sweep-once": "what only a port named that goes, stays until the next line",
    "short-identifiers": "behind 65,535 a thread's identifiers begin anew",
}
OK, HANDLE, CID, PARAMETER, DENIED, TYPE = "00000000", "c0000008", "c000000b", "c000000d", "c0000022", "c0000024"
LONG, NAME, ABSENT, COLLISION, GONE = "c000002f", "c0000033", "c0000034", "c0000035", "c0000037"
PATH, SYNTAX, REFUSED, KIND, QUOTA = "c000003a", "c000003b", "c0000041", "c0000042", "c0000044"
MISMATCH, LOST = "c000021f", "c0000253"
REQUEST, REPLY, DATAGRAM, CLOSED, DIED, CONNECT = 1, 2, 3, 5, 6, 10
ALL = 0x1F0001


class No(Exception):
    """A refusal, with its status."""


class It:
    """A thing with parts."""

    def __init__(self, kind, **parts):
        self.kind = kind
        self.__dict__.update(parts)


def parts_of(path, most=256):
    """The components of a path; a refusal where it is none."""
    if not path.startswith("\\"):
        raise No(SYNTAX)
    parts = path[1:].split("\\") if path != "\\" else []
    if len(path) > most or "" in parts:
        raise No(NAME)
    return parts


def table(ranges, data, counted):
    """Whether a range table stands where a message says, with room for its entries where these are counted."""
    at = ranges - 24
    if at < 0 or at + 4 > len(data):
        return False
    return not counted or at + 4 + 8 * int.from_bytes(data[at : at + 4], "little") <= len(data)
