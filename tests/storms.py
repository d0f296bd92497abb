"""Storms, made anew from their rules: the script of so many rounds from a seed, and what a transcript sums up to."""

CLIENTS = range(1, 9)
FACTOR, SUMMAND = 1_664_525, 1_013_904_223


def rounds(count, seed):
    """The lines of so many rounds."""
    drawn, had = seed, dict.fromkeys(CLIENTS, 0)
    for _ in range(count):
        drawn = (drawn * FACTOR + SUMMAND) % 2**32
        client, kind = 1 + drawn // 65_536 % 8, drawn // 16_777_216 % 4
        process, thread, identifier, data = 100 + client, 200 + client, 2 + had[client], f"{drawn:08x}"
        had[client] += 1
        yield f"{thread} {'NtRequestWaitReplyPort' if kind else 'NtRequestPort'} 4 d:{data}"
        yield "24 NtReplyWaitReceivePort 4"
        replies = {0: [], 3: [(4, identifier + 1), (4 + 4 * client, identifier)]}.get(kind, [(4, identifier)])
        for handle, number in replies:
            yield f"24 NtReplyPort {handle} r:{process}.{thread}.{number}:{data}"


def lines(count, seed):
    """All lines of a storm, in order."""
    yield from ("dir \\S", "boot 20 24", "24 NtCreatePort \\S\\P")
    for client in CLIENTS:
        process, thread = 100 + client, 200 + client
        yield f"boot {process} {thread}"
        yield f"{thread} NtConnectPort \\S\\P - - -"
        yield "24 NtListenPort 4"
        yield f"24 NtAcceptConnectPort {client} r:{process}.{thread}.1: accept -"
        yield f"24 NtCompleteConnectPort {4 + 4 * client}"
    yield from rounds(count, seed)
    yield "24 NtTerminateProcess self 0"
    for client in CLIENTS:
        yield f"{200 + client} NtTerminateProcess self 0"


def script(count, seed):
    """The script of a storm."""
    return "".join(f"{line}\n" for line in lines(count, seed)).encode()


def summary(transcript):
    """The line that sums up a transcript which ends with `end`."""
    *entries, last = (line.split() for line in transcript.decode().splitlines())
    assert last[0] == "end", last
    replies = sum(it[1][0] == "*" and it[2:4] == ["NtRequestWaitReplyPort", "00000000"] for it in entries)
    mismatches = sum(it[1].isdecimal() and it[3:4] == ["c000021f"] for it in entries)
    counts = dict(zip(("lines", "entries", "objects"), last[1:]), replies=replies, mismatches=mismatches)
    told = " ".join(f"{name}={number}" for name, number in counts.items())
    return f"storm {told} sum={sum(transcript) % 2**32:08x}\n".encode()
