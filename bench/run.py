#!/usr/bin/env python3
"""How the program grows: processor seconds and peak memory, for scripts of three lengths and beside rows that stand.

    bench/run.py [PROGRAM]
    bench/run.py --peer PEER [--longest LINES] [PROGRAM]

PROGRAM is crates/ntlpc/out/ntlpc where it isn't given. Each script is run once; the table goes to standard output. A
second table has scripts beside 5,000 rows that stand: processes, threads that wait on a port each, connects that wait
for one port, names, messages in queues, sections, sections that only a view shows, or tokens that were opened. Each is
run five times, and what making the rows takes is taken off.

With --peer the program and PEER, another one that replays the same scripts, are run in turn, five times each, over seven
kinds of scripts of about 1,000, 10,000, 100,000 and 1,000,000 lines, or up to LINES. What counts is the least processor
time. The first table tells how fast the program is beside the peer, and how much memory each takes; the second, by how
much a line of a long script costs more than one of a script a tenth or a hundredth as long.

The exit status is 0, also where a run of the program ended otherwise, which the table tells; 64 where the words of this
call are wrong.
"""
import argparse
import math
import os
import resource
import shutil
import subprocess
import sys
import tempfile
import time

LONG = (1_000, 10_000, 100_000)
# In the form of states each line takes time for all rows that stand, which of requests are few.
SHORT = (1_000, 3_000, 10_000)
FEW = (100, 300, 1_000)
# Beside a peer: the lengths, and how often each script is run.
LENGTHS = (1_000, 10_000, 100_000, 1_000_000)
TURNS = 5
# Rows that stand: how many, and the lines of a script beside them.
STANDING = 5_000
LINES_BESIDE = 100_000
# Where the numbers of their processes and threads begin: no script of these lengths has one of them.
FIRST_STANDING = 10_000_000
HERE = os.path.dirname(os.path.abspath(__file__))


def requests(lines):
    """One process asks another's thread over a completed connection: a request, its receipt, its reply."""
    yield from (
        "boot 20 24",
        "boot 32 36",
        "24 NtCreatePort \\S",
        "36 NtConnectPort \\S - - -",
        "24 NtListenPort 4",
        "24 NtAcceptConnectPort 7 r:32.36.1: accept -",
        "24 NtCompleteConnectPort 8",
    )
    identifier = 1
    for _ in range((lines - 7) // 3):
        identifier += 1
        yield "36 NtRequestWaitReplyPort 4 d:4142"
        yield "24 NtReplyWaitReceivePort 4"
        yield f"24 NtReplyPort 4 r:32.36.{identifier}:43"


def datagrams(lines):
    """A thread sends 32 datagrams, the most that may stand, and another takes them; over and over."""
    yield from ("boot 20 24", "thread 28 20", "24 NtCreatePort -")
    for _ in range((lines - 3) // 64):
        for _ in range(32):
            yield "24 NtRequestPort 4 d:41"
        for _ in range(32):
            yield "28 NtReplyWaitReceivePort 4"


def connects(lines):
    """Clients of many servers connect; every second connect is refused, the others are completed."""
    number = 0
    written = 0
    while written < lines - 90:
        number += 1
        server = 1_000_000 + number
        block = [f"boot {server} {server}", f"{server} NtCreatePort \\S{number}"]
        handle = 4
        for client in range(server * 100, server * 100 + 16):
            verdict = "accept" if client % 2 else "refuse"
            block.append(f"boot {client} {client}")
            block.append(f"{client} NtConnectPort \\S{number} - - d:4869")
            block.append(f"{server} NtListenPort 4")
            block.append(f"{server} NtAcceptConnectPort 5 r:{client}.{client}.1:4f4b {verdict} -")
            if verdict == "accept":
                handle += 4
                block.append(f"{server} NtCompleteConnectPort {handle}")
        written += len(block)
        yield from block


def closings(lines):
    """A client connects and closes its port; the server receives what tells so, and closes its own; over and over."""
    yield from ("boot 20 24", "boot 32 36", "24 NtCreatePort \\S")
    for identifier in range(1, (lines - 3) // 7 + 1):
        yield "36 NtConnectPort \\S - - -"
        yield "24 NtListenPort 4"
        yield f"24 NtAcceptConnectPort 7 r:32.36.{identifier}: accept -"
        yield "24 NtCompleteConnectPort 8"
        yield "36 NtClose 4"
        yield "24 NtReplyWaitReceivePort 4"
        yield "24 NtClose 8"


def endings(lines):
    """A process is made, connects, registers its port and ends; the server receives both ends, and closes its own."""
    yield from ("boot 20 24", "24 NtCreatePort \\S")
    for client in range(1_000, 1_000 + (lines - 2) // 10):
        yield f"boot {client} {client}"
        yield f"{client} NtConnectPort \\S - - -"
        yield "24 NtListenPort 4"
        yield f"24 NtAcceptConnectPort 7 r:{client}.{client}.1: accept -"
        yield "24 NtCompleteConnectPort 8"
        yield f"{client} NtRegisterThreadTerminatePort 4"
        yield f"{client} NtTerminateProcess self 0"
        yield "24 NtReplyWaitReceivePort 4"
        yield "24 NtReplyWaitReceivePort 4"
        yield "24 NtClose 8"


def creations(lines):
    """A process makes another with two threads, ends one thread and then the process, and closes what it held."""
    yield from ("boot 20 24",)
    for child in range(1_000, 1_000 + (lines - 1) // 7):
        yield f"24 NtCreateProcess {child} {2 * child}"
        yield f"24 NtCreateThread 4 {2 * child + 1}"
        yield "24 NtTerminateThread 8 0"
        yield "24 NtTerminateProcess 4 0"
        yield "24 NtClose 4"
        yield "24 NtClose 8"
        yield "24 NtClose 12"


def views(lines, size):
    """A section of so many bytes is mapped, its last bytes are written and read through the view, and the view goes."""
    yield from ("boot 20 24", f"24 NtCreateSection {size} 4")
    last = 0x10000 + size - 2
    for _ in range((lines - 2) // 4):
        yield "24 NtMapViewOfSection 4 0 0 4"
        yield f"24 NtWriteVirtualMemory {last} 4142"
        yield f"24 NtReadVirtualMemory {last} 2"
        yield "24 NtUnmapViewOfSection 0x10000"


def small_views(lines):
    """A section of 4 KiB, the smallest, is mapped, written, read and unmapped; over and over."""
    yield from views(lines, 4_096)


def large_views(lines):
    """The same with a section of 4 MiB, the largest."""
    yield from views(lines, 4_194_304)


def described(lines):
    """A client maps a view and writes there; its request describes the bytes, which the server reads and writes."""
    yield from ("boot 20 24", "boot 32 36", "24 NtCreatePort \\S", "36 NtConnectPort \\S - - -", "24 NtListenPort 4")
    yield from ("24 NtAcceptConnectPort 7 r:32.36.1: accept -", "24 NtCompleteConnectPort 8", "36 NtCreateSection 4096 4")
    header = "0c002400000018000000000000000000000000000000000001000000"
    for identifier in range(2, 2 + (lines - 8) // 8):
        yield "36 NtMapViewOfSection 8 0 0 4"
        yield "36 NtWriteVirtualMemory 0x10ffe 4142"
        yield f"36 NtRequestWaitReplyPort 4 m:{header}fe0f010002000000"
        yield "24 NtReplyWaitReceivePort 4"
        yield f"24 NtReadRequestData 4 r:32.36.{identifier}: 0 2"
        yield f"24 NtWriteRequestData 4 r:32.36.{identifier}: 0 4344"
        yield f"24 NtReplyPort 8 r:32.36.{identifier}:"
        yield "36 NtUnmapViewOfSection 0x10000"


def impersonations(lines):
    """A server acts for the client whose request it took, opens that token, asks who it is, and acts as itself again."""
    yield from ("token someone S-1-5-21-7 S-1-1-0", "boot 20 24", "boot 32 36 someone", "24 NtCreatePort \\S")
    yield from ("36 NtConnectPort \\S q:3:s - -", "24 NtListenPort 4", "24 NtAcceptConnectPort 7 r:32.36.1: accept -")
    yield "24 NtCompleteConnectPort 8"
    for identifier in range(2, 2 + (lines - 8) // 8):
        yield "36 NtRequestWaitReplyPort 4 d:4142"
        yield "24 NtReplyWaitReceivePort 4"
        yield f"24 NtImpersonateClientOfPort 8 r:32.36.{identifier}:"
        yield "24 NtOpenThreadToken"
        yield "24 NtQueryInformationToken 12 2"
        yield "24 NtClose 12"
        yield "24 NtSetInformationThread 5 null"
        yield f"24 NtReplyPort 8 r:32.36.{identifier}:43"


def raises(lines):
    """A child raises an exception, its debugger takes the event and continues it; over and over."""
    yield from ("boot 20 24", "24 NtCreatePort -", "24 NtCreateProcess 32 36", "24 NtSetInformationProcess 8 7 4")
    for identifier in range(1, (lines - 4) // 3 + 1):
        yield "36 raise 0xc0000005 unhandled"
        yield "24 NtReplyWaitReceivePort 4"
        yield f"24 NtReplyPort 4 r:32.36.{identifier}:02000100"


def turns(lines):
    """64 clients ask the server on a thread in turn: each asks for its level, and the server's turn answers."""
    yield from ("boot 20 24", "24 NtCreatePort \\S", "resident 24 win32 4", "turn 24")
    clients = range(100, 164)
    for client in clients:
        yield f"boot {client} {client}"
        yield f"{client} NtConnectPort \\S - - -"
        yield from ["turn 24"] * 3
    for round_ in range((lines - 4 - 5 * len(clients)) // 2):
        yield f"{clients[round_ % len(clients)]} NtRequestWaitReplyPort 4 d:07000000"
        yield "turn 24"


def boots(lines):
    """Processes are made, and stay: each with a thread and an empty table of handles."""
    for process in range(1, lines + 1):
        yield f"boot {process} {process}"


def processes(count):
    """Rows that stand: processes with a thread each."""
    for number in range(FIRST_STANDING, FIRST_STANDING + count):
        yield f"boot {number} {number}"


def receives(count):
    """Rows that stand: threads, each of which waits on a port of its own."""
    for number in range(FIRST_STANDING, FIRST_STANDING + count):
        yield from (f"boot {number} {number}", f"{number} NtCreatePort -", f"{number} NtReplyWaitReceivePort 4")


def waiting_connects(count):
    """Rows that stand: threads that wait for one port, to which each connects; nobody receives what asks for that."""
    yield from (f"boot {FIRST_STANDING} {FIRST_STANDING}", f"{FIRST_STANDING} NtCreatePort \\Q")
    for number in range(FIRST_STANDING + 1, FIRST_STANDING + 1 + count):
        yield from (f"boot {number} {number}", f"{number} NtConnectPort \\Q - - -")


def names(count):
    """Rows that stand: directories."""
    for number in range(count):
        yield f"dir \\directory-{number}"


def messages(count):
    """Rows that stand: datagrams in queues, 32 of each port, and as many ports of a process as it may have handles."""
    for port in range(count // 32):
        process, place = FIRST_STANDING + port // 256, port % 256
        if place == 0:
            yield f"boot {process} {process}"
        yield f"{process} NtCreatePort -"
        yield from [f"{process} NtRequestPort {4 * place + 4} d:41"] * 32


def owned(count, call):
    """Rows that stand: as many objects, each made by a call, as processes may have handles to."""
    for place in range(count):
        process = FIRST_STANDING + place // 256
        if place % 256 == 0:
            yield f"boot {process} {process}"
        yield f"{process} {call}"


def sections(count):
    """Rows that stand: sections of 4 KiB, the smallest."""
    yield from owned(count, "NtCreateSection 4096 4")


def tokens(count):
    """Rows that stand: tokens, each of which a process opened as its own."""
    yield from owned(count, "NtOpenProcessToken")


def shown_sections(count):
    """Rows that stand: sections that views alone show, since the handles to them were closed."""
    for place in range(count):
        process = FIRST_STANDING + place // 128
        if place % 128 == 0:
            yield f"boot {process} {process}"
        yield from (f"{process} NtCreateSection 4096 4", f"{process} NtMapViewOfSection 4 0 0 4", f"{process} NtClose 4")


ROWS = processes, receives, waiting_connects, names, messages, sections, shown_sections, tokens


def peak(process):
    """The highest resident size of a running process so far, in MiB; 0 where it has ended."""
    try:
        with open(f"/proc/{process}/status", encoding="ascii") as status:
            for line in status:
                if line.startswith("VmHWM:"):
                    return int(line.split()[1]) / 1024
    except (FileNotFoundError, ProcessLookupError):
        pass
    return 0


def seconds_of_children():
    """The processor seconds of all programs that were started and have ended."""
    used = resource.getrusage(resource.RUSAGE_CHILDREN)
    return used.ru_utime + used.ru_stime


def measured(program, form, script):
    """Processor seconds and peak memory in MiB of one run in a form, and the status with which it ended. The memory is
    looked at again and again while the program runs, so a short run's may be missed."""
    memory = 0
    with open(script, "rb") as source:
        before = seconds_of_children()
        child = subprocess.Popen([program, form], stdin=source, stdout=subprocess.DEVNULL)
        while child.poll() is None:
            memory = max(memory, peak(child.pid))
            time.sleep(0.0005)
        seconds = seconds_of_children() - before
    return seconds, memory, child.returncode


class Parser(argparse.ArgumentParser):
    """A parser that ends with status 64 where the words are wrong."""

    def error(self, message):
        self.print_usage(sys.stderr)
        self.exit(64, f"{self.prog}: {message}\n")


def read_words():
    """The program, the peer or none, and the most lines of a script that is run beside it."""
    how = {"description": __doc__, "formatter_class": argparse.RawDescriptionHelpFormatter}
    usage = "%(prog)s [PROGRAM]\n       %(prog)s --peer PEER [--longest LINES] [PROGRAM]"
    parser = Parser(prog="bench/run.py", usage=usage, **how)
    built = os.path.join(HERE, "..", "crates", "ntlpc", "out", "ntlpc")
    parser.add_argument("program", metavar="PROGRAM", nargs="?", default=built, help="the program that is measured")
    parser.add_argument("--peer", metavar="PEER", help="another program, beside which it is measured")
    parser.add_argument("--longest", metavar="LINES", type=int, default=LENGTHS[-1], help="the most lines of a script")
    words = parser.parse_args()
    if words.longest < LENGTHS[0]:
        parser.error(f"a script has {LENGTHS[0]:,} lines at least")
    found = [shutil.which(name) if name else None for name in (words.program, words.peer)]
    for name, path in zip((words.program, words.peer), found):
        if name and not path:
            parser.error(f"{name} is no program that can be run")
    return [path and os.path.abspath(path) for path in found] + [words.longest]


def write_script(path, kind, size):
    """Writes a script of a kind, of about so many lines, and answers how many it has."""
    lines = 0
    with open(path, "w", encoding="ascii") as out:
        for line in kind(size):
            out.write(f"{line}\n")
            lines += 1
    return lines


def show_memory(memory):
    """So many MiB, or that they weren't seen."""
    return f"{memory:.1f}" if memory > 0.1 else "-"


def print_lengths(program, folder):
    """Prints the table of the program alone."""
    print("| Script | Lines | Processor seconds | Lines a second | Peak memory, MiB | Status |")
    print("|---|---|---|---|---|---|")
    kinds = (
        (requests, LONG, "replay"),
        (datagrams, LONG, "replay"),
        (closings, LONG, "replay"),
        (endings, LONG, "replay"),
        (creations, LONG, "replay"),
        (small_views, LONG, "replay"),
        (large_views, LONG, "replay"),
        (described, LONG, "replay"),
        (impersonations, LONG, "replay"),
        (raises, LONG, "replay"),
        (turns, LONG, "replay"),
        (boots, LONG, "replay"),
        (connects, LONG, "replay"),
        (requests, SHORT, "states"),
        (boots, FEW, "states"),
    )
    path = os.path.join(folder, "script")
    for kind, sizes, form in kinds:
        for size in sizes:
            lines = write_script(path, kind, size)
            seconds, memory, status = measured(program, form, path)
            name = kind.__name__ if form == "replay" else f"{kind.__name__}, {form}"
            print(
                f"| {name} | {lines} | {seconds:.3f} | {lines / seconds:.0f} | {show_memory(memory)} | {status} |",
                flush=True,
            )


def print_beside_rows(program, folder):
    """Prints the table of scripts beside rows that stand."""
    print("\n| Script | Lines | Beside | Processor seconds | Alone | A line costs | Status |")
    print("|---|---|---|---|---|---|---|")
    path = os.path.join(folder, "script")

    def run(lines):
        write_script(path, lambda _: lines, 0)
        return run_in_turn([program], path)[0]

    making = [(rows, run(list(rows(STANDING)))) for rows in ROWS]
    for kind in (requests, datagrams, closings, connects, endings, creations):
        script = list(kind(LINES_BESIDE))
        alone = run(script)
        for rows, made in making:
            both = run([*rows(STANDING), *script])
            beside = both.seconds - made.seconds
            print(
                f"| {kind.__name__} | {len(script)} | {STANDING} {rows.__name__} | {beside:.3f} | {alone.seconds:.3f} "
                f"| {beside / alone.seconds:.1f} times | {max(it.status for it in (made, alone, both))} |",
                flush=True,
            )


class Least:
    """The least processor time and the most memory of several runs of one program, and the greatest status."""

    def __init__(self):
        self.seconds, self.memory, self.status = math.inf, 0, 0

    def add(self, seconds, memory, status):
        """One run more."""
        self.seconds = min(self.seconds, seconds)
        self.memory = max(self.memory, memory)
        self.status = max(self.status, abs(status))


def run_in_turn(programs, path):
    """The least of each program over one script."""
    found = [Least() for _ in programs]
    for _ in range(TURNS):
        for program, least in zip(programs, found):
            least.add(*measured(program, "replay", path))
    return found


def print_beside(program, peer, longest, folder):
    """Prints the tables of the program beside a peer."""
    print("| Script | Lines | Seconds | The peer's | Speed | Peak memory, MiB | The peer's | Memory | Status |")
    print("|---|---|---|---|---|---|---|---|---|")
    path = os.path.join(folder, "script")
    costs = {}
    for kind in (requests, datagrams, closings, endings, creations, connects, boots):
        for size in (size for size in LENGTHS if size <= longest):
            lines = write_script(path, kind, size)
            own, other = run_in_turn((program, peer), path)
            costs.setdefault(kind.__name__, []).append((lines, own.seconds / lines, other.seconds / lines))
            memory = f"{own.memory / other.memory:.2f}" if min(own.memory, other.memory) > 0.1 else "-"
            print(
                f"| {kind.__name__} | {lines} | {own.seconds:.3f} | {other.seconds:.3f} "
                f"| {other.seconds / own.seconds:.2f} | {show_memory(own.memory)} | {show_memory(other.memory)} "
                f"| {memory} | {own.status}, {other.status} |",
                flush=True,
            )
    print("\n| Script | From lines | To lines | A line costs | The peer's | Exponent | The peer's |")
    print("|---|---|---|---|---|---|---|")
    for name, found in costs.items():
        # The shortest script is mostly the start of the program.
        pairs = [(one, two) for place, one in enumerate(found) for two in found[place + 1 :] if place > 0]
        for (lines, own, other), (more, own_later, other_later) in pairs:
            rises = own_later / own, other_later / other
            exponents = [1 + math.log(rise) / math.log(more / lines) for rise in rises]
            print(
                f"| {name} | {lines} | {more} | {rises[0]:.2f} times | {rises[1]:.2f} times "
                f"| {exponents[0]:.2f} | {exponents[1]:.2f} |"
            )


def main():
    program, peer, longest = read_words()
    with tempfile.TemporaryDirectory() as folder:
        if peer:
            print_beside(program, peer, longest, folder)
        else:
            print_lengths(program, folder)
            print_beside_rows(program, folder)


if __name__ == "__main__":
    main()
