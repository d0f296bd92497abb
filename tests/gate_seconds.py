#!/usr/bin/env python3
"""Runs a command, such as `rt ci`, and tells the processor seconds that each crate's proof, tests and edits took in it.

    tests/gate_seconds.py [--to FILE] COMMAND..

The command reads and prints as it does alone, and this program ends with its status, or with 128 and the number of the
signal that ended it. At the end a table goes to FILE, or to the standard error where none is named: a row for each
crate, in the order of crates.txt, and one for the sums. The columns:

    proof   the crate's own check or build
    tests   the same with its tests, which proves the crate once more
    edits   the check of the crate as it stands that its edits begin with, that which they end with, and those of each
    all     these, and what compiles a proved program

`-` stands where nothing of the kind was run, as where a crate has no tests, or no edits.

Seconds are those of user and system. /proc is looked at twice a second, so what a process takes after the last look at
it isn't seen, nor is a process that ends before the first: only the last line's count of all processes has those. A
fault in measuring changes neither the run nor its status. Where there is no /proc, the command runs alone.
"""
import contextlib
import os
import pathlib
import resource
import signal
import subprocess
import sys
import threading
import time
import typing

ROOT = pathlib.Path(__file__).resolve().parent.parent
USAGE = "tests/gate_seconds.py [--to FILE] COMMAND.."
LOOK_EVERY = 0.5
COLUMNS = "proof", "tests", "edits"
# How `rt` names the folder in which an edit is checked, and the one of what was proved of the crate as it stands.
EDIT, AS_IT_STANDS = "rt-edit-", "/seed"


class Process(typing.NamedTuple):
    """A process as /proc shows it. Its `seconds` are its own and those of its ended children."""

    parent: int
    start: int
    seconds: float


class Work(typing.NamedTuple):
    """What a process of the prover is for, and whether it checks an edit."""

    crate: str
    kind: str
    is_edit: bool = False


def processes():
    """Returns the machine's processes by their numbers."""
    found, a_second = {}, os.sysconf("SC_CLK_TCK")
    for name in filter(str.isdigit, os.listdir("/proc")):
        # (one may have ended meanwhile)
        with contextlib.suppress(OSError), open(f"/proc/{name}/stat", "rb") as it:
            # The name, in brackets, may have blanks and brackets of its own.
            words = it.read().rpartition(b")")[2].split()
            found[int(name)] = Process(int(words[1]), int(words[19]), sum(map(int, words[11:15])) / a_second)
    return found


def work_of(number):
    """Returns what a process is for, or None if it is none of the prover on a crate, or can't be read."""
    try:
        words = pathlib.Path(f"/proc/{number}/cmdline").read_text(errors="replace").split("\0")
        folder = os.path.basename(os.readlink(f"/proc/{number}/cwd"))
    except OSError:
        return None
    if os.path.basename(words[0]) != "rattle" or "--crate-name" not in words[:-1]:
        return None
    crate = words[words.index("--crate-name") + 1]
    if folder.startswith(EDIT):
        return Work(crate, "edits", not any(it.endswith(AS_IT_STANDS) for it in words))
    if "--crate-checked" in words or words[1] not in ("build", "check"):
        return Work(crate, "other")
    return Work(crate, "tests" if "--test" in words else "proof")


class Prover:
    """The prover's processes below a command: what each is for, and the seconds that it has taken so far."""

    def __init__(self, command):
        self.command, self.work, self.taken = command, {}, {}

    def look(self):
        """Looks at the processes below the command once. The children of a process of the prover count with it."""
        now, below = processes(), {}
        for number, it in now.items():
            below.setdefault(it.parent, []).append(number)

        def whole(number):
            return now[number].seconds + sum(map(whole, below.get(number, [])))

        left = [self.command] if self.command in now else []
        while left:
            number = left.pop()
            key = number, now[number].start
            work = self.work.get(key) or work_of(number)
            if work:
                self.work[key] = work
                self.taken[key] = max(self.taken.get(key, 0), whole(number))
            else:
                left += below.get(number, [])

    def look_until(self, ended):
        """Looks at them until the event comes."""
        while not ended.wait(LOOK_EVERY):
            # (a later look may go well)
            with contextlib.suppress(Exception):
                self.look()

    def seconds(self, belongs):
        """Returns the seconds of each process whose work belongs, with its crate."""
        return [(self.taken[key], it.crate) for key, it in self.work.items() if belongs(it)]


def table(prover, wall):
    """Returns the table's text; `wall` is the run's length in seconds."""
    lines = (ROOT / "crates.txt").read_text(encoding="utf-8").splitlines()
    listed = [line.partition(":")[0].strip() for line in lines if line.strip() and not line.startswith("#")]
    crates = list(dict.fromkeys([*listed, *(it.crate for it in prover.work.values())]))
    width = max(map(len, crates))

    def row(name, crates):
        kinds = [*([it] for it in COLUMNS), [*COLUMNS, "other"]]
        found = [prover.seconds(lambda it: it.crate in crates and it.kind in of) for of in kinds]
        return f"{name:{width}}" + "".join(f"{sum(it[0] for it in of):7.0f}" if of else f"{'-':>7}" for of in found)

    used = resource.getrusage(resource.RUSAGE_CHILDREN)
    last = f"wall time {wall:.0f}; all processes {used.ru_utime + used.ru_stime:.0f}"
    edits = prover.seconds(lambda it: it.is_edit)
    last += "; the longest check of an edit {:.0f}, of {}".format(*max(edits)) if edits else ""
    head = f"{'seconds':{width}}" + "".join(f"{it:>7}" for it in (*COLUMNS, "all"))
    return "\n".join([head, *(row(it, [it]) for it in crates), row("sum", crates), last, ""])


def passes_on(command):
    """Has what asks this program to end ask the command, with which it ends; a terminal asks both."""
    ways = dict.fromkeys([signal.SIGTERM, signal.SIGHUP], lambda number, _: command.send_signal(number))
    for number, way in {**ways, signal.SIGINT: lambda *_: None}.items():
        if signal.getsignal(number) != signal.SIG_IGN:
            signal.signal(number, way)


def measured(command, file):
    """Waits until the command ends, writes the table, and returns the command's status."""
    began, ended, prover, thread = time.monotonic(), threading.Event(), Prover(command.pid), None
    with contextlib.suppress(Exception):
        if os.path.exists("/proc/self/stat"):
            thread = threading.Thread(target=prover.look_until, args=(ended,), daemon=True)
            thread.start()
    status = command.wait()
    with contextlib.suppress(Exception):
        if thread:
            ended.set()
            thread.join(10 * LOOK_EVERY)
            text = table(prover, time.monotonic() - began)
            pathlib.Path(file).write_text(text, encoding="utf-8") if file else sys.stderr.write(text)
    return status if status >= 0 else 128 - status


def main(words):
    """Runs the command that the words name, and returns the status."""
    file = None
    if words[:1] == ["--to"]:
        file, words = "".join(words[1:2]), words[2:]
    if not words:
        print(USAGE, file=sys.stderr)
        return 64
    try:
        command = subprocess.Popen(words, close_fds=False)
    except OSError as error:
        print(f"{words[0]}: {error.strerror}", file=sys.stderr)
        return 127
    passes_on(command)
    return measured(command, file)


if __name__ == "__main__":
    sys.exit(main(sys.argv[1:]))
