#!/usr/bin/env python3
"""Fails each read and each write of the program in turn, at its edge to the system.

    tests/edge.py PROGRAM

- A read that fails is not tried again. What the whole lines read before tell is printed, without a last line, and the
  status is 3; where one of them is faulty, it is 2, and the transcript ends with its `stop` line.
- A write that fails is not tried again, and nothing is written behind it: what the writes before it took was sent, and
  the status is 4. A write that is taken in parts is sent on.
- Over a pipe what a line tells is written before more is read; how the output is cut into writes is else the program's
  own. So where a pipe gives a byte at a time, each write is what one line of the script tells, or the last line.
- Over a file what lines tell is kept back, so one write is made for each 65,536 bytes; what is kept back at the end is
  written then, however the replay ended.
- Where the system doesn't tell what the input is, nothing is kept back, as over a pipe.
- A disk that gets full has taken as many bytes as it has room for, also inside what one line tells.
- Input and output that give or take few bytes at a time change nothing. An input that gives none is at its end, and an
  output that takes none has failed.
- The same holds of the form `states`, in which a line tells of rows too.
- A storm reads nothing, and its writes fail as those of a replay do.

Each check that fails has a line, and the last line is `N passed, M failed`. Where there is no C compiler all is left
out, with a line. The exit status is 0 where every check passed, 1 where not, and 64 without PROGRAM.
"""
import errno
import itertools
import pathlib
import re
import sys

sys.dont_write_bytecode = True
import worlds
from failing import tried
from tally import counted

ROOT = pathlib.Path(__file__).resolve().parent.parent
SMALLEST, FAULTY, WORKED = "first-request", "faulty-line", "tests/worked"
STATED = "07-a-connection", "examples/exercises"
# The pieces of the smallest script's text, those of the usage line, and a storm's words.
PIECES, USAGE, STORM = 7, b"usage: ntlpc COMMAND [WORDS]\n", ("storm", "2", "0")
STORM_BEGINS = b"storm lines=58 entries=67 objects=0 replies=1 mismatches=1 sum="
ERRORS = {it: getattr(errno, it) for it in ("EIO", "EAGAIN", "ENOSPC", "EBADF", "EPIPE", "EINTR")}
# How many checks there are of a program that is right: who adds one, or alters an example, changes the number.
CHECKS = 1_970
# The most that is read at once, and the most that is kept back where the input is a file.
PIECE, MOST_KEPT = 4_096, 65_536
# An input that is a pipe and gives a byte at a time.
BYTE_BY_BYTE = {"piped": True, "READ_PIECE": 1}


# The number of the script's line, in an entry and in what is told of a row.
NUMBER = re.compile(rb'(?:\{"line":)?(\d+)')


class Example:
    """A script, what a form prints for it, its transcript or that with rows, and the status that goes with it."""

    def __init__(self, name, script, transcript, form="replay"):
        self.name, self.script, self.transcript, self.form = name, script, transcript, form
        self.lines = self.transcript.splitlines(True)
        self.status = 2 if self.lines[-1].startswith(b"stop ") else 0

    def run(self, program, **given):
        """Runs the program over the script."""
        return program.run(self.form, source=self.script, **given)

    def pieces(self):
        """What is written at once where a pipe gives a byte at a time: what each line of the script tells, and the last
        line."""
        found = [list(it) for _, it in itertools.groupby(self.lines[:-1], lambda it: NUMBER.match(it)[1])]
        return [b"".join(it) for it in found] + self.lines[-1:]

    def blocks(self):
        """What is written at once where the input is a file."""
        return cut([self.transcript], MOST_KEPT)

    def reads(self, piece):
        """How many reads are made of an input that gives so many bytes at a time: to its end, and one more that gives
        nothing; or to the end of a faulty line, and none behind it."""
        if self.status == 2:
            faulty = int(self.lines[-1].split()[1])
            return -(-len(b"".join(self.script.splitlines(True)[:faulty])) // piece)
        return -(-len(self.script) // piece) + 1

    def broken_off(self, size):
        """What is printed where the input fails behind so many bytes, and the status."""
        whole = self.script[:size].count(b"\n")
        if self.status == 2 and whole >= int(self.lines[-1].split()[1]):
            return 2, self.transcript
        told = [it for it in self.lines[:-1] if int(NUMBER.match(it)[1]) <= whole]
        return 3, b"".join(told)


def cut(texts, size):
    """Texts in parts of so many bytes at most."""
    return [text[at : at + size] for text in texts for at in range(0, len(text), size)]


def example(name, folder="examples"):
    """An example of a folder."""
    return Example(name, *((ROOT / folder / f"{name}.{it}").read_bytes() for it in ("script", "transcript")))


def stated(name, folder):
    """The same in the form of states."""
    parts = ((ROOT / folder / f"{name}.{it}").read_bytes() for it in ("script", "states"))
    return Example(f"{name}.states", *parts, "states")


def wrong_with(run, status, text, **counts):
    """What is wrong with how a run ended, and with how many reads or writes it made; nothing where it is as wanted."""
    if run.status is None:
        return [run.said.decode()]
    if run.status != status:
        return [f"it ended with status {run.status}, wanted is {status}"]
    if run.printed != text:
        return [f"it printed {run.printed[-160:]!r}, wanted is {text[-160:]!r}"]
    made = {name: getattr(run, name) for name in counts}
    return [f"it wrote to its standard error: {run.said[-200:]!r}"] * bool(run.said) + (
        [f"it made {made}, wanted are {counts}"] if made != counts else []
    )


def reads(program, it, piece, **how):
    """Each read fails in turn, of an input that gives so many bytes at a time."""
    count = it.reads(piece)
    for number in range(1, count + 1):
        run = it.run(program, READ_PIECE=piece, FAIL_READ=number, **how)
        status, text = it.broken_off((number - 1) * piece)
        yield f"{it.name}: read {number} of {count} fails", wrong_with(run, status, text, reads=number)
    run = it.run(program, READ_PIECE=piece, FAIL_READ=count + 1, **how)
    whole = wrong_with(run, it.status, it.transcript, reads=count)
    yield f"{it.name}: no read fails, {piece} bytes at a time", whole


def few_bytes(program, it):
    """An input that gives few bytes at a time changes nothing, also where it is a pipe."""
    for piece, piped in (1, False), (7, False), (7, True):
        run = it.run(program, READ_PIECE=piece, piped=piped)
        whole = wrong_with(run, it.status, it.transcript)
        yield f"{it.name}: an input that gives {piece} bytes at a time", whole


def no_bytes(program, it):
    """An input that gives no byte is at its end, and an output that takes none has failed."""
    for piped in False, True:
        run = it.run(program, READ_PIECE=0, piped=piped)
        yield f"{it.name}: an input that gives nothing", wrong_with(run, 0, b"end 0 0 0\n", reads=1)
        run = it.run(program, WRITE_PIECE=0, piped=piped)
        yield f"{it.name}: an output that takes nothing", wrong_with(run, 4, b"", writes=1)


def writes(program, it, pieces, **how):
    """Each write fails in turn, of those that are made of such an input."""
    for number in range(1, len(pieces) + 1):
        for more in {}, {"FAIL_FROM": 1}:
            run = it.run(program, FAIL_WRITE=number, **how, **more)
            sent = b"".join(pieces[: number - 1])
            yield f"{it.name}: write {number} of {len(pieces)} fails", wrong_with(run, 4, sent, writes=number)
    run = it.run(program, FAIL_WRITE=len(pieces) + 1, **how)
    whole = wrong_with(run, it.status, it.transcript, writes=len(pieces))
    yield f"{it.name}: a write fails that isn't made", whole


def writes_by_line(program, it):
    """Each write fails in turn, of a pipe that gives a byte at a time: what a line tells is written before more is
    read."""
    yield from writes(program, it, it.pieces(), **BYTE_BY_BYTE)


def writes_of_unknown(program, it):
    """Each write fails in turn, of a file that gives a byte at a time, of which the system doesn't tell what it is."""
    for error in errno.ENOENT, errno.EACCES:
        yield from writes(program, it, it.pieces(), READ_PIECE=1, FAIL_STAT=error)


def writes_by_block(program, it):
    """Each write fails in turn, of a file: as much is kept back as may be."""
    yield from writes(program, it, it.blocks())


def writes_in_parts(program, it, part):
    """An output that takes so many bytes at a time: all is sent; and each write fails in turn."""
    for pieces, how in (it.pieces(), BYTE_BY_BYTE), (it.blocks(), {}):
        parts = cut(pieces, part)
        run = it.run(program, WRITE_PIECE=part, **how)
        whole = wrong_with(run, it.status, it.transcript, writes=len(parts))
        yield f"{it.name}: an output that takes {part} bytes at a time", whole
        for number in range(1, len(parts) + 1):
            run = it.run(program, WRITE_PIECE=part, FAIL_WRITE=number, **how)
            sent = b"".join(parts[: number - 1])
            yield f"{it.name}: write {number} of {part} bytes fails", wrong_with(run, 4, sent, writes=number)


def writes_of_all(program, it, numbers=None, **how):
    """Writes fail in turn, each or those at some places from 0 to 1, where all that there is may be read at once: what
    was sent begins the transcript, a later write leaves more of it, and behind the failed one none is made."""
    whole = it.run(program, **how)
    yield f"{it.name}: no write fails", wrong_with(whole, it.status, it.transcript)
    # (a program that is right makes no more writes than it prints bytes)
    last, longest = min(max(whole.writes, 1), len(it.transcript)), -1
    chosen = range(1, last + 1) if numbers is None else sorted({1 + round(at * (last - 1)) for at in numbers})
    for number in chosen:
        run = it.run(program, FAIL_WRITE=number, **how)
        found = wrong_with(run, 4, it.transcript[: len(run.printed)], writes=number)
        if not longest < len(run.printed) < len(it.transcript):
            found.append(f"it printed {len(run.printed)} bytes, and {longest} where an earlier write failed")
        longest = len(run.printed)
        yield f"{it.name}: write {number} of {whole.writes} fails, all read at once", found


def full_disks(program, it, rooms=None, **how):
    """A disk that gets full takes the bytes that it has room for."""
    for room in range(len(it.transcript)) if rooms is None else rooms:
        run = it.run(program, WRITE_ROOM=room, **how)
        yield f"{it.name}: a disk with room for {room} bytes", wrong_with(run, 4, it.transcript[:room])
    run = it.run(program, WRITE_ROOM=len(it.transcript), **how)
    whole = wrong_with(run, it.status, it.transcript)
    yield f"{it.name}: a disk with room for all", whole


def other_words(program):
    """The usage line: no read is made, and each write fails in turn."""
    yield "other words", wrong_with(program.run(), 64, USAGE, reads=0, writes=1)
    yield "other words: the write fails", wrong_with(program.run(FAIL_WRITE=1), 4, b"", reads=0, writes=1)
    run = program.run(WRITE_PIECE=10, FAIL_WRITE=2)
    yield "other words: the second write fails", wrong_with(run, 4, USAGE[:10], reads=0, writes=2)
    for room in range(len(USAGE)):
        run = program.run(WRITE_ROOM=room)
        yield f"other words: a disk with room for {room} bytes", wrong_with(run, 4, USAGE[:room], reads=0)


def storm(program):
    """A storm's line: no read is made, and each write fails in turn."""
    whole = program.run(*STORM)
    line = whole.printed
    found = wrong_with(whole, 0, line, reads=0, writes=1)
    yield "a storm", found + [f"it printed {line[:160]!r}"] * (not line.startswith(STORM_BEGINS))
    # Of another line, which may be long, nothing is asked.
    line = line[: len(STORM_BEGINS) + len("00000000\n")]
    yield "a storm: the write fails", wrong_with(program.run(*STORM, FAIL_WRITE=1), 4, b"", reads=0, writes=1)
    for number in range(1, -(-len(line) // 10) + 1):
        run = program.run(*STORM, WRITE_PIECE=10, FAIL_WRITE=number)
        sent = line[: 10 * (number - 1)]
        yield f"a storm: write {number} of 10 bytes fails", wrong_with(run, 4, sent, reads=0, writes=number)
    for room in range(len(line)):
        run = program.run(*STORM, WRITE_ROOM=room)
        yield f"a storm: a disk with room for {room} bytes", wrong_with(run, 4, line[:room], reads=0)


def both(program, it):
    """A read and a write are to fail: over a pipe what fails first is told; over a file a read fails first, and where
    what is kept back can't be written behind it, that is told."""
    run = it.run(program, piped=True, READ_PIECE=20, FAIL_READ=3, FAIL_WRITE=1)
    yield f"{it.name}: a write fails before a read", wrong_with(run, 4, b"", reads=1, writes=1)
    run = it.run(program, READ_PIECE=20, FAIL_READ=3, FAIL_WRITE=1)
    yield f"{it.name}: a write fails behind a read", wrong_with(run, 4, b"", reads=3, writes=1)
    for piped in False, True:
        run = it.run(program, piped=piped, READ_PIECE=20, FAIL_READ=2, FAIL_WRITE=2)
        yield f"{it.name}: a read fails before a write", wrong_with(run, *it.broken_off(20), reads=2, writes=1)


def errors(program, it):
    """Which error it is makes no difference."""
    for name, number in ERRORS.items():
        run = it.run(program, READ_PIECE=20, FAIL_READ=3, FAIL_ERROR=number)
        yield f"{name} of a read", wrong_with(run, *it.broken_off(40), reads=3)
        run = it.run(program, FAIL_WRITE=3, FAIL_ERROR=number, **BYTE_BY_BYTE)
        yield f"{name} of a write", wrong_with(run, 4, b"".join(it.pieces()[:2]), writes=3)
        run = it.run(program, FAIL_WRITE=1, FAIL_ERROR=number)
        yield f"{name} of the last write", wrong_with(run, 4, b"", reads=it.reads(PIECE), writes=1)


def long_output(program):
    """A script of many reads, of which one line tells more than 64 KiB: each read fails, writes at some places do, and a
    disk gets full about that line and inside."""
    it = Example(*worlds.one_long_line(25, 63))
    it.name = "long output"
    yield from reads(program, it, PIECE)
    yield from writes_of_all(program, it, (0, 0.1, 0.5, 0.9, 1), piped=True)
    yield "long output: some blocks", [] if len(it.blocks()) > 2 else [f"there are {len(it.blocks())}"]
    yield from writes_by_block(program, it)
    close = it.transcript.rindex(b" NtClose ")
    begin, end = it.transcript.rindex(b"\n", 0, close) + 1, len(it.transcript)
    rooms = (0, 1, begin - 1, begin, begin + 1, begin + 65_535, begin + 65_536, begin + 65_537, end - 1)
    good = rooms[-2] < rooms[-1]
    yield "long output: one line tells much", [] if good else [f"it tells {end - begin} bytes"]
    yield from full_disks(program, it, rooms)


def states(program):
    """The form of states, whose lines tell more: each read and each write fails, and a disk gets full in each line."""
    it = stated(*STATED)
    yield from few_bytes(program, it)
    yield from reads(program, it, 7)
    yield from writes_by_line(program, it)
    yield from writes_by_block(program, it)
    yield from writes_of_all(program, it, piped=True)
    ends = list(itertools.accumulate(map(len, it.lines)))
    yield from full_disks(program, it, sorted({0, *ends[:-1], *(end - 1 for end in ends)}))


def all_checks(program):
    """All checks, and that there are as many."""
    yield from counted("the edge", checks(program), CHECKS)


def checks(program):
    """Each check with its name and what it found wrong."""
    smallest, faulty = example(SMALLEST), example(FAULTY)
    count = len(smallest.pieces())
    yield f"there are {PIECES} pieces", [] if count == PIECES else [f"there are {count}"]
    yield from reads(program, smallest, 1)
    yield from reads(program, smallest, 1, piped=True)
    yield from reads(program, smallest, 7)
    yield from reads(program, faulty, 1)
    yield from reads(program, faulty, 1, piped=True)
    for script in sorted((ROOT / WORKED).glob("*.script")):
        yield from few_bytes(program, example(script.stem, WORKED))
    yield from no_bytes(program, smallest)
    for it in smallest, faulty:
        yield from writes_by_line(program, it)
        yield from writes_by_block(program, it)
    yield from writes_of_unknown(program, smallest)
    yield from writes_in_parts(program, smallest, 5)
    for piped in False, True:
        yield from writes_of_all(program, smallest, piped=piped)
        yield from writes_of_all(program, faulty, piped=piped)
        yield from writes_of_all(program, smallest, piped=piped, WRITE_PIECE=5)
        yield from full_disks(program, smallest, piped=piped)
    yield from full_disks(program, faulty)
    yield from other_words(program)
    yield from storm(program)
    yield from both(program, smallest)
    yield from errors(program, smallest)
    yield from long_output(program)
    yield from states(program)


if __name__ == "__main__":
    sys.exit(tried("tests/edge.py", all_checks, sys.argv[1:]))
