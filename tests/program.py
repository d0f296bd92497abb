#!/usr/bin/env python3
"""Tries the program from outside: its words, its exit statuses, inputs and outputs that fail, limits, and large worlds.

    tests/program.py PROGRAM [WORDS..]

WORDS stand in front of the program's own. Each check that fails has a line, and the last line is `N passed, M failed`.
The exit status is 0 where every check passed, 1 where not, and 64 without PROGRAM.
"""
import contextlib
import os
import pathlib
import pty
import shutil
import socket
import subprocess
import sys
import tempfile
import termios
import threading
import tty

ROOT = pathlib.Path(__file__).resolve().parent.parent
sys.dont_write_bytecode = True
sys.path.insert(0, str(ROOT / "bench"))
import run as bench
import running
import storms
import worlds
from running import MUCH, SECONDS, Wrong
from tally import enough

USAGE = b"usage: ntlpc COMMAND [WORDS]\n"
# The line of a storm without a round: its transcript was worked out by hand, and the sum of its bytes taken from it.
NO_ROUND = b"storm lines=52 entries=60 objects=0 replies=0 mismatches=0 sum=000263b8\n"
FIRST, FIRST_TOLD = b"boot 20 24\n", b"1 - boot 00000000\n"
LINES, TOLD = FIRST + b"24 NtCreatePort -\n", FIRST_TOLD + b"2 24 NtCreatePort 00000000 h=4\n"
# Ctrl-D, by which the input ends at a terminal.
END_AT_TERMINAL = b"\x04"
EXAMPLE = (ROOT / "examples" / "first-request.script").read_bytes()
# How many lines are told at least where as many KiB are left behind the program's start.
LEFT, TOLD_AT_LEAST = 40_000, 1_000
WORLDS = 20
# The lengths of scripts that are compared, and how many times longer a line of the long one may take: it would take ten
# times as long where the cost grew with the square. Where each line leaves rows, the memory that the machine hands out
# page by page makes it up to four times as long on some machines.
SHORT_SCRIPT, LONG_SCRIPT, TIMES_LONGER, TIMES_LONGER_WITH_ROWS = 10_000, 100_000, 3, 6
RUNS = 5
# Beside how many rows of a kind a line may take TIMES_LONGER times as long as alone, and how they are compared.
LINES_BESIDE, RUNS_BESIDE = 100_000, 3
FLAT_SCRIPTS = bench.requests, bench.datagrams, bench.closings, bench.connects, bench.endings, bench.creations
FLAT_ROWS = (
    (bench.processes, 10_000),
    (bench.receives, 10_000),
    (bench.waiting_connects, 10_000),
    (bench.names, 40_000),
    (bench.messages, 20_000),
    (bench.sections, 10_000),
    (bench.shown_sections, 10_000),
    (bench.tokens, 10_000),
)


class LeftOut(Exception):
    """Why a check can't be made on this system."""


class Ended:
    """How a run ended: its status (below 0: the signal that ended it), what it printed, and its standard error."""

    def __init__(self, status, printed=b"", said=b""):
        self.status = status
        self.printed = printed or b""
        self.said = said or b""

    def should(self, status, printed=b""):
        """Fails where the run ended otherwise."""
        if self.status != status:
            ended = f"status {self.status}" if self.status >= 0 else f"signal {-self.status}"
            raise Wrong(f"it ended with {ended}, status {status} is wanted; it printed {brief(self.printed)}")
        if self.printed != printed:
            raise Wrong(f"it printed {brief(self.printed)}, wanted is {brief(printed)}")
        if self.said:
            raise Wrong(f"it wrote to its standard error: {brief(self.said)}")


def brief(text):
    """Bytes as they are shown in a message."""
    return repr(text if len(text) <= 160 else text[:80] + b" .. " + text[-76:])[1:]


class Program:
    """The program that is tried."""

    def __init__(self, command):
        self.command = command

    def run(self, *words, source=b"", sink=subprocess.PIPE, closed=""):
        """Runs it with these words. `source` is bytes, or what has a file number; `closed` is `<&-`, `>&-` or both."""
        command = [*self.command, *words]
        if closed:
            command = ["sh", "-c", f'exec "$@" {closed}', "sh", *command]
        return Ended(*running.run(command, source, sink))

    def replay(self, source=b"", **how):
        return self.run("replay", source=source, **how)

    def replay_file(self, script, **how):
        """The same of a file, where bytes are given through a pipe."""
        with tempfile.TemporaryFile() as source:
            source.write(script)
            source.seek(0)
            return self.replay(source, **how)

    @contextlib.contextmanager
    def started(self, script, sink):
        """Starts it over a script in pieces, for as long as a check may take; gives the running program."""
        with tempfile.TemporaryFile() as source:
            source.writelines(script)
            source.seek(0)
            child = subprocess.Popen([*self.command, "replay"], stdin=source, stdout=sink)
            running.bound_files(child)
            watch = threading.Timer(SECONDS, child.kill)
            watch.start()
            try:
                yield child
            finally:
                watch.cancel()
                child.kill()
                child.wait()


def reset_after(script):
    """The number of a socket that gives a script, fails once (its other side left a byte unread), and then ends."""
    ours, theirs = socket.socketpair()
    theirs.send(b"?")
    ours.sendall(script)
    ours.close()
    return theirs.detach()


def terminal_gone_after(script):
    """The number of a pseudo terminal whose other side wrote a script and is closed: every read behind it fails."""
    near, far = pty.openpty()
    tty.setraw(far)
    os.write(far, script)
    os.close(far)
    return near


def sink_that_fails_at_times():
    """A datagram socket to a port where nobody listens: it takes a write, fails the next, takes the third ..."""
    try:
        with socket.socket(socket.AF_INET, socket.SOCK_DGRAM) as nobody:
            nobody.bind(("127.0.0.1", 0))
            address = nobody.getsockname()
        sink = socket.socket(socket.AF_INET, socket.SOCK_DGRAM)
        sink.connect(address)
        sink.send(b"?")
    except OSError as error:
        raise LeftOut(f"there is no loopback network here ({error.strerror})") from None
    try:
        sink.send(b"?")
    except ConnectionRefusedError:
        return sink
    raise LeftOut("the loopback network does not tell that nobody listens")


def filled_pipe():
    """The side for writing of a pipe that is full, and fails instead of waiting, and its side for reading."""
    far, near = os.pipe()
    os.set_blocking(near, False)
    try:
        while True:
            os.write(near, b"?" * 4096)
    except BlockingIOError:
        return near, far


def replays(script, status, printed):
    """The check that a script ends and prints so."""
    return lambda program: program.replay(script).should(status, printed)


def replays_file(script, status, printed):
    """The check that a script which is a file ends and prints so, into a file."""

    def check(program):
        with tempfile.TemporaryFile() as sink:
            ended = program.replay_file(script, sink=sink)
            sink.seek(0)
            Ended(ended.status, sink.read(), ended.said).should(status, printed)

    return check


def examples():
    """Each example and exercise prints its transcript, with status 2 where that ends with `stop`."""
    folder = ROOT / "examples"
    for script in sorted([*folder.glob("*.script"), *folder.glob("exercises/*.script")]):
        transcript = script.with_suffix(".transcript").read_bytes()
        status = 2 if transcript.splitlines()[-1].startswith(b"stop ") else 0
        name = script.relative_to(ROOT).as_posix()
        yield name, replays(script.read_bytes(), status, transcript)
        yield f"{name}, from a file into a file", replays_file(script.read_bytes(), status, transcript)


def words():
    """Other words than those of the forms: the usage line, status 64, and nothing is read."""
    others = {
        "no word": [],
        "an empty word": [""],
        "an unknown word": ["unknown"],
        "a capital letter": ["Replay"],
        "a letter too few": ["repla"],
        "a letter too many": ["replays"],
        "a space behind it": ["replay "],
        "a further word": ["replay", "unknown"],
        "an empty further word": ["replay", ""],
        "it twice": ["replay", "replay"],
        "a word in front": ["unknown", "replay"],
        "a word that is not UTF-8": [b"\xff"],
        "a further word that is not UTF-8": ["replay", b"\xff"],
        "it with a byte that is not UTF-8": [b"replay\xff"],
        "states with a letter too few": ["state"],
        "states with a capital letter": ["States"],
        "states with a further word": ["states", "unknown"],
        "states twice": ["states", "states"],
        "states behind replay": ["replay", "states"],
        "replay behind states": ["states", "replay"],
        "a storm without its numbers": ["storm"],
        "a storm without its seed": ["storm", "2"],
        "a storm with a further word": ["storm", "2", "0", "0"],
        "a storm of too many rounds": ["storm", "200001", "0"],
        "a storm of too many rounds, in hexadecimal": ["storm", "0x30d41", "0"],
        "a storm with a leading zero": ["storm", "02", "0"],
        "a storm with a sign": ["storm", "2", "-1"],
        "a storm with a seed past 32 bits": ["storm", "2", "4294967296"],
        "a storm with a seed without digits": ["storm", "2", "0x"],
        "a storm with a seed of nine digits": ["storm", "2", "0x000000001"],
        "a storm with a capital letter": ["Storm", "2", "0"],
    }
    for name, given in others.items():

        def check(program, given=given):
            with tempfile.TemporaryFile() as source:
                source.write(EXAMPLE)
                source.seek(0)
                program.run(*given, source=source).should(64, USAGE)
                if os.lseek(source.fileno(), 0, os.SEEK_CUR):
                    raise Wrong("it read its input")

        yield f"words: {name}", check


def storms_as_replayed():
    """A storm's line is the sum of what a replay of its script tells. The script is made from the rules, not by the
    program, so a wrong line of either side shows; a wrong transcript of both doesn't."""
    for count, seed, given in ((0, 7, ()), (2, 0, ("0x2", "0x0")), (64, 2**32 - 1, ()), (2_000, 1, ())):

        def check(program, count=count, seed=seed, given=given):
            replayed = program.replay(storms.script(count, seed))
            replayed.should(0, replayed.printed)
            wanted = summed(replayed.printed)
            program.run("storm", *(given or (str(count), str(seed)))).should(0, wanted)
            if b" objects=0 " not in wanted:
                raise Wrong(f"objects are left: {brief(wanted)}")

        yield f"a storm of {count} rounds from {seed}", check

    def most(program):
        ended = program.run("storm", "200000", "4294967295")
        ended.should(0, ended.printed)
        if b" objects=0 " not in ended.printed:
            raise Wrong(f"objects are left: {brief(ended.printed)}")

    def unread(program):
        with tempfile.TemporaryFile() as source:
            source.write(EXAMPLE)
            source.seek(0)
            program.run("storm", "0", "7", source=source).should(0, NO_ROUND)
            if os.lseek(source.fileno(), 0, os.SEEK_CUR):
                raise Wrong("it read its input")

    yield "a storm of the most rounds", most
    yield "a storm reads nothing", unread
    without = {"closed": "<&-"}
    yield "a storm without input", lambda program: program.run("storm", "0", "7", **without).should(0, NO_ROUND)


def summed(printed):
    """The line of a storm, from what a replay of its script printed."""
    try:
        return storms.summary(printed)
    except (AssertionError, IndexError, ValueError):
        raise Wrong(f"a replay of its script printed no transcript: {brief(printed)}") from None


def ends_of_input():
    """How the input ends and comes."""

    def pieces(program):
        ours, theirs = socket.socketpair(socket.AF_UNIX, socket.SOCK_SEQPACKET)
        with theirs:
            with ours:
                for byte in EXAMPLE:
                    ours.send(bytes([byte]))
            program.replay(theirs).should(0, (ROOT / "examples" / "first-request.transcript").read_bytes())

    yield "an empty input", replays(b"", 0, b"end 0 0 0\n")
    yield "an input that ends inside a line", replays(LINES[:-1], 0, TOLD + b"end 2 2 3\n")
    yield "an input that ends inside a faulty line", replays(LINES + b"thread 28", 2, TOLD + b"stop 3 4\n")
    yield "an input that comes byte by byte", pieces
    yield "an empty input, a file", replays_file(b"", 0, b"end 0 0 0\n")
    yield "an input that ends inside a line, a file", replays_file(LINES[:-1], 0, TOLD + b"end 2 2 3\n")


def inputs_that_fail():
    """Status 3, and what the whole lines tell, unless one of them is faulty or a line is too long."""

    def fails(failing, script, status, printed):
        def check(program):
            with open(failing(script), "rb", buffering=0) as source:
                program.replay(source).should(status, printed)

        return check

    for name, failing in ("reset", reset_after), ("terminal gone", terminal_gone_after):
        yield f"{name}: at once", fails(failing, b"", 3, b"")
        yield f"{name}: behind whole lines", fails(failing, LINES, 3, TOLD)
        yield f"{name}: inside a line", fails(failing, LINES + b"thread 28 20", 3, TOLD)
        yield f"{name}: inside a faulty line", fails(failing, LINES + b"thread\t", 3, TOLD)
        yield f"{name}: behind a faulty line", fails(failing, LINES + b"thread\t\n", 2, TOLD + b"stop 3 1\n")
    long = FIRST + b"#" * 16_384
    yield "reset: inside a line of 16,384 bytes", fails(reset_after, long, 3, FIRST_TOLD)
    yield "reset: inside a line of 16,385 bytes", fails(reset_after, long + b"#", 2, FIRST_TOLD + b"stop 2 9\n")

    def directory(program):
        number = os.open(ROOT, os.O_RDONLY)
        try:
            program.replay(number).should(3)
        finally:
            os.close(number)

    def empty(program):
        near, far = os.pipe()
        os.set_blocking(near, False)
        try:
            program.replay(near).should(3)
        finally:
            os.close(near)
            os.close(far)

    def for_writing(program):
        with open(os.devnull, "wb") as source:
            program.replay(source).should(3)

    yield "the input is closed", lambda program: program.replay(closed="<&-").should(3)
    yield "the input is a directory", directory
    yield "the input has nothing now and does not wait", empty
    yield "the input is open for writing alone", for_writing


def outputs_that_fail():
    """Status 4, and no signal."""

    def full(*given, source=EXAMPLE):
        def check(program):
            with open("/dev/full", "wb") as sink:
                program.run(*given, source=source, sink=sink).should(4)

        return check

    def full_file(script):
        def check(program):
            with open("/dev/full", "wb") as sink:
                program.replay_file(script, sink=sink).should(4)

        return check

    def both_fail(program):
        with open(reset_after(LINES), "rb", buffering=0) as source, open("/dev/full", "wb") as sink:
            program.replay(source, sink=sink).should(4)

    def reader_gone(program):
        far, near = os.pipe()
        os.close(far)
        try:
            program.replay(EXAMPLE, sink=near).should(4)
        finally:
            os.close(near)

    def reader_goes(program):
        with program.started([FIRST, b"28 NtListenPort 4\n" * 10_000], subprocess.PIPE) as child:
            first = child.stdout.read(len(FIRST_TOLD))
            child.stdout.close()
            status = child.wait()
        if first != FIRST_TOLD:
            raise Wrong(f"it printed {brief(first)} first")
        Ended(status).should(4)

    def at_times(program):
        with sink_that_fails_at_times() as sink:
            program.replay(EXAMPLE, sink=sink).should(4)

    def filled(program):
        near, far = filled_pipe()
        try:
            program.replay(EXAMPLE, sink=near).should(4)
        finally:
            os.close(near)
            os.close(far)

    def for_reading(program):
        with open(os.devnull, "rb") as sink:
            program.replay(EXAMPLE, sink=sink).should(4)

    yield "the output is closed", lambda program: program.replay(EXAMPLE, closed=">&-").should(4)
    yield "the input and the output are closed", lambda program: program.replay(closed="<&- >&-").should(3)
    unheard = {"closed": "2>&-"}
    yield "the standard error is closed", lambda it: it.replay(LINES, **unheard).should(0, TOLD + b"end 2 2 3\n")
    yield "the output is closed: other words", lambda program: program.run(closed=">&-").should(4)
    yield "the output is closed: a storm", lambda program: program.run("storm", "2", "0", closed=">&-").should(4)
    yield "the disk is full: a storm", full("storm", "2", "0")
    yield "the disk is full", full("replay")
    yield "the disk is full: the last line alone", full("replay", source=b"")
    yield "the disk is full: a faulty line alone", full("replay", source=b"unknown\n")
    yield "the disk is full: other words", full()
    yield "the disk is full, and the script is a file", full_file(EXAMPLE)
    yield "the disk is full, and an empty script is a file", full_file(b"")
    yield "the disk is full, and a faulty script is a file", full_file(b"unknown\n")
    yield "the output is closed, and the script is a file", lambda it: it.replay_file(EXAMPLE, closed=">&-").should(4)
    yield "the disk is full, and the input fails", both_fail
    yield "the reader of the output is gone", reader_gone
    yield "the reader of the output goes", reader_goes
    yield "the output fails once and then takes more", at_times
    yield "the output is full and does not wait", filled
    yield "the output is open for reading alone", for_reading


def socket_pair():
    """Two sockets that are joined."""
    return [it.detach() for it in socket.socketpair()]


def named_pipe():
    """The two sides of a pipe that was opened by its name."""
    with tempfile.TemporaryDirectory() as folder:
        name = os.path.join(folder, "script")
        os.mkfifo(name)
        near = os.open(name, os.O_RDONLY | os.O_NONBLOCK)
        far = os.open(name, os.O_WRONLY)
        os.set_blocking(near, True)
        return near, far


def terminal():
    """A pseudo terminal, which doesn't print what is typed, and its other side."""
    far, near = pty.openpty()
    modes = termios.tcgetattr(near)
    modes[3] &= ~termios.ECHO
    termios.tcsetattr(near, termios.TCSANOW, modes)
    return near, far


def conversations():
    """A line that is asked is answered before the next one is sent, over each input that waits for more."""

    def talks(joined):
        def check(program):
            near, far = joined()
            far = open(far, "wb", buffering=0)
            with subprocess.Popen([*program.command, "replay"], stdin=near, stdout=subprocess.PIPE) as child:
                os.close(near)
                watch = threading.Timer(SECONDS, child.kill)
                watch.start()
                try:
                    talk(child, far)
                finally:
                    watch.cancel()
                    child.kill()
                    far.close()

        return check

    def talk(child, far):
        asked = EXAMPLE.splitlines(keepends=True)
        told = (ROOT / "examples" / "first-request.transcript").read_bytes().splitlines(keepends=True)
        for number, line in enumerate(asked, 1):
            running.send(far, line)
            for wanted in (it for it in told if it.split()[0] == b"%d" % number):
                answered = child.stdout.readline(MUCH)
                if answered != wanted:
                    raise Wrong(f"line {number} was answered by {brief(answered)}, {brief(wanted)} is wanted")
        if far.isatty():
            far.write(END_AT_TERMINAL)
        else:
            far.close()
        last = child.stdout.read(MUCH)
        child.wait()
        Ended(child.returncode, last).should(0, told[-1])

    def leave(program):
        """The reader closes early: the next entry can't be written, and nothing more is read."""
        lines = EXAMPLE.splitlines(keepends=True)
        with subprocess.Popen([*program.command, "replay"], stdin=subprocess.PIPE, stdout=subprocess.PIPE) as child:
            watch = threading.Timer(SECONDS, child.kill)
            watch.start()
            try:
                running.send(child.stdin, lines[0])
                first = child.stdout.readline(MUCH)
                child.stdout.close()
                running.send(child.stdin, lines[1])
                child.wait()
            finally:
                watch.cancel()
                child.kill()
                running.shut(child.stdin)
        Ended(child.returncode, first).should(4, b"1 - boot 00000000\n")

    yield "a conversation over a pipe", talks(os.pipe)
    yield "a conversation over a named pipe", talks(named_pipe)
    yield "a conversation over a socket", talks(socket_pair)
    yield "a conversation at a terminal", talks(terminal)
    yield "a conversation whose reader goes", leave


def limits():
    """Long lines and many lines."""
    call = b"24 NtCreatePort -"
    for length, status, last in (16_384, 0, b"end 3 2 3\n"), (16_385, 2, b"stop 2 9\n"):
        told = TOLD if status == 0 else FIRST_TOLD
        yield f"a call of {length:,} bytes", replays(FIRST + call.ljust(length) + b"\n#\n", status, told + last)
    for length, status, last in (16_384, 0, b"end 3 1 2\n"), (16_385, 2, b"stop 2 9\n"):
        yield f"a comment of {length:,} bytes", replays(FIRST + b"#" * length + b"\n#\n", status, FIRST_TOLD + last)
    most = FIRST + b"#\n" * 999_998 + call + b"\n"
    told = FIRST_TOLD + b"1000000 24 NtCreatePort 00000000 h=4\n"
    yield "1,000,000 lines", replays(most, 0, told + b"end 1000000 2 3\n")
    yield "1,000,001 lines", replays(most + b"#\n", 2, told + b"stop 1000001 10\n")
    yield "1,000,000 lines and a byte 10", replays(most + b"\n", 2, told + b"stop 1000001 10\n")
    yield "1,000,000 lines and a byte", replays(most + b"#", 2, told + b"stop 1000001 10\n")
    yield "a million comments in bounded memory", memory_of_comments
    yield "memory runs out", memory_runs_out
    yield "memory runs out, and the script is a file", lambda it: memory_runs_out(it, Program.replay_file)


def memory_of_comments(program):
    """Of a script's text one line and one piece are held, so a script of a million lines takes no more than one of a
    thousand, but for a few hundred KiB."""
    peaks = []
    for thousands in 1, 1_000:
        block = b"# a comment that says nothing at all.\n" * 1_000
        with tempfile.TemporaryFile() as sink, program.started([block] * thousands, sink) as child:
            _, status, used = os.wait4(child.pid, 0)
            child.returncode = os.waitstatus_to_exitcode(status)
            sink.seek(0)
            Ended(child.returncode, sink.read()).should(0, b"end %d 0 0\n" % (1_000 * thousands))
        peaks.append(used.ru_maxrss)
    if peaks[1] > peaks[0] + 512:
        raise Wrong(f"it took {peaks[1]} KiB for a million lines, and {peaks[0]} KiB for a thousand")


def limited(program, size):
    """The program with so many KiB of address space."""
    return Program(["sh", "-c", f'ulimit -v {size} && exec "$@"', "sh", *program.command])


def least_memory(program, replay):
    """The KiB of address space in which the program replays an empty script, to 1,000."""
    for size in range(2_000, 100_000, 1_000):
        ended = replay(limited(program, size), b"")
        if (ended.status, ended.printed) == (0, b"end 0 0 0\n"):
            return size
    raise Wrong("it replays no empty script in 100,000 KiB")


def memory_runs_out(program, replay=Program.replay):
    """Status 5, and the beginning of the transcript up to a line's end: as many lines at least as have room."""
    numbers = range(1, 20_001)
    script = b"".join(b"boot %d %d\n" % (it, it) for it in numbers)
    ended = replay(limited(program, least_memory(program, replay) + LEFT), script)
    told = [b"%d - boot 00000000\n" % it for it in numbers]
    count = ended.printed.count(b"\n")
    ended.should(5, b"".join(told[:count]))
    if count < TOLD_AT_LEAST:
        raise Wrong(f"it told {count} lines, at least {TOLD_AT_LEAST} are wanted")


def growth():
    """Ten times the lines take about ten times as long, where a script leaves as many rows as it finds, where it makes
    processes alone, where it makes and ends them, and where connections stay. Lines on a view take as long whatever the
    size of its section, and most lines as long whatever rows stand that they don't name, sections and tokens aside."""
    scripts = (
        bench.requests,
        bench.datagrams,
        bench.closings,
        bench.endings,
        bench.small_views,
        bench.large_views,
        bench.described,
        bench.impersonations,
        bench.raises,
        bench.turns,
    )
    for script in scripts:
        yield f"time grows with the lines: {script.__name__}", grows_with_lines(script, TIMES_LONGER)
    for script in bench.boots, bench.creations, bench.connects:
        yield f"time grows with the lines: {script.__name__}", grows_with_lines(script, TIMES_LONGER_WITH_ROWS)
    yield "time doesn't grow with a section's size", grows_not_with_sections
    for rows, count in FLAT_ROWS:
        yield f"time doesn't grow with rows that stand: {rows.__name__}", grows_not_with_rows(rows, count)


def grows_with_lines(script, times):
    """A check that a line of a long script takes at most so many times as long as one of a short script."""

    def check(program):
        short, long = (processor_seconds(program, list(script(lines))) / lines for lines in (SHORT_SCRIPT, LONG_SCRIPT))
        if long > times * short:
            raise Wrong(f"a line takes {long / short:.1f} times as long in {LONG_SCRIPT:,} as in {SHORT_SCRIPT:,}")

    return check


def grows_not_with_sections(program):
    """Compares what as many lines take over a section of 4 KiB and over one of 4 MiB, whose zeros are made once."""
    small, large = (
        processor_seconds(program, list(script(LONG_SCRIPT))) for script in (bench.small_views, bench.large_views)
    )
    if large > TIMES_LONGER * small:
        raise Wrong(f"a line on a view of 4 MiB takes {large / small:.1f} times as long as on one of 4 KiB")


def grows_not_with_rows(rows, count):
    """A check that a line of each script takes at most so many times as long beside many rows as alone. What making the
    rows takes is taken off."""

    def check(program):
        standing = list(rows(count))
        making = processor_seconds(program, standing, RUNS_BESIDE)
        slower = []
        for script in FLAT_SCRIPTS:
            lines = list(script(LINES_BESIDE))
            alone = processor_seconds(program, lines, RUNS_BESIDE)
            beside = processor_seconds(program, standing + lines, RUNS_BESIDE) - making
            if beside > TIMES_LONGER * alone:
                slower.append(f"{script.__name__} {beside / alone:.1f} times")
        if slower:
            raise Wrong(f"a line takes longer beside {count:,} rows than alone: {', '.join(slower)}")

    return check


def processor_seconds(program, lines, runs=RUNS):
    """The least processor seconds that a run over the script took, of some runs: what else the machine does adds to it."""
    script = [line.encode() + b"\n" for line in lines]
    taken = []
    for _ in range(runs):
        with open(os.devnull, "wb") as sink, program.started(script, sink) as child:
            _, status, used = os.wait4(child.pid, 0)
            child.returncode = os.waitstatus_to_exitcode(status)
        Ended(child.returncode).should(0)
        taken.append(used.ru_utime + used.ru_stime)
    return min(taken)


def large_worlds():
    """Want of memory is no answer where there is memory, however large the world is."""
    count = 0
    for name, script, transcript in worlds.all_worlds():
        count += 1
        yield f"a large world: {name}", replays(script, 0, transcript)
    yield f"there are {WORLDS} large worlds", lambda _: check_count(count)


def check_count(count):
    """Fails where as many large worlds weren't made."""
    if count != WORLDS:
        raise Wrong(f"{count} were made")


# The groups of checks, and how many each makes: who adds one changes the number.
GROUPS = {
    examples: 70,
    words: 31,
    storms_as_replayed: 7,
    ends_of_input: 6,
    inputs_that_fail: 16,
    outputs_that_fail: 20,
    conversations: 5,
    limits: 11,
    growth: 19,
    large_worlds: WORLDS + 1,
}


def fail_where(found):
    """Fails where something was found wrong."""
    if found:
        raise Wrong(found[0])


def checks(groups):
    """All checks of the groups, and that each makes as many as there are."""
    for group, least in groups.items():
        count = 0
        for check in group():
            count += 1
            yield check
        found = enough(group.__name__, count, least)
        yield found[0], lambda _: fail_where(found[1])


def tried(program, groups):
    """Makes the checks of the groups, and answers the status."""
    passed = failed = 0
    for name, check in checks(groups):
        try:
            wrong = running.found(check, program)
        except LeftOut as why:
            print(f"left out: {name}: {why}", flush=True)
            continue
        passed += not wrong
        failed += bool(wrong)
        for why in wrong:
            print(f"FAILED: {name}: {why}", flush=True)
    print(f"{passed} passed, {failed} failed")
    return 1 if failed else 0


def main(command):
    if not command or not shutil.which(command[0]):
        print("usage: tests/program.py PROGRAM [WORDS..]", file=sys.stderr)
        return 64
    return tried(Program(command), GROUPS)


if __name__ == "__main__":
    sys.exit(main(sys.argv[1:]))
