"""Makes scripts at random that go deep, runs a program over them, and shrinks the first one that it gets wrong.

    ntlpc-tool hunt --program PROGRAM [--seed N] [--count N] [--calls N] [--time SECONDS] [--save DIR]

Each script is made in a conversation with the program ntlpc: what was told so far (who lives and waits, the handles
that were given, the messages that can be answered) chooses the next line, so that most lines fit, and some are refused
on purpose. Then `PROGRAM replay` is run over the script, and has to print what ntlpc printed, byte for byte. PROGRAM
may be several words, as "python3 my.py".

Where it differs, lines are left out as long as it still differs. What is left is printed, with the first difference,
what that means, and the rule that it breaks. With --save it is left as a case too: DIR/hunt-SEED-NUMBER.script, and
beside it the right transcript. The same seed and words make the same scripts.

Exit status: 0 where no script was found, 1 where one was, 2 where the words are wrong or something can't be run.
"""
import contextlib
import os
import random
import shlex
import sys
import time

from ntlpc_tool import following, hunting, inputs, judge, needs, program, shrinking
from ntlpc_tool.conversation import Broken, Conversation, Stopped

NAME = "hunt"
COUNT, CALLS, MOST_CALLS = 100, 300, 100_000
# How long the tested program may run over one script, how long is shrunk at most, and between lines of progress.
TIMEOUT, SHRINK_SECONDS, PROGRESS_SECONDS = 10, 120, 3


def add_arguments(parser):
    add = parser.add_argument
    add("--program", metavar="PROGRAM", required=True, help="the program that is asked about")
    add("--oracle", metavar="PATH", help="the program ntlpc; where it isn't given, the one that the other words find")
    add("--seed", metavar="N", type=number(0), default=1, help="what the scripts are drawn from (1)")
    count = f"how many scripts ({COUNT}; with --time as many as there is time for)"
    add("--count", metavar="N", type=number(1), help=count)
    add("--calls", metavar="N", type=number(1), default=CALLS, help=f"how many lines a script has ({CALLS})")
    add("--time", metavar="SECONDS", type=seconds, help="no further script is begun behind this time")
    timeout = f"how long the program may run over one script ({TIMEOUT})"
    add("--timeout", metavar="SECONDS", type=seconds, default=TIMEOUT, help=timeout)
    add("--without", metavar="NAME,..", type=names, action="extend", help="calls and directives that no script has")
    add("--save", metavar="DIR", help="leaves the shrunk script and its right transcript in this folder")


def number(least):
    """What reads a number of the words."""

    def integer(word):
        found = int(word)
        if found < least or found > MOST_CALLS * 10_000:
            raise ValueError
        return found

    return integer


def seconds(word):
    """A time of the words: above 0."""
    found = float(word)
    if not 0 < found < 1e9:
        raise ValueError
    return found


def names(word):
    """Names of calls and directives of the words; `boot` is in every script."""
    found = word.split(",")
    if "boot" in found or not set(found) <= set(needs.NAMES):
        raise ValueError
    return found


def run(arguments):
    hunt = Hunt(arguments)
    if arguments.calls > MOST_CALLS:
        raise inputs.Misuse(f"--calls is {MOST_CALLS} at most")
    if arguments.save:
        folder(arguments.save)
    for at in hunt.numbers():
        script = hunt.script(at)
        wanted = hunt.right(script)
        failure = hunt.failure(script, wanted)
        if failure:
            hunt.tell(at, script, failure)
            return 1
    print(f"no difference in {hunt.scripts} scripts of {hunt.lines} lines, seed {arguments.seed}")
    return 0


def folder(path):
    """Makes the folder for what is saved."""
    try:
        os.makedirs(path, exist_ok=True)
    except OSError as error:
        raise inputs.Misuse(f"{path} can't be made: {error.strerror}") from None


class Hunt:
    """One hunt: the two programs, what was counted, and when progress was told last."""

    def __init__(self, arguments):
        self.given, self.begun = arguments, time.monotonic()
        self.oracle = program.find(arguments.oracle)
        try:
            self.command = [*shlex.split(arguments.program), "replay"]
        except ValueError as wrong:
            raise inputs.Misuse(f"--program can't be read: {wrong}") from None
        if len(self.command) == 1:
            raise inputs.Misuse("--program names no program")
        self.scripts = self.lines = 0
        self.told = self.begun

    def numbers(self):
        """The numbers of the scripts, as long as there is time."""
        count = self.given.count or (sys.maxsize if self.given.time else COUNT)
        for at in range(1, count + 1):
            if at > 1 and self.given.time and time.monotonic() - self.begun >= self.given.time:
                return
            self.progress(f"script {at}, {self.lines} lines so far")
            yield at

    def script(self, at):
        """The lines of a script, as the seed and what ntlpc tells choose them."""
        world, lines = following.World(), []
        drawn = random.Random(f"{self.given.seed} {at}")
        hunter = hunting.Hunter(drawn, world, frozenset(self.given.without or ()), self.given.calls)
        try:
            with Conversation(self.oracle) as oracle:
                while len(lines) < self.given.calls:
                    line = hunter.line()
                    world.tell(line, oracle.step(line))
                    lines.append(line.encode())
        except (Broken, Stopped) as why:
            place = f"line {len(lines) + 1}"
            raise inputs.Misuse(f"the conversation with {self.oracle} broke off at {place}: {why}") from None
        self.scripts += 1
        self.lines += len(lines)
        return lines

    def right(self, lines):
        """What ntlpc prints for lines."""
        ran = program.replay(self.oracle, shrinking.script_of(lines))
        if ran.status:
            raise inputs.Misuse(f"the program ntlpc ended with status {ran.status}: {ran.ending()}")
        return ran.printed

    def failure(self, lines, wanted):
        """How the tested program fails over lines; None where it prints what is wanted."""
        script = shrinking.script_of(lines)
        try:
            ran = judge.Ran(self.command, script, len(wanted) + judge.MUCH, self.given.timeout)
        except (OSError, ValueError) as error:
            told = getattr(error, "strerror", None) or error
            raise inputs.Misuse(f"{self.given.program} can't be started: {told}") from None
        return judge.with_ending(judge.of_printed(script, wanted, ran.printed), ran, wanted, self.given.timeout)

    def tell(self, at, lines, failure):
        """Shrinks a script that was found, and tells of it."""
        found = f"script {at} of seed {self.given.seed} differs, behind {time.monotonic() - self.begun:.1f} seconds"
        self.progress(f"{found}; it is shrunk", True)
        cut = lines[: failure.line] if failure.line else lines
        if cut != lines and not self.failure(cut, self.right(cut)):
            cut = lines
        until = time.monotonic() + SHRINK_SECONDS
        work = shrinking.Shrinking(self.oracle, self.differs, until)
        short = work.shortest(cut, lambda count, runs: self.progress(f"{count} lines left, {runs} runs"))
        wanted = self.right(short)
        again = self.failure(short, wanted)
        if not again:
            short, wanted, again = lines, self.right(lines), failure
            print("it doesn't differ alike in each run, so nothing was left out")
        print(found)
        print(f"shrunk from {len(lines)} lines to {len(short)}, in {work.runs} runs")
        print(*(f"    {inputs.shown(it)}" for it in short), sep="\n")
        print(f"means: {again.cause.means}")
        print(*again.told, sep="\n")
        if self.given.save:
            self.save(at, shrinking.script_of(short), wanted)

    def differs(self, script, wanted):
        """Whether the tested program differs over a script."""
        return self.failure(script.split(b"\n")[:-1], wanted) is not None

    def save(self, at, script, wanted):
        """Leaves a script and its right transcript as a case."""
        for ending, content in (("script", script), ("transcript", wanted)):
            path = os.path.join(self.given.save, f"hunt-{self.given.seed}-{at}.{ending}")
            try:
                with open(path, "wb") as file:
                    file.write(content)
            except OSError as error:
                raise inputs.Misuse(f"{path} can't be written: {error.strerror}") from None
            print(f"saved: {path}")

    def progress(self, text, now=False):
        """Tells how far it is at a terminal, every few seconds."""
        if sys.stderr is None or not sys.stderr.isatty():
            return
        if now or time.monotonic() - self.told >= PROGRESS_SECONDS:
            self.told = time.monotonic()
            with contextlib.suppress(OSError):
                print(f"hunt: {text}", file=sys.stderr, flush=True)
