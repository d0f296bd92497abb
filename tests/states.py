#!/usr/bin/env python3
"""Tries the form `states`, which prints behind each line's entries the rows of the world that came, changed or went.

    tests/states.py PROGRAM [WORDS..]

- Each file .states below examples/ is what the program prints for the script beside it, byte for byte. They are worked
  by hand from docs/STATES.md.
- For each script of the suite, of examples/ and of tests/worked, the lines that don't begin with `{` are the script's
  transcript, and the status is that of a replay. Each other line is a JSON object behind the entries of its line; who
  follows the rows by their names meets none that comes while it is there, or that changes or goes while it isn't, and
  none that changes to what it was. Rows that go stand first, and those of one kind together.
- The same holds of worlds of some hundred rows of each kind, none of which may want for memory.
- Where such a script ends, what a row tells of others is so: the objects left are as many as the last line says, each
  name of an object is that of a row, and the counts of handles and pointers are those of the rows.
- A line is answered before the next one is sent; faulty lines, and an input or an output that fails, have the statuses
  of a replay.

Each check that fails has a line, and the last line is `N passed, M failed`. The exit status is 0 where every check
passed, 1 where not, and 64 without PROGRAM.
"""
import collections
import json
import os
import pathlib
import re
import shutil
import subprocess
import sys
import tempfile
import threading
from concurrent.futures import ThreadPoolExecutor

sys.dont_write_bytecode = True
import program as tried
import running
import worlds
from program import Ended, Program, brief
from running import MUCH, Wrong, found
from tally import counted, tally

ROOT = pathlib.Path(__file__).resolve().parent.parent
sys.path.insert(0, str(ROOT / "conformance"))
import suite

EXAMPLES = ROOT / "examples"
# How many files .states there are: who adds one changes the number.
STATES_COUNT = 7
WORDS = "came", "changed", "went"
# The kinds of rows in their order, and those that are objects.
KINDS = "process thread wait mark handle port message name section view token token_name".split()
OBJECTS = "process", "thread", "port", "section", "token"
OBJECT_NAME = re.compile(rf"({'|'.join(OBJECTS)}) \d+\.\d+")
# What is printed for the lines of tests/program.py: a process with a thread, and a port without a name.
SYSTEM = '{"user":"S-1-5-18","groups":["S-1-5-32-544","S-1-1-0"]}'
PROCESS = (
    '{"line":1,"came":"process 0.20","number":20,"maker":null,"token":%s,"debug_port":null,"exception_port":null,'
    '"doom":null,"handles":0,"pointers":1}\n' % SYSTEM
).encode()
THREAD = (
    b'{"line":%d,"%s":"thread 0.24","number":24,"process":20,"live":true,"next_identifier":1,"next_ordinal":%d,'
    b'"registrations":[],"acts_as":null,"handles":0,"pointers":1}\n'
)
HANDLE = b'{"line":2,"came":"handle 20/4","process":20,"value":4,"object":"port 24.1","access":"001f0001"}\n'
PORT = (
    b'{"line":2,"came":"port 24.1","kind":"unnamed","connection":null,"pair":null,"context":"00000000",'
    b'"completed":false,"creator":null,"security":null,"handles":1,"pointers":1}\n'
)
FIRST_TOLD = tried.FIRST_TOLD + PROCESS + THREAD % (1, b"came", 1)
TOLD = FIRST_TOLD + b"2 24 NtCreatePort 00000000 h=4\n" + THREAD % (2, b"changed", 2) + HANDLE + PORT


def kind_of(name):
    """The place of a row's kind among the kinds, by the row's name."""
    return KINDS.index(name.partition(" ")[0])


def object_of(pairs):
    """A JSON object of which no key stands twice."""
    if len({key for key, _ in pairs}) < len(pairs):
        raise Wrong(f"a key stands twice among {[key for key, _ in pairs]}")
    return dict(pairs)


class Followed:
    """The rows of a world, as one has them who reads the lines."""

    def __init__(self):
        self.rows = {}
        self.line, self.went, self.place = 0, True, 0

    def entry(self, line):
        """A line of the transcript: what rows come behind it is of its line."""
        self.line, self.went, self.place = line, True, 0

    def take(self, text):
        """A line that tells of a row."""
        told = json.loads(text, object_pairs_hook=object_of)
        keys = list(told)
        if keys[0] != "line" or keys[1:2][0] not in WORDS:
            raise Wrong(f"it doesn't begin as a row does: {brief(text)}")
        line, word = told.pop("line"), keys[1]
        name = told.pop(word)
        if line != self.line:
            raise Wrong(f"it is told of line {line} behind line {self.line}: {brief(text)}")
        self.ordered(word, name)
        if (name in self.rows) != (word != "came"):
            raise Wrong(f"line {line}: {name} {word}, and it is{' not' * (name not in self.rows)} there")
        if word == "changed" and self.rows[name] == told:
            raise Wrong(f"line {line}: {name} is as it was")
        if word == "went" and told:
            raise Wrong(f"line {line}: {name} went, and more is told of it")
        if word == "went":
            del self.rows[name]
        else:
            self.rows[name] = told

    def ordered(self, word, name):
        """Fails where a row goes behind one that came or changed, or stands behind a later kind."""
        if word != "went" and self.went:
            self.went, self.place = False, 0
        if word == "went" and not self.went or kind_of(name) < self.place:
            raise Wrong(f"line {self.line}: {name} stands too late")
        self.place = kind_of(name)

    def ended(self, left):
        """Fails where the rows don't fit each other, or aren't of so many objects."""
        objects = {name for name in self.rows if name.startswith(tuple(f"{it} " for it in OBJECTS))}
        if len(objects) != left:
            raise Wrong(f"there are rows of {len(objects)} objects, {left} are left")
        handles, others = counts_of(self.rows)
        for name in {*handles, *others} - objects:
            raise Wrong(f"{name} is named, and has no row")
        for name in objects:
            row = self.rows[name]
            wanted = handles[name], handles[name] + others[name]
            if (row["handles"], row["pointers"]) != wanted:
                raise Wrong(f"{name} has {row['handles']} and {row['pointers']}, its rows count {wanted}")


def counts_of(rows):
    """How many handles name each object, and how many other rows count for it (docs/SERVICES.md, NtQueryObject)."""
    handles, others = collections.Counter(), collections.Counter()
    numbers = {row["number"]: name for name, row in rows.items() if name.startswith("process ")}
    for name, row in rows.items():
        kind = name.partition(" ")[0]
        named = {
            "process": lambda: [row["debug_port"], row["exception_port"]],
            "thread": lambda: [name, numbers[row["process"]], *row["registrations"]] if row["live"] else [],
            "wait": lambda: [row["port"], (row.get("offer") or {}).get("section")],
            "port": lambda: [row["connection"], row["pair"]],
            "message": lambda: [row["sender"]],
            "view": lambda: [row["section"], row["owner"]],
        }.get(kind, list)()
        others.update(it for it in named if it)
        if kind == "handle":
            handles[row["object"]] += 1
    return handles, others


def followed(lines, transcript):
    """Fails where the lines of a transcript are others, or rows are told that can't be followed."""
    rows, entries = Followed(), iter(transcript.splitlines(True))
    for line in lines:
        if line.startswith(b"{"):
            rows.take(line)
            continue
        wanted = next(entries, b"")
        if line != wanted:
            raise Wrong(f"without its rows it isn't the transcript: {brief(line)}, wanted is {brief(wanted)}")
        if line[:1].isdigit():
            rows.entry(int(line.split()[0]))
    left = next(entries, None)
    if left:
        raise Wrong(f"without its rows it isn't the transcript: it ends in front of {brief(left)}")
    last = transcript.splitlines()[-1].split()
    if last[0] == b"end":
        rows.ended(int(last[3]))


def status_of(transcript):
    """The status that goes with a transcript."""
    return 2 if transcript.splitlines()[-1].startswith(b"stop ") else 0


def examples(program):
    """Each file .states is what the program prints."""
    files = sorted(EXAMPLES.rglob("*.states"))
    yield f"there are {STATES_COUNT} files .states", [f"there are {len(files)}"] * (len(files) != STATES_COUNT)
    for file in files:
        script, transcript, wanted = (file.with_suffix(it) for it in (".script", ".transcript", ".states"))
        told = transcript.read_bytes()
        name = file.relative_to(ROOT).as_posix()
        yield f"{name} and its transcript", found(followed, wanted.read_bytes().splitlines(True), told)
        for form, text, of in ("states", wanted.read_bytes(), name), ("replay", told, f"{name}: the transcript"):
            ends = lambda: program.run(form, source=script.read_bytes()).should(status_of(told), text)
            yield of, found(ends)


def scripts():
    """All scripts that have a transcript: the suite's and those beside it."""
    yield from suite.cases()
    for folder in EXAMPLES, ROOT / "tests" / "worked":
        yield from (it for it in suite.cases(folder) if "traces/" not in it.path)


def follow(program, script, transcript):
    """Runs one script."""
    with tempfile.TemporaryFile() as source:
        source.write(script)
        source.seek(0)
        with subprocess.Popen([*program.command, "states"], stdin=source, stdout=subprocess.PIPE) as child:
            watch = threading.Timer(tried.SECONDS, child.kill)
            watch.start()
            try:
                # A long script has many rows to tell of: they are followed as they come, and not kept.
                followed(iter(lambda: child.stdout.readline(MUCH), b""), transcript)
                child.wait()
            except (Wrong, ValueError):
                # What a program that was ended has printed may end inside a line.
                if watch.finished.is_set():
                    raise Wrong(f"it did not end within {tried.SECONDS} seconds") from None
                raise
            finally:
                watch.cancel()
                child.kill()
    if child.returncode != status_of(transcript):
        raise Wrong(f"it ended with status {child.returncode}, status {status_of(transcript)} is wanted")


def all_scripts(program):
    """The rows of each script can be followed, and without them it is the transcript."""
    with ThreadPoolExecutor(len(os.sched_getaffinity(0))) as pool:
        chosen = list(scripts())
        tried_each = pool.map(lambda it: found(follow, program, it.script(), it.transcript()), chosen)
        for case, wrong in zip(chosen, tried_each):
            yield f"the rows of {(case.root / case.path).relative_to(ROOT)}", wrong


def many_rows(program):
    """Worlds of many rows have memory enough, and their rows can be followed."""
    with ThreadPoolExecutor(len(os.sched_getaffinity(0))) as pool:
        chosen = list(worlds.many_rows())
        for (name, *_), wrong in zip(chosen, pool.map(lambda it: found(follow, program, it[1], it[2]), chosen)):
            yield f"many rows: {name}", wrong


def conversation(program):
    """Over a pipe each line is answered, with its rows, before the next one is sent."""
    asked = (EXAMPLES / "exercises" / "07-a-connection.script").read_bytes().splitlines(True)
    told = (EXAMPLES / "exercises" / "07-a-connection.states").read_bytes().splitlines(True)
    number = re.compile(rb'(?:\{"line":)?(\d+)[ ,]')

    def talk():
        with subprocess.Popen([*program.command, "states"], stdin=subprocess.PIPE, stdout=subprocess.PIPE) as child:
            watch = threading.Timer(tried.SECONDS, child.kill)
            watch.start()
            try:
                for at, line in enumerate(asked, 1):
                    running.send(child.stdin, line)
                    for wanted in (it for it in told[:-1] if int(number.match(it)[1]) == at):
                        answered = child.stdout.readline(MUCH)
                        if answered != wanted:
                            raise Wrong(f"line {at} was answered by {brief(answered)}, {brief(wanted)} is wanted")
                running.shut(child.stdin)
                last = child.stdout.read(MUCH)
                child.wait()
            finally:
                watch.cancel()
                child.kill()
                running.shut(child.stdin)
        Ended(child.returncode, last).should(0, told[-1])

    yield "a conversation over a pipe", found(talk)


def statuses(program):
    """Faulty lines, and inputs and outputs that fail, as those of a replay."""
    lines = tried.LINES

    def of(source, status, printed, **how):
        return found(lambda: program.run("states", source=source, **how).should(status, printed))

    def reset(script, status, printed):
        with open(tried.reset_after(script), "rb", buffering=0) as source:
            return of(source, status, printed)

    yield "an empty script", of(b"", 0, b"end 0 0 0\n")
    yield "comments alone", of(b"# boot 20 24\n\n", 0, b"end 2 0 0\n")
    yield "a script of two lines", of(lines, 0, TOLD + b"end 2 2 3\n")
    yield "an input that ends inside a line", of(lines[:-1], 0, TOLD + b"end 2 2 3\n")
    refused = b"3 - boot c0000035\n4 24 NtClose c0000008\n5 28 nothread\n"
    nothing = b"boot 20 28\n24 NtClose 8\n28 NtClose 4\n"
    yield "lines that change nothing", of(lines + nothing, 0, TOLD + refused + b"end 5 5 3\n")
    yield "a faulty line", of(lines + b"thread\t\n24 NtClose 4\n", 2, TOLD + b"stop 3 1\n")
    yield "a faulty first line", of(b"unknown\n", 2, b"stop 1 2\n")
    yield "the input fails at once", reset(b"", 3, b"")
    yield "the input fails behind whole lines", reset(lines, 3, TOLD)
    yield "the input fails inside a line", reset(lines + b"thread 28 20", 3, TOLD)
    yield "the input is closed", of(b"", 3, b"", closed="<&-")
    yield "the output is closed", of(lines, 4, b"", closed=">&-")
    with open("/dev/full", "wb") as sink:
        yield "the disk is full", of(lines, 4, b"", sink=sink)


# The groups of checks, and how many each makes at least: who adds one changes the number.
GROUPS = {examples: 1 + 3 * STATES_COUNT, all_scripts: 2_100, many_rows: 15, conversation: 1, statuses: 13}


def checks(program):
    """All checks: each with its name and what it found wrong."""
    for group, least in GROUPS.items():
        yield from counted(group.__name__, group(program), least)


def main(command):
    if not command or not shutil.which(command[0]):
        print("usage: tests/states.py PROGRAM [WORDS..]", file=sys.stderr)
        return 64
    return tally(checks(Program(command)))


if __name__ == "__main__":
    sys.exit(main(sys.argv[1:]))
