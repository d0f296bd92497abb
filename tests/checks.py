#!/usr/bin/env python3
"""Tries the checks themselves: each has to tell what goes wrong below it, and to look at all that there is.

    tests/checks.py

- What measures the gate ends as the command ends, also where a signal ends it, and passes on what is to end it.
- `.ci/run` makes all its parts, over stand-ins for them, and fails where one of them does, however that one ends.
- `conformance/run` runs every script of a suite, and passes no case that is broken; `conformance/coverage` tells what
  is missing and what isn't named; the suite's folder has as many cases as files that make one.
- The probe of `tests/program.py` that takes memory away refuses a program that tells nothing, and one that doesn't run.
- What tests compare of a run is all that is to be compared: its status, its bytes, its standard error, its counts.
- A test that finds something wrong says so by its closing line and its status, and so does one that makes fewer checks
  than there are; `tests/program.py` refuses scripts of which a line takes longer the more there are.
- `tests/edge.py` passes a program that writes what each line tells, and one that keeps it back until more is read; it
  refuses those that go wrong where a read or a write fails. Where there is no C compiler this is left out.
- `tests/states.py` passes the text of an example, and refuses texts in which a row or an entry is altered.
- `tests/tables.py` finds what is false of a wrong body where a row names it as it stands, and nothing else. It sees a
  cell of a page that is altered, wherever tables tell in words what definitions or scripts say: tests/planted.py.
- A program that prints nothing, garbage, or more and more, that ends at once, doesn't start or doesn't end is told as
  what fails: the tests say so by lines, and end with the number of their checks.

Each check that fails has a line, and the last line is `N passed, M failed`. The exit status is 0 where all passed, 1
where not.
"""
import contextlib
import io
import itertools
import os
import pathlib
import re
import shutil
import signal
import subprocess
import sys
import tempfile
import time
import types

sys.dont_write_bytecode = True
import allocations
import edge
import failing
import isolation
import planted
import program
import running
import states
import tables
import tally
import wrong_bodies

ROOT = pathlib.Path(__file__).resolve().parent.parent
# What `.ci/run` runs, in order. Who adds a part adds it here.
PROGRAM = "crates/ntlpc/out/ntlpc"
PARTS = [
    "rt ci",
    f"conformance/run {PROGRAM}",
    "conformance/coverage",
    f"tests/program.py {PROGRAM}",
    f"tests/states.py {PROGRAM}",
    f"tests/edge.py {PROGRAM}",
    f"tests/allocations.py {PROGRAM}",
    f"tests/isolation.py {PROGRAM}",
    "tests/tools.py",
    "tests/checks.py",
    f"tests/companions.py {PROGRAM}",
    f"tests/pages.py {PROGRAM}",
    "tests/tables.py",
    f"packaging/test {PROGRAM}",
]
# More scripts than a thousand: that many a run has once stopped at.
MANY = 1_050
# What is false of a wrong body of these functions of `lpc_homes`, as a row may name it; what no row may; and the places
# of some wrong bodies.
CLAUSES = [
    ("Parts::close_handle", "`parts`, `kept`"),
    ("Parts::close_handle", "`kept`; the invariant of `Parts`"),
    ("Parts::close_handle", "`part` that `close_handle` asks"),
    ("Parts::close_handle", "`count` of `handles_to`"),
    ("Parts::place_of", "the one clause"),
]
NO_CLAUSES = [
    ("Parts::close_handle", "`part`"),
    ("Parts::close_handle", "`parts` that `close_handle` asks"),
    ("Parts::close_handle", "`parts` that `close_handle`"),
    ("Parts::close_handle", "`parts`, `count`"),
    ("Parts::close_handle", "`parts`; the invariant of `ViewCounts`"),
    ("Parts::close_handle", "the one clause"),
    ("Parts::close_handle", "parts"),
    ("Parts::close_handle", ""),
    ("Parts::place_of", "`count` of `handles_of`"),
    ("Counts::close_handle", "`parts`"),
]
PLACES = {
    ("lpc_homes", "closed_handle_still_counts"): "Parts::close_handle",
    ("lpc_closing", "port_closed_at_each_duplicate"): "has_one_handle",
    ("lpc_residents", "sixty_fifth_connection_is_accepted"): "CONNECTION_LIMIT",
}
# A program that replays one script, whose transcript is its second word. The first says how well.
STAND_IN = """
import os, stat, sys
how, told, kept, number = sys.argv[1], open(sys.argv[2], "rb").read().splitlines(True), b"", 0
keeps = "of a file" in how and stat.S_ISREG(os.fstat(0).st_mode) or how == "keeps back what it told too long"

def flush():
    global kept
    text, kept = kept, b""
    while text:
        try:
            text = text[os.write(1, text) :]
        except OSError:
            if how == "tries a failed write again":
                text = text[os.write(1, text) :]
            elif how == "passes over a failed write":
                return
            else:
                os._exit(3 if how == "tells a failed write as a failed read" else 4)

def tell(text):
    global kept
    kept += text
    if not how.startswith("keeps back"):
        flush()

while True:
    if not keeps:
        flush()
    try:
        piece = os.read(0, 4096)
    except OSError:
        if how == "tries a failed read again":
            piece = os.read(0, 4096)
        elif how == "takes a failed read as the end":
            break
        else:
            if how == "tells a last line behind a failed read":
                tell(told[-1])
            if not how.endswith("loses that"):
                flush()
            os._exit(4 if how == "tells a failed read as a failed write" else 3)
    if not piece:
        break
    for _ in range(piece.count(10)):
        number += 1
        tell(b"".join(it for it in told[:-1] if it.split()[0] == b"%d" % number))
tell(told[-1])
flush()
"""
GOOD = (
    "writes what each line tells",
    "keeps back what it told until it reads",
    "keeps back what it told of a file",
)
BAD = (
    "tries a failed read again",
    "takes a failed read as the end",
    "tells a last line behind a failed read",
    "tells a failed read as a failed write",
    "tries a failed write again",
    "passes over a failed write",
    "tells a failed write as a failed read",
    "keeps back what it told too long",
    "keeps back what it told of a file, and behind a failed read loses that",
)
# How the text of an example in the form of states is made wrong: by a pattern, and what is put in its place.
STATES = "11-a-client-dies"
ALTERED = {
    "leaves out a row that went": (r'\{"line":13,"went":"wait 20.2"\}\n', ""),
    "leaves out a row that came": (r'\{"line":5,"came":"port 12.1".*\n', ""),
    "tells a row twice": (r'(\{"line":6,"came":"wait 20.1".*\n)', r"\1\1"),
    "tells a row that is as it was": (r'(\{"line":7,)"changed"(:"port 20.1".*\n)', r'\1"changed"\2\1"changed"\2'),
    "tells a changed row as one that came": (r'("line":7,)"changed"(:"port 20.1")', r'\1"came"\2'),
    "tells a row that came as a changed one": (r'("line":2,)"came"(:"process 0.8")', r'\1"changed"\2'),
    "tells a row that went twice": (r'(\{"line":13,"went":"wait 20.2"\}\n)', r"\1\1"),
    "tells more of a row that went": (r'("line":13,"went":"wait 20.2")', r'\1,"thread":20'),
    "tells a row of another line": (r'"line":7,"changed":"port 20.1"', '"line":6,"changed":"port 20.1"'),
    "tells rows in front of their entries": (r'(4 - thread 00000000\n)(\{.*\n)', r"\2\1"),
    "tells what went at last": (r'(\{"line":15,"went".*\n)(\{.*\n)', r"\2\1"),
    "tells kinds in another order": (r'(\{"line":5,"came":"handle.*\n)(\{.*\n)', r"\2\1"),
    "has a key twice": (r'("line":5,"came":"handle 8/4","process":8)', r'\1,"process":8'),
    "writes no JSON": (r'("line":5,"came":"handle 8/4","process":)8', r"\g<1>x"),
    "counts other objects": (r"end 19 20 0", "end 19 20 1"),
}
# The same of a text that is cut off behind its line 13, where rows are left.
COUNTED = {
    "counts a handle too few": (r'("line":13,"changed":"port 12.2".*"handles":)1', r"\g<1>0"),
    "counts a row too many": (r'("line":13,"changed":"port 20.1".*"pointers":)2', r"\g<1>3"),
    "names an object that isn't there": (r'("line":5,"came":"handle 8/4".*"object":)"port 12.1"', r'\1"port 12.9"'),
}
# How a run ended that is right, and how those did that aren't: what is compared of it, altered one by one.
RIGHT = {"status": 0, "printed": b"1 - boot 00000000\n", "said": b"", "reads": 3, "writes": 1}
WRONG = {"status": 4, "printed": b"1 - boot 00000001\n", "said": b"?", "reads": 4, "writes": 2}
# A run that wants for memory behind the first of two lines, and such as are wrong.
WANTING = {"status": 5, "printed": b"1 - a\n", "said": b""}
NOT_WANTING = (
    {"status": 4},
    {"printed": b"1 - b\n"},
    {"printed": b"1 - a"},
    {"printed": b"1 - a\nend 1 1 0\n"},
    {"said": b"?"},
)
# Programs that tell the client of tests/isolation.py the same in both runs, and such as don't.
CLIENT_TOLD = "for at in 1 2 3 4 5; do echo $at 36 told; done; echo 6 44 NtRequestPort %s; echo end 6 6 0"
TOLD_SAME = "cat > /dev/null; " + CLIENT_TOLD % "c0000044"
TOLD_OTHERWISE = (
    "cat > /dev/null; " + CLIENT_TOLD % "00000000",
    'many=$(wc -l); echo 0 36 "$many"; ' + CLIENT_TOLD % "c0000044",
    'many=$(wc -l); [ "$many" -gt 40 ] && echo 0 36 more; ' + CLIENT_TOLD % "c0000044",
    "cat > /dev/null; echo 6 44 NtRequestPort c0000044; echo end 6 6 0",
)
# Programs that a test may be given by mistake: what they do, and a script for `sh` that does it.
UNFIT = {
    "prints nothing": "true",
    "ends with status 1 at once": "exit 1",
    "prints what it reads": "cat 2> /dev/null",
    "prints garbage": r"printf '\377\000 7 *\n{}\n{\"line\":1}\n'",
    "prints more and more": "yes '1 24 NtClose 00000000'",
    "prints a line that never ends": "tr '\\000' 1 < /dev/zero",
}
# What of the tests is tried over these: groups that take no longer than a moment.
UNFIT_GROUPS = {program.conversations: 5, program.storms_as_replayed: 7, program.ends_of_input: 6}
UNFIT_STATES = {states.conversation: 1, states.statuses: 13}
# What the pages name that transcripts can reach, and how many cases the suite has at least.
OUTCOMES = 255
CASES_AT_LEAST = 2_000


def ran(*command, **how):
    """Runs a command; its status and what it printed."""
    done = subprocess.run(list(map(str, command)), capture_output=True, text=True, timeout=300, **how)
    return done.returncode, done.stdout


def same(found, wanted):
    """Nothing where both are the same, else what was found."""
    return "" if found == wanted else f"{found!r}, wanted is {wanted!r}"


def measured(script, *front):
    """Runs `sh` with a script below what measures the gate; the status, and the table's lines."""
    with tempfile.NamedTemporaryFile("r") as table:
        status, _ = ran(ROOT / "tests" / "gate_seconds.py", "--to", table.name, *front, "sh", "-c", script)
        return status, table.read().splitlines()


def ends_the_command():
    """What measures the gate is asked to end, and ends with the status of the command, which it asks to end."""
    script = 'trap "exit 7" TERM; echo ready; while :; do sleep 0.05; done'
    command = [ROOT / "tests" / "gate_seconds.py", "--to", os.devnull, "sh", "-c", script]
    with subprocess.Popen(command, stdout=subprocess.PIPE, start_new_session=True) as child:
        child.stdout.readline()
        # It minds the signal soon behind the command's start.
        for _ in range(200):
            caught = re.search(r"^SigCgt:\s*(\w+)$", pathlib.Path(f"/proc/{child.pid}/status").read_text(), re.M)[1]
            if int(caught, 16) >> (signal.SIGTERM - 1) & 1:
                break
            time.sleep(0.05)
        child.send_signal(signal.SIGTERM)
        try:
            return same(child.wait(30), 7)
        finally:
            with contextlib.suppress(ProcessLookupError):
                os.killpg(child.pid, signal.SIGKILL)


def gate_seconds():
    """What measures the gate ends as its command does."""
    for script, status in {
        "exit 0": 0,
        "exit 1": 1,
        "exit 255": 255,
        "kill -9 $$": 137,
        "kill -TERM $$": 143,
        "kill -ABRT $$": 134,
    }.items():
        yield f"a measured command: {script}", lambda: same(measured(script)[0], status)
    tool = ROOT / "tests" / "gate_seconds.py"
    yield "a measured command that isn't there", lambda: same(ran(tool, "no-such-command")[0], 127)
    yield "no command to measure", lambda: same(ran(tool)[0], 64)
    yield "a measured command is ended", ends_the_command
    listed = (ROOT / "crates.txt").read_text(encoding="utf-8").splitlines()
    rows = [it.partition(":")[0] for it in listed if it and not it.startswith("#")]
    told = [it.split()[0] for it in measured("exit 0")[1]]
    yield "the table has a row for each crate", lambda: same(told, ["seconds", *rows, "sum", "wall"])


class Gate:
    """A folder in which `.ci/run` finds stand-ins for its parts: each logs its words, and ends well."""

    def __init__(self, folder):
        self.folder, self.log = pathlib.Path(folder), pathlib.Path(folder) / "log"
        for words in PARTS:
            self.stands_in(words.split()[0], 'echo "1 passed, 0 failed"')
        self.stands_in("tests/gate_seconds.py", 'shift 2; exec "$@"')
        (self.folder / ".ci").mkdir()
        shutil.copy(ROOT / ".ci" / "run", self.folder / ".ci" / "run")

    def stands_in(self, name, script):
        """Puts a script in the place of a part; where there is none, the part can't be run."""
        file = self.folder / name
        file.parent.mkdir(parents=True, exist_ok=True)
        logs = f'echo "{name}${{1:+ $1}}" >> "{self.log}"\n' if name != "tests/gate_seconds.py" else ""
        file.write_text(f"#!/bin/sh\n{logs}{script}\n", encoding="ascii")
        file.chmod(0o755 if script else 0o644)

    def run(self):
        """Runs the gate; its status and its last line."""
        with contextlib.suppress(FileNotFoundError):
            self.log.unlink()
        path = f"{self.folder}{os.pathsep}{os.environ['PATH']}"
        status, printed = ran(self.folder / ".ci" / "run", env={**os.environ, "PATH": path})
        return status, printed.strip().splitlines()[-1]


def gate_with(name, script):
    """Runs the gate with a script in the place of one part; its status and its last line."""
    with tempfile.TemporaryDirectory() as folder:
        gate = Gate(folder)
        gate.stands_in(name, script)
        return gate.run()


def parts_of_the_gate():
    """What `.ci/run` runs where all goes well."""
    with tempfile.TemporaryDirectory() as folder:
        gate = Gate(folder)
        ended = gate.run()
        told = gate.log.read_text(encoding="ascii").splitlines()
    return same((*ended, told), (0, f"{len(PARTS)} passed, 0 failed", PARTS))


def gate():
    """`.ci/run` counts each way in which a part may end."""
    yield "the gate has its parts", parts_of_the_gate
    count = len(PARTS)
    ways = {
        "exit 1": (count - 1, 1),
        "kill -9 $$": (count - 1, 1),
        "": (count - 1, 1),
        "exit 0": (count, 0),
        'echo "3 passed, 0 failed"; exit 1': (count + 2, 1),
        'echo "3 passed, 2 failed"; exit 1': (count + 2, 2),
        'echo "3 passed, 2 failed"': (count + 2, 2),
        'echo "0 passed, 0 failed"; exit 3': (count - 1, 1),
        'echo "9 passed, 9 failed"; echo "3 passed, 0 failed"': (count + 2, 0),
    }
    names = [it.split()[0] for it in PARTS]
    for script, (passed, failed) in ways.items():
        # (an `rt` that can't be run would have another one run in its place)
        for name in names if script == "exit 1" else names[:1] * bool(script) + [names[4], names[-1]]:
            wanted = (1 if failed else 0, f"{passed} passed, {failed} failed")
            yield f"the gate, with {name}: {script}", lambda: same(gate_with(name, script), wanted)
    wanted = 1, f"{count} passed, 2 failed"
    bad = 'echo "BAD EDIT one"; echo "BAD EDIT two"; echo "1 passed, 0 failed"'
    yield "the gate, with edits that didn't reach the prover", lambda: same(gate_with("rt", bad), wanted)


@contextlib.contextmanager
def suite(cases):
    """A checkout whose suite has these files alone; gives its folder."""
    with tempfile.TemporaryDirectory() as folder:
        root = pathlib.Path(folder)
        (root / "conformance").mkdir()
        for name in ("run", "coverage", "suite.py"):
            shutil.copy(ROOT / "conformance" / name, root / "conformance" / name)
        for name in ("tools", "docs", "VERSION"):
            os.symlink(ROOT / name, root / name)
        for name, text in cases.items():
            file = root / "conformance" / name
            file.parent.mkdir(exist_ok=True)
            file.write_text(text, encoding="ascii")
        yield root


def suite_told(cases, tool, *words):
    """Runs a tool of the suite over one with these files; its status and the last line."""
    with suite(cases) as root:
        status, printed = ran(root / "conformance" / tool, *words, cwd=root)
        return status, printed.strip().splitlines()[-1]


def many(last):
    """A suite of many empty scripts, with empty transcripts but for the last one's."""
    cases = {f"many/{at:05}.{it}": "" for at in range(MANY) for it in ("script", "transcript")}
    return {**cases, f"many/{MANY - 1:05}.transcript": last}


def whole_suite():
    """The suite's cases, against the files that make one, which are counted without its tools."""
    sys.path.insert(0, str(ROOT / "conformance"))
    import suite as tool

    paths = {it.path for it in tool.cases()}
    files = [it for ending in ("script", "generate") for it in (ROOT / "conformance").glob(f"*/*.{ending}")]
    if len(files) < CASES_AT_LEAST:
        return f"there are {len(files)} cases, at least {CASES_AT_LEAST} are wanted"
    return same(sorted(paths), sorted(f"{it.parent.name}/{it.stem}" for it in files))


def suites():
    """The suite's tools, over suites of their own."""
    wanted = 1, f"{MANY - 1} passed, 1 failed"
    yield "every script is run, also the last", lambda: same(suite_told(many("end 0 0 0\n"), "run", "true"), wanted)
    broken = {
        "a script without a transcript": {"one/b.script": ""},
        "a transcript without a script": {"one/b.transcript": ""},
        "a generator that fails": {"one/b.generate": "raise SystemExit(1)"},
        "a generator that fails behind its text": {"one/b.generate": "print(end='', flush=True); raise SystemExit(3)"},
    }
    good = {"one/a.script": "", "one/a.transcript": ""}
    one = 1, "1 passed, 1 failed"
    for name, files in broken.items():
        yield f"a broken case fails: {name}", lambda: same(suite_told({**good, **files}, "run", "true"), one)
        if "one/b.transcript" not in files:
            told = 1, broken_line(files)
            yield f"a broken case is seen: {name}", lambda: same(suite_told({**good, **files}, "coverage"), told)
    little = {"one/a.script": "", "one/a.transcript": "end 0 0 0\n"}
    wanted = 1, f"1 reached, {OUTCOMES - 1} missing, 0 not named"
    yield "what is missing is told", lambda: same(suite_told(little, "coverage"), wanted)
    other = {"one/a.script": "", "one/a.transcript": "1 24 NtClose c0000022\nend 1 1 0\n"}
    wanted = 1, f"2 reached, {OUTCOMES - 2} missing, 1 not named"
    yield "what no page names is told", lambda: same(suite_told(other, "coverage"), wanted)
    wanted = 1, f"0 reached, {OUTCOMES} missing, 0 not named"
    yield "what a program doesn't print is missing", lambda: same(suite_told(little, "coverage", "true"), wanted)
    yield "the suite has all its cases", whole_suite


def broken_line(files):
    """What `conformance/coverage` says of a broken case."""
    name, text = next(iter(files.items()))
    if text:
        return f"the suite is broken: b.generate transcript ended with status {text[-2]}:"
    return "the suite is broken: there is neither b.transcript nor b.generate"


def probe_of_memory(script):
    """What the probe that takes memory away finds wrong with a program."""
    try:
        program.memory_runs_out(program.Program(["sh", "-c", script]))
    except program.LeftOut as why:
        return f"it is left out: {why}"
    except program.Wrong:
        return ""
    return "it passes"


def probes():
    """The probe of memory, over programs that aren't right."""
    empty = 'if [ "$(wc -l)" = 0 ]; then echo end 0 0 0; exit 0; fi'
    scripts = {
        "tells nothing": f"{empty}; exit 5",
        "tells one line": f"{empty}; echo 1 - boot 00000000; exit 5",
        "tells half a line": f"{empty}; printf '1 - boot 0'; exit 5",
        "doesn't start": "exit 1",
        "wants for memory at once": "exit 5",
        "isn't wanting": "cat > /dev/null; echo end 0 0 0",
    }
    for name, script in scripts.items():
        yield f"memory is taken from a program that {name}", lambda: probe_of_memory(script)


def edge_finds(how):
    """Whether the test of the edge finds something wrong with a program."""
    smallest = edge.example(edge.SMALLEST)
    with tempfile.TemporaryDirectory() as folder:
        script = pathlib.Path(folder) / "program.py"
        script.write_text(STAND_IN, encoding="ascii")
        transcript = ROOT / "examples" / f"{edge.SMALLEST}.transcript"
        with failing.failing([sys.executable, "-IS", str(script), how, str(transcript)]) as it:
            found = edge.reads(it, smallest, 20), edge.writes_by_line(it, smallest), edge.writes_of_all(it, smallest)
            return any(wrong for _, wrong in itertools.chain(*found))


def edges():
    """The test of the edge, over programs that are right and over some that aren't."""
    if not failing.compiler():
        print("left out: there is no C compiler here")
        return
    for how in GOOD:
        yield f"the edge of a program that {how}", lambda: same(edge_finds(how), False)
    for how in BAD:
        yield f"the edge of a program that {how}", lambda: same(edge_finds(how), True)


def rows_find(text, transcript=None):
    """Whether the test of the form of states finds something wrong with a text; beside its own entries, where no others
    are given."""
    lines = text.encode().splitlines(True)
    return bool(states.found(states.followed, lines, transcript or b"".join(it for it in lines if it[:1] != b"{")))


def rows_altered(text, pattern, other):
    """Nothing where something is found wrong with a text in which one thing is altered."""
    wrong, count = re.subn(pattern, other, text)
    return same((count, rows_find(wrong)), (1, True))


def rows():
    """The test of the form of states, over the text of an example and over texts that aren't right."""
    file = ROOT / "examples" / "exercises" / f"{STATES}.states"
    text, transcript = file.read_text(encoding="ascii"), file.with_suffix(".transcript").read_bytes()
    # Behind line 13 a process, a thread and three ports are left.
    front = text[: text.index("14 12 NtReplyPort")] + "end 13 14 5\n"
    yield "rows that are right", lambda: same(rows_find(text, transcript), False)
    yield "rows that are right, and left", lambda: same(rows_find(front), False)
    yield "rows without an entry", lambda: same(rows_find(text.replace("13 ~24 died 00000003\n", ""), transcript), True)
    for whole, ways in (text, ALTERED), (front, COUNTED):
        for how, (pattern, other) in ways.items():
            yield f"a text that {how}", lambda: rows_altered(whole, pattern, other)


def ended(found):
    """A run, by what is known of it."""
    return types.SimpleNamespace(**found)


def should_finds(run):
    """Whether a run is refused that should have ended as the right one."""
    try:
        program.Ended(run.status, run.printed, run.said).should(RIGHT["status"], RIGHT["printed"])
    except program.Wrong:
        return True
    return False


def edge_compares(run):
    """Whether the test of the edge refuses a run that should have ended as the right one."""
    return bool(edge.wrong_with(run, RIGHT["status"], RIGHT["printed"], reads=RIGHT["reads"], writes=RIGHT["writes"]))


def comparisons():
    """What tests compare of a run: each part of it alone is altered."""
    for name, finds, parts in ("should", should_finds, 3), ("wrong_with", edge_compares, 5):
        yield f"{name} passes what is right", lambda: same(finds(ended(RIGHT)), False)
        for part in list(RIGHT)[:parts]:
            run = ended({**RIGHT, part: WRONG[part]})
            yield f"{name} compares the {part}", lambda: same(finds(run), True)
    refuses = lambda run: bool(allocations.wrong_with(run, 0, b"1 - a\nend 1 1 0\n"))
    yield "a run may want for memory", lambda: same(refuses(ended(WANTING)), False)
    for other in NOT_WANTING:
        yield f"no run wants for memory so: {other}", lambda: same(refuses(ended({**WANTING, **other})), True)


def quietly(test, *given):
    """The status of a test, and its closing line."""
    with contextlib.redirect_stdout(io.StringIO()) as told:
        status = test(*given)
    return status, told.getvalue().splitlines()[-1]


def two_checks():
    """A group of the form of tests/program.py of two checks, of which the second finds something."""
    yield "right", lambda _: None
    yield "wrong", lambda _: program.fail_where(["wrong"])


def closings():
    """How tests end that find something, and those that make fewer checks than there are."""
    found = [("right", []), ("wrong", ["one", "two"])]
    yield "tally counts", lambda: same(quietly(tally.tally, found), (1, "1 passed, 1 failed"))
    yield "tally passes", lambda: same(quietly(tally.tally, found[:1]), (0, "1 passed, 0 failed"))
    for least, few in (2, []), (3, ["2 were made"]):
        told = [*found, (f"it: {least} checks at least", few)]
        yield f"two of {least} checks", lambda: same(list(tally.counted("it", found, least)), told)
    for least, told in (2, "2 passed, 1 failed"), (3, "1 passed, 2 failed"):
        group = {two_checks: least}
        yield f"the program's, two of {least}", lambda: same(quietly(program.tried, None, group), (1, told))
    for script, told in (TOLD_SAME, (0, "2 passed, 0 failed")), *((it, None) for it in TOLD_OTHERWISE):
        status = lambda: quietly(isolation.main, ["sh", "-c", script])
        yield f"isolation: {script}", lambda: same(status(), told) if told else same(status()[0], 1)


def grown(check, cost):
    """Whether a check of growth refuses a program of which scripts of so many lines take so long."""
    measured, program.processor_seconds = program.processor_seconds, lambda _, lines, *given: cost(lines)
    try:
        check(None)
    except program.Wrong:
        return True
    finally:
        program.processor_seconds = measured
    return False


def growths():
    """What tests/program.py says of growth, over costs that are made up: by the lines, by their square, by the lines
    and the rows that stand, which are made by the first lines of a script."""
    script, rows = program.bench.requests, program.bench.processes
    standing = next(rows(1))
    ways = {
        "the lines": (program.grows_with_lines(script, program.TIMES_LONGER), len, False),
        "their square": (program.grows_with_lines(script, program.TIMES_LONGER), lambda it: len(it) ** 2, True),
        "their square, with rows": (
            program.grows_with_lines(script, program.TIMES_LONGER_WITH_ROWS), lambda it: len(it) ** 2, True
        ),
        "the lines, beside rows": (program.grows_not_with_rows(rows, 10), len, False),
        "the rows too": (
            program.grows_not_with_rows(rows, 10), lambda it: len(it) * (10 if it[0] == standing else 1), True
        ),
    }
    for name, (check, cost, wrong) in ways.items():
        yield f"the time grows with {name}", lambda: same(grown(check, cost), wrong)


def stands(place, cell):
    """Whether what a row names as false of a wrong body of `lpc_homes` stands there."""
    return not list(wrong_bodies.wrong_with("lpc_homes", place, cell))


def clauses():
    """What a row of a wrong body names as false of it, where it stands there and where it doesn't; and the places."""
    for place, cell in CLAUSES:
        yield f"false of {place}: {cell}", lambda: same(stands(place, cell), True)
    for place, cell in NO_CLAUSES:
        yield f"false of {place}, which isn't there: {cell}", lambda: same(stands(place, cell), False)
    found = wrong_bodies.edits()
    for edit, place in PLACES.items():
        yield f"the place of {edit[1]}", lambda: same(wrong_bodies.place_of(edit[0], found[edit]), place)


@contextlib.contextmanager
def hurried():
    """Runs take little time here, and print little."""
    places = [(it, name) for it in (running, program, states) for name in ("SECONDS", "MUCH") if hasattr(it, name)]
    kept = [getattr(*it) for it in places]
    for it, name in places:
        setattr(it, name, {"SECONDS": 2, "MUCH": 1 << 16}[name])
    try:
        yield
    finally:
        for (it, name), value in zip(places, kept):
            setattr(it, name, value)


def refuses(test):
    """Nothing where a test of an unfit program ends by itself, finds something wrong and says so by lines."""
    with hurried(), contextlib.redirect_stdout(io.StringIO()) as printed:
        status = test()
    *lines, last = printed.getvalue().splitlines() or [""]
    counts = re.fullmatch(r"\d+ passed, ([1-9]\d*) failed", last)
    return "" if status == 1 and counts and lines else f"status {status}: {last}"


def states_of(command):
    """The test of the form of states over some groups."""
    found = states.Program(command)
    return tally.tally(it for group, least in UNFIT_STATES.items() for it in tally.counted("", group(found), least))


def unfit():
    """Tests over programs that are none."""
    with tempfile.NamedTemporaryFile("w", suffix=".sh") as file:
        file.write("no program\n")
        file.flush()
        os.chmod(file.name, 0o755)
        commands = {name: ["sh", "-c", script] for name, script in UNFIT.items()}
        for name, command in {**commands, "can't be started": ["/no/such/program"], "is none": [file.name]}.items():
            tests = {
                "program.py": lambda: program.tried(program.Program(command), UNFIT_GROUPS),
                "states.py": lambda: states_of(command),
            }
            # (that test asks first whether there is a program)
            if name != "can't be started":
                tests["isolation.py"] = lambda: isolation.main(command)
            for test, run in tests.items():
                yield f"tests/{test}, of a program that {name}", lambda: refuses(run)
    for why, command in {
        "it printed more and more, and was ended": ["yes"],
        "it did not end within 2 seconds": ["sleep", "30"],
        "it could not be started: No such file or directory": ["/no/such/program"],
    }.items():
        yield f"a run of {command[0]}", lambda: same(run_found(command), [why])


def run_found(command):
    """What is found wrong with a run of a command."""
    with hurried():
        return running.found(running.run, command)


# The groups of checks, and how many each makes: who adds one changes the number.
GROUPS = {
    gate_seconds: 10,
    gate: 39,
    suites: 12,
    probes: 6,
    edges: len(GOOD) + len(BAD),
    rows: 21,
    clauses: len(CLAUSES) + len(NO_CLAUSES) + len(PLACES),
    comparisons: 16,
    closings: 11,
    growths: 5,
    planted.planted: len(planted.PLANTED),
    unfit: 26,
}


def checks():
    """All checks: each with its name and what finds out what is wrong; and that each group makes as many."""
    for group, least in GROUPS.items():
        count = 0
        for check in group():
            count += 1
            yield check
        name, found = tally.enough(group.__name__, count, least if group is not edges or failing.compiler() else 0)
        yield name, lambda: "; ".join(found)


def main():
    passed = failed = 0
    for name, find in checks():
        wrong = find()
        passed += not wrong
        failed += bool(wrong)
        if wrong:
            print(f"FAILED: {name}: {wrong}", flush=True)
    print(f"{passed} passed, {failed} failed")
    return 1 if failed else 0


if __name__ == "__main__":
    sys.exit(main())
