"""Tells why a script stops at a faulty line, and where in the line the fault lies.

The program is run over SCRIPT. Where it stops at a line, the line is shown with marks below what is at fault, its
column, what is expected there, and what may have been meant. The verdict is the program's alone: the place of the fault
is found by running it over the line cut short or changed, and what is proposed was run too.

A well-formed script has no fault. Its threads may have been busy, or none: such a line has no effect, and each is told.

Exit status: 0 where the script is well formed, 1 where a line is faulty, 2 where the program ended otherwise, or where
something can't be read.
"""
import textwrap

from ntlpc_tool import explain, faults, inputs, placing, program, statuses, transcript

NAME = "why"
WIDTH = 90
WHOLE_WORDS = {"break_long_words": False, "break_on_hyphens": False}


def add_arguments(parser):
    parser.add_argument("script", metavar="SCRIPT", help="a script's file, or - for the standard input")
    program.add_option(parser)


def run(arguments):
    name = program.find(arguments.program)
    script = inputs.read(arguments.script)
    ran = program.replay(name, script)
    if ran.status not in (0, 2):
        print(f"the program ended with status {ran.status}: {ran.ending()}")
        return 2
    try:
        found = transcript.read(ran.printed)
    except transcript.Malformed as wrong:
        raise inputs.Misuse(f"{name} printed no transcript: {wrong}") from None
    if found.closing is None or (found.closing.word == "stop") != (ran.status == 2):
        raise inputs.Misuse(f"{name} ended with status {ran.status}, and its last line doesn't go with that")
    lines = well_formed(script, found) if ran.status == 0 else faulty(name, script, *found.closing.numbers)
    print(*lines, sep="\n")
    return 1 if ran.status else 0


def faulty(name, script, number, kind):
    """The lines that tell of a faulty line."""
    told = explain.Explanation(placing.Probe(name), script, number, kind)
    yield f"line {number} is faulty, kind {kind}: {faults.name_of(kind)}"
    if told.place:
        yield ""
        yield from pointed(told.line, told.place)
        yield ""
    for sentence in told.sentences():
        yield from textwrap.wrap(sentence, WIDTH, subsequent_indent="  ", **WHOLE_WORDS)


def pointed(line, place):
    """A line, cut to a width, and below it marks under a place; then the column of the place and the word."""
    before = _fitting(line[max(0, place.begin - WIDTH) : place.begin][::-1], WIDTH * 2 // 3)[::-1]
    at = _fitting(line[place.begin : place.end][:WIDTH], WIDTH - sum(map(len, before)))
    after = _fitting(line[place.end :][:WIDTH], WIDTH - sum(map(len, before + at)))
    front = "    " if len(before) == place.begin else "    .. "
    rest = "" if place.begin + len(at) + len(after) == len(line) else " .."
    yield front + "".join(before + at + after) + rest
    yield " " * (len(front) + sum(map(len, before))) + "^" * max(sum(map(len, at)), 1)
    word = "" if place.word is None else f", word {place.word + 1}"
    yield f"column {place.begin + 1}{word}"


def _fitting(data, width):
    """The first bytes that fit into a width, each as it is shown."""
    cells = []
    for byte in data:
        cell = chr(byte) if 32 <= byte <= 126 else f"\\x{byte:02x}"
        width -= len(cell)
        if width < 0:
            break
        cells.append(cell)
    return cells


def well_formed(script, found):
    """The lines that tell of a script without a fault."""
    lines = inputs.lines_of(script)
    yield f"the script is well formed: lines {len(lines)}, entries {len(found.entries)}"
    waits = {}
    for entry in found.entries:
        if entry.kind == "busy":
            since = waits.get(entry.thread)
            told = f": it waits in {since.call} since line {since.line}" if since else ""
            yield f"line {entry.line} has no effect: thread {entry.thread} is busy{told}"
        elif entry.kind == "nothread":
            told = where_it_is(lines, found, entry)
            yield f"line {entry.line} has no effect: there is no thread {entry.thread}{told}"
        elif entry.kind == "wait":
            waits[entry.thread] = entry


def where_it_is(lines, found, missing):
    """Why a line's number may be that of no thread: the thread died, a process has it, or a later line makes it."""
    for entry in found.entries:
        if (entry.kind, entry.thread) == ("died", missing.thread) and entry.line < missing.line:
            return f" any longer; it died in line {entry.line}"
    for entry in found.entries:
        if entry.kind != "directive" or entry.call not in ("boot", "thread") or entry.status != statuses.SUCCESS:
            continue
        first, second = (int(it, 0) for it in placing.texts_of(lines[entry.line - 1])[1:3])
        if entry.call == "boot" and first == missing.thread:
            return f"; {first} is a process, whose first thread is {second}"
        if missing.thread == (second if entry.call == "boot" else first) and entry.line > missing.line:
            return f" yet; line {entry.line} makes it"
    return ""
