"""Shows a transcript in words: each entry with its status's name and its message field by field.

A message's header is told field by field, the type by its name; data, and the info of a connect, stand as text beside
their bytes where they are printable ASCII or UTF-16LE. At the end stands which threads still wait, since which line and
in which call.

With the script a turn of the server on a thread is told as what the server did.

The transcript comes from TRANSCRIPT, from the standard input, or, with --script alone, from the program, which is run
over that script. With --script each line of the script stands above what it gave.

Exit status: 0; 2 where something can't be read, or where the program ended with another status than 0 or 2.
"""
import sys

from ntlpc_tool import describe, faults, inputs, program, transcript, turns

NAME = "show"
WIDTH = 88


def add_arguments(parser):
    parser.add_argument("transcript", metavar="TRANSCRIPT", nargs="?", help=transcript.FILE)
    parser.add_argument("--script", metavar="FILE", help="the script of the transcript; without TRANSCRIPT it is run")
    program.add_option(parser)


def run(arguments):
    script, status = None, 0
    if arguments.script is not None:
        script = inputs.lines_of(inputs.read(arguments.script))
    if arguments.transcript is not None or script is None:
        found = transcript.load(arguments.transcript or "-")
        check_script(arguments.script, script or [], found)
    else:
        found, status = transcript_of(program.find(arguments.program), b"\n".join(script) + b"\n" * bool(script))
    for line in told(found, script):
        print(line)
    return status


def check_script(path, script, found):
    """Tests that a file may be the script of a transcript: a line that has an entry has no byte outside 32 to 126."""
    for number in sorted({it.line for it in found.entries if it.line <= len(script)}):
        if not all(32 <= it <= 126 for it in script[number - 1]):
            why = f"line {number} has an entry there, and has a byte outside 32 to 126"
            raise inputs.Misuse(f"{inputs.name_of(path)} is not the script of this transcript: {why}")


def transcript_of(name, script):
    """What a program prints for a script, and the exit status for this tool."""
    ran = program.replay(name, script)
    try:
        found = transcript.read(ran.printed)
    except transcript.Malformed as wrong:
        raise inputs.Misuse(f"{name} printed no transcript: {wrong}") from None
    if ran.status in (0, 2):
        return found, 0
    print(f"ntlpc-tool show: the program ended with status {ran.status}: {ran.ending()}", file=sys.stderr)
    return found, 2


def told(found, script=None):
    """The lines that tell a transcript."""
    last, steps = None, {}
    for entry in found.entries:
        steps.setdefault(entry.line, []).append(entry)
    for entry in found.entries:
        if script is not None and entry.line != last:
            last = entry.line
            yield f"line {last}: {words_of(script, last)}{turn_told(script, steps[last])}"
        first, *others = describe.of_entry(entry)
        front = " " * 4 if script is not None else f"line {entry.line:<6}"
        yield front + first
        yield from (" " * len(front) + it for it in others)
    yield from closing_told(found.closing, script)
    yield from waits_told(transcript.still_waiting(found), script)


def turn_told(script, step):
    """What the server on a thread did in a line that is its turn, in brackets; nothing for every other line."""
    number = step[0].line
    words = inputs.shown(script[number - 1]).split() if number <= len(script) else []
    told = turns.deed(words, step)
    return f" ({told})" if told else ""


def words_of(script, number):
    """A line of the script, as it can be shown."""
    if number > len(script):
        return "(the script has no such line)"
    return inputs.cut(inputs.shown(script[number - 1]), WIDTH)


def closing_told(closing, script):
    """The last line in words."""
    if closing is None:
        yield "the transcript has no last line: the run didn't come to its end"
    elif closing.word == "end":
        lines, entries, objects = closing.numbers
        yield f"end: lines read {lines}, entries printed {entries}, objects left {objects}"
    else:
        line, kind = closing.numbers
        yield f"stop: line {line} is faulty, kind {kind}: {faults.name_of(kind)}"
        if script is not None:
            yield f"    {words_of(script, line)}"


def waits_told(waits, script):
    """Which threads still wait."""
    if not waits:
        yield "no thread waits"
    for entry in waits:
        yield f"thread {entry.thread} still waits in {entry.call}, since line {entry.line}"
        if script is not None:
            yield f"    {words_of(script, entry.line)}"
