"""Compares two transcripts of one script, and tells what differs, what that means, and which rule it breaks.

    ntlpc-tool compare WANTED GOT [--script FILE]
    ntlpc-tool compare [WANTED] --script FILE --program PROGRAM

WANTED is the transcript that is right, GOT the one that is asked about; `-` is the standard input. With --program, GOT
is what `PROGRAM replay` prints for the script, and without WANTED the program ntlpc tells what is right. PROGRAM may be
several words, as "python3 my.py".

The first difference is explained: both entries with their messages in words, what differs, what that means, and the
rule that tells what is right. Each further difference has a line. Entries are put side by side by the script's line
that made them, so one that is missing makes no other line differ.

Another system may give other handles and identifiers. With --up-to-names such names may differ as long as they differ
alike everywhere: handles within each process, identifiers within each thread, also as MessageId. The renaming is told,
and what doesn't fit it. With --script it is known which handles are closed, so that their values are free again.

Exit status: 0 where nothing differs, 1 where something does, 2 where something can't be read or run.
"""
import shlex
import subprocess
import textwrap

from ntlpc_tool import describe, differences, inputs, message, program, renaming, script_lines, transcript
from ntlpc_tool.transcript import Closing

NAME = "compare"
SECONDS = 60
INDENT, WIDTH = " " * 13, 100


def add_arguments(parser):
    parser.add_argument("wanted", metavar="WANTED", nargs="?", help="the transcript that is right")
    parser.add_argument("got", metavar="GOT", nargs="?", help="the transcript that is asked about")
    parser.add_argument("--script", metavar="FILE", help="the script, whose lines are shown then")
    parser.add_argument("--program", metavar="PROGRAM", help="runs a program over the script in place of reading GOT")
    parser.add_argument("--oracle", metavar="PATH", help="the program ntlpc, where WANTED isn't given")
    parser.add_argument(
        "--up-to-names", action="store_true", help="takes handles and identifiers that differ alike as the same"
    )


def run(arguments):
    check_words(arguments)
    script = inputs.read(arguments.script) if arguments.script else None
    wanted, endings = wanted_of(arguments, script), []
    if arguments.program:
        got, endings = got_of(arguments.program, script)
    else:
        got = transcript.load(arguments.got)
    lines = script_lines.Script(script) if script is not None else None
    names = renaming.Renaming((wanted, got), lines) if arguments.up_to_names else None
    found = differences.between(wanted, got, names)
    tell(found, lines)
    tell_names(names)
    for line in endings:
        print(line)
    print(counted(found, wanted))
    return 1 if found or endings else 0


def check_words(arguments):
    """Tests that there is one source for each of the two transcripts."""
    if arguments.program and not arguments.script:
        raise inputs.Misuse("--program wants --script, the script that the program is to run")
    if arguments.program and arguments.got:
        raise inputs.Misuse("GOT and --program can't both be given: --program prints GOT")
    if not arguments.program and not arguments.got:
        raise inputs.Misuse("give WANTED and GOT, or --script and --program")
    if [arguments.wanted, arguments.got, arguments.script].count("-") > 1:
        raise inputs.Misuse("the standard input can be read once")


def wanted_of(arguments, script):
    """The transcript that is right: the one given, or what the program ntlpc prints."""
    if arguments.wanted:
        return transcript.load(arguments.wanted)
    ran = program.replay(program.find(arguments.oracle), script)
    if ran.status not in (0, 2):
        raise inputs.Misuse(f"the program ntlpc ended with status {ran.status}: {ran.ending()}")
    return read_printed("the program ntlpc", ran.printed)


def got_of(words, script):
    """The transcript that another program prints, and a line where its exit status isn't that of its last line."""
    try:
        command = [*shlex.split(words), "replay"]
        ran = subprocess.run(command, input=script, stdout=subprocess.PIPE, timeout=SECONDS)
    except subprocess.TimeoutExpired:
        raise inputs.Misuse(f"{words} did not end within {SECONDS} seconds") from None
    except (OSError, ValueError) as error:
        raise inputs.Misuse(f"{words} can't be started: {getattr(error, 'strerror', None) or error}") from None
    got = read_printed(words, ran.stdout)
    right = 2 if got.closing and got.closing.word == "stop" else 0
    if ran.returncode == right:
        return got, []
    ended = f"status {ran.returncode}" if ran.returncode >= 0 else f"signal {-ran.returncode}"
    return got, [f"{words} ended with {ended}; with this last line status {right} is wanted"]


def read_printed(who, printed):
    """The transcript that a program printed."""
    try:
        return transcript.read(printed)
    except transcript.Malformed as wrong:
        raise inputs.Misuse(f"what {who} printed is no transcript: {wrong}") from None


def tell(found, script):
    """Explains the first difference, and gives each further one a line."""
    if not found:
        return
    first = found[0]
    print(f"the first difference: {place(first)}")
    if script and not is_last_line(first):
        text = script.text(first.line)
        print(f"    script:  {'(there is no such line)' if text is None else inputs.cut(text)}")
    for name, entry in (("wanted: ", first.wanted), ("got:    ", first.got)):
        print(f"    {name} {inputs.cut(entry.raw) if entry else '(nothing)'}")
        if isinstance(entry, transcript.Entry) and entry.field("msg") is not None:
            print(f"{INDENT}{message.in_words(entry.field('msg'))}")
    print(f"    differs: {first.says}")
    print(f"    means:   {first.means}")
    if first.rule:
        print(textwrap.fill(first.rule[0], WIDTH, initial_indent="    rule:    ", subsequent_indent=INDENT))
        print(f"{INDENT}({first.rule[1]})")
    if len(found) > 1:
        print("further differences")
    for it in found[1:]:
        print(f"    {place(it)}: {it.says}")


def tell_names(names):
    """Tells which names differ alike."""
    told = names.told() if names else []
    if told:
        print("names that differ alike", *(f"    {it}" for it in told), sep="\n")


def is_last_line(difference):
    """Whether the last line of the transcript differs, which belongs to no line of the script."""
    sides = [it for it in (difference.wanted, difference.got) if it]
    return all(isinstance(it, Closing) and it.word == "end" for it in sides)


def place(difference):
    """Where in the transcript a difference is."""
    if is_last_line(difference):
        return "the last line"
    entry = difference.wanted or difference.got
    if isinstance(entry, Closing):
        return f"line {difference.line} of the script, the last line of the transcript"
    whose = "the wake of " if entry.kind == "wake" else ""
    who = "the directive" if entry.thread is None else f"thread {entry.thread}"
    call = f", {entry.call}" if entry.call else ""
    return f"line {difference.line} of the script, {whose}{who}{call}"


def counted(found, wanted):
    """How many differences there are."""
    if not found:
        return f"no difference in {describe.counted(len(wanted.entries), 'entry')}"
    return describe.counted(len(found), "difference")
