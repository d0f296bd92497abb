"""Writes a page of HTML that steps through a script in a browser: its entries, a drawing, and the machine's tables.

    ntlpc-tool page SCRIPT [--transcript FILE] [--docs URL] > FILE

The page is one file that loads nothing. It has the lines of the script, each with what it gave in the transcript, what
that means, the rules behind it with links into the docs, and who waits on what behind the line; the messages, waits,
wakes and deaths, drawn with a lane for each thread; and the machine's processes, threads, ports, handles and so on
behind the line, with what it changed marked. Steps are taken by buttons, a slider, and the keys left, right, home and
end; `#line-5` behind the page's address shows line 5. Where a browser runs no scripts all of it is one long page, and
so it is on paper.

The program is run over the script as `ntlpc states`, and as `ntlpc replay` where that fails; --transcript gives what it
printed in its place. What `replay` prints is enough for all but the machine's tables. The links lead to the docs beside
these tools, or to those at the address or path that --docs names. Exit status: 0; 2 where something can't be read, or
where the program ended with another status than 0 or 2.
"""
import os
import sys

from ntlpc_tool import inputs, program, script_lines, states, transcript
from ntlpc_tool.page import ruled, writing
from ntlpc_tool.words import show

NAME = "page"
# How a run ends that read the script to its end, or to a faulty line.
WELL = (0, 2)
# Why a page has no tables of the machine.
UNKNOWN = "This page has no tables of the machine: the program doesn't know the word `states`."
FAILED = "This page has no tables of the machine: with the word `states` the program ended with status {}."
UNTOLD = "This page has no tables of the machine: what was printed tells of no rows, as `ntlpc states` does."


def add_arguments(parser):
    parser.add_argument("script", metavar="SCRIPT", help="a script, or - for the standard input")
    parser.add_argument("--transcript", metavar="FILE", help="what the program printed, in place of running it")
    parser.add_argument("--docs", metavar="URL", help="where the docs are, an address or a path, for the links")
    program.add_option(parser)


def run(arguments):
    if arguments.script == arguments.transcript == "-":
        raise inputs.Misuse("the standard input can be read once")
    links = ruled.Pages(ruled.folder() if arguments.docs is None else arguments.docs)
    data = inputs.read(arguments.script)
    where, printed, untold = printed_in(arguments, data)
    try:
        told, changes = states.split(printed)
        found = transcript.read(told)
        script = script_lines.Script(data)
        show.check_script(arguments.script, script.lines, found)
        written = writing.page(name_of(arguments.script), found, script, links, changes or untold)
    except (states.Malformed, transcript.Malformed) as wrong:
        raise inputs.Misuse(f"{where}: {wrong}") from None
    sys.stdout.flush()
    sys.stdout.buffer.write(written)
    return 0


def printed_in(arguments, data):
    """What was printed for the script, with where it stands, and why nothing is told of the machine if nothing is: what
    is given, or what the program prints."""
    if arguments.transcript is not None:
        return inputs.name_of(arguments.transcript), inputs.read(arguments.transcript), UNTOLD
    name = program.find(arguments.program)
    ran, untold = program.replay(name, data, word="states"), UNTOLD
    # The rules for other programs ask for `replay` alone, and not for what becomes of another word.
    if ran.status not in WELL or not ran.printed:
        untold = UNKNOWN if ran.status == program.UNKNOWN_WORD else FAILED.format(ran.status)
        ran = program.replay(name, data)
    if ran.status not in WELL:
        raise inputs.Misuse(f"{name} ended with status {ran.status}: {ran.ending()}")
    return f"{name} printed no transcript", ran.printed, untold


def name_of(path):
    """How the script is named in the page."""
    return inputs.name_of(path) if path == "-" else inputs.shown(os.fsencode(os.path.basename(path)))
