"""Turns a trace with names in place of numbers into a script.

    ntlpc-tool script TRACE [--comments]

TRACE is a script whose lines may have names for processes and threads, and symbols for what a call gave:

    boot @server @main                     a process and a thread by names of one's own, which get numbers
    boot @client @ui
    $port = @main NtCreatePort \\P          $port is the handle that the call gave
    $link = @ui NtConnectPort \\P - - -     $link is the handle that the call gives when it wakes
    $seen = @main NtListenPort $port       $seen is the message that the call received
    $channel = @main NtAcceptConnectPort 7 r:$seen: accept -

@NAME     is made by boot, thread, NtCreateProcess or NtCreateThread, and is that number everywhere else. The numbers
          are 20, 24, 28 and so on.
$NAME     alone is the handle that the call gave, also when a connect's wake gives it later; for a datagram, a request
          or a raise it is the identifier, of a raise that of its first event.
$NAME.FIELD
          is a field that the call or its wake has in the transcript: h, thread, id, ctx, base, size, target, vbase,
          vsize, access, handles, pointers, max, level. Of a message that was received there are also id, process and
          thread.
r:$NAME:HEX
          names the client and the identifier of the message that the call received, or sent.
r:P.T.M:HEX
          may have a name or a symbol for each of its three parts.
w:$NAME:OFFSET:SIZE
          is a view that is offered, of the section whose handle the call gave. Each part may be a symbol.

A name is letters, digits and `_`, and begins with no digit. Each is bound once. All other words stay as they are, also
paths, and so does a line without names and symbols. A carriage return at a line's end is left out. The program ntlpc is
run over the lines before a symbol to learn what it stands for. The standard output has the script once every line has
become one.

Exit status: 0 where the script is written; 1 where a line can't become one, which the standard error tells; 2 where
something can't be read or run.
"""
import sys

from ntlpc_tool import inputs, program, trace, transcript

NAME = "script"
MOST_BYTES = 16384


def add_arguments(parser):
    parser.add_argument("trace", metavar="TRACE", help="a trace, or - for the standard input")
    parser.add_argument(
        "--comments", action="store_true", help="keeps each line with names as a comment above its script line"
    )
    program.add_option(parser)


def run(arguments):
    data = inputs.read(arguments.trace)
    found = trace.Trace(data, replay_with(program.find(arguments.program)))
    try:
        lines = found.lines()
    except trace.Wrong as wrong:
        print(f"ntlpc-tool script: {inputs.name_of(arguments.trace)}, {wrong}", file=sys.stderr)
        return 1
    for text, line in lines:
        if arguments.comments and text != line:
            write(f"# {text}"[:MOST_BYTES])
        write(line)
    return 0


def write(line):
    """Writes a line. A comment may have any byte, so lines are bytes."""
    sys.stdout.buffer.write(line.encode("latin-1") + b"\n")


def replay_with(path):
    """What runs a script and gives its transcript."""

    def replay(script):
        ran = program.replay(path, script)
        if ran.status not in (0, 2):
            raise inputs.Misuse(f"the program ended with status {ran.status}: {ran.ending()}")
        return transcript.read(ran.printed)

    return replay
