"""Answers the scripts of a session, as a program of your own may: it starts the program ntlpc for each of them.

    ntlpc-tool serve [--program PATH]

It reads the line `script BYTES` and so many bytes, prints the transcript of this script and behind it the line `done`,
and reads on until the input ends. So `conformance/run --session ntlpc-tool serve` runs the suite over ntlpc, and a
harness of your own can be tried against the same input.

Exit status: 0 where the input ended behind a script, 2 where the words or the input are wrong or the program can't be
run, or doesn't print a whole transcript.
"""
import re
import sys

from ntlpc_tool import inputs, program, session

NAME = "serve"
HEAD = re.compile(rb"script (0|[1-9][0-9]{0,11})\n")
# Of a line that is no head, so many bytes are read; of a script, so many at a time.
LONGEST_HEAD, PIECE = 100, 1 << 20
# The statuses with which the program has printed the last line of a transcript.
WHOLE = (0, 2)


def add_arguments(parser):
    program.add_option(parser)


def run(arguments):
    oracle = program.find(arguments.program)
    if sys.stdin is None:
        raise inputs.Misuse("the standard input is closed")
    for script in scripts_of(sys.stdin.buffer):
        ran = program.replay(oracle, script)
        if ran.status not in WHOLE:
            raise inputs.Misuse(f"{oracle} ended with status {ran.status}: {ran.ending()}")
        sys.stdout.buffer.write(ran.printed + session.DONE)
        sys.stdout.flush()
    return 0


def scripts_of(source):
    """The scripts that are asked for, one behind the other, until the input ends."""
    number = 0
    while True:
        number += 1
        head = source.readline(LONGEST_HEAD)
        if not head:
            return
        found = HEAD.fullmatch(head)
        if not found:
            raise inputs.Misuse(f"`script BYTES` is wanted in front of script {number}, and not {inputs.shown(head)!r}")
        yield whole(source, int(found[1]), number)


def whole(source, size, number):
    """A script of so many bytes."""
    script = bytearray()
    while len(script) < size:
        piece = source.read(min(PIECE, size - len(script)))
        if not piece:
            raise inputs.Misuse(f"the input ended behind {len(script)} of the {size} bytes of script {number}")
        script += piece
    return bytes(script)
