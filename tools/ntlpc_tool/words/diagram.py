"""Draws who sends what to whom in a script or a transcript, as the text of a sequence diagram for Mermaid.

    ntlpc-tool diagram FILE [--script SCRIPT] [--plantuml FILE] [--svg FILE]

FILE is a script, over which the program ntlpc is run, or a transcript; `-` is the standard input. A transcript tells
more with its script beside it: the words of each line, and the process of each thread.

Each thread has a line from above to below; the numbers in front are those of the script's lines. A message is an arrow
to the thread that receives it, in the line in which that happens; its sender has a note in the line in which it was
sent, where that is an earlier one. `not received` stands there where no entry shows the message. A reply, an accept and
a completion are arrows back to the thread that waits, and what ends a wait with a failure is an arrow with a cross. A
bar on a thread's line is a wait. Refused calls are notes with the name of their status. A reply that sends an exception
on, and so wakes nobody, has a note too.

The standard output is for Mermaid, which GitHub and many editors draw where it stands in a block of a page that is
marked `mermaid`. --plantuml writes the same picture in PlantUML's language. --svg lets PlantUML draw it: the command
`plantuml` of the package of that name, which needs no network for it.
"""
import pathlib
import shutil
import subprocess
import sys

from ntlpc_tool import drawing, inputs, program, script_lines, sequence, transcript

NAME = "diagram"
PLANTUML = "plantuml"
MISSING = "--svg wants the command `plantuml`, which isn't installed; the package `plantuml` has it"
SECONDS = 120


def add_arguments(parser):
    parser.add_argument("file", metavar="FILE", help="a script or a transcript, or - for the standard input")
    parser.add_argument("--script", metavar="SCRIPT", help="the script of a transcript")
    parser.add_argument("--plantuml", metavar="FILE", help="writes the picture in PlantUML's language too")
    parser.add_argument("--svg", metavar="FILE", help="lets PlantUML draw the picture")
    program.add_option(parser)


def run(arguments):
    if arguments.svg and not shutil.which(PLANTUML):
        raise inputs.Misuse(MISSING)
    found, script = read(arguments)
    picture = sequence.Picture(found, script)
    if arguments.plantuml:
        write(arguments.plantuml, drawing.plantuml(picture).encode())
    if arguments.svg:
        write(arguments.svg, drawn(drawing.plantuml(picture)))
    sys.stdout.write(drawing.mermaid(picture))
    return 0


def read(arguments):
    """The transcript, and the script where there is one."""
    data = inputs.read(arguments.file)
    if arguments.script:
        return read_transcript(arguments.file, data), script_lines.Script(inputs.read(arguments.script))
    if is_transcript(data):
        return transcript.read(data), None
    ran = program.replay(program.find(arguments.program), data)
    if ran.status not in (0, 2):
        raise inputs.Misuse(f"the program ended with status {ran.status}: {ran.ending()}")
    return transcript.read(ran.printed), script_lines.Script(data)


def read_transcript(path, data):
    """The transcript that a file has to be."""
    try:
        return transcript.read(data)
    except transcript.Malformed as wrong:
        raise inputs.Misuse(f"{inputs.name_of(path)}: {wrong}") from None


def is_transcript(data):
    """Whether bytes are a transcript."""
    try:
        found = transcript.read(data)
    except transcript.Malformed:
        return False
    return bool(found.entries or found.closing)


def drawn(text):
    """The picture as SVG."""
    how = {"input": text.encode(), "capture_output": True, "timeout": SECONDS}
    try:
        ran = subprocess.run([PLANTUML, "-tsvg", "-pipe", "-charset", "UTF-8"], **how)
    except subprocess.TimeoutExpired:
        raise inputs.Misuse(f"plantuml did not end within {SECONDS} seconds") from None
    except OSError as error:
        raise inputs.Misuse(f"plantuml can't be started: {error.strerror}") from None
    if ran.returncode or b"<svg" not in ran.stdout:
        said = inputs.shown(ran.stderr.strip().splitlines()[-1]) if ran.stderr.strip() else "nothing"
        raise inputs.Misuse(f"plantuml ended with status {ran.returncode}, and said: {said}")
    return ran.stdout


def write(path, data):
    """Writes a file."""
    try:
        pathlib.Path(path).write_bytes(data)
    except OSError as error:
        raise inputs.Misuse(f"{path} can't be written: {error.strerror}") from None
