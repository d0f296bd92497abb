"""Runs a program over a script, and tells what differs from the right transcript first, and which rule that breaks."""
import contextlib
import dataclasses
import os
import re
import signal
import subprocess
import tempfile
import textwrap
import threading
from typing import Optional, Tuple

from ntlpc_tool import differences, ending, faults, forms, message, needs, own_names, reasons, renaming, script_lines
from ntlpc_tool import talk, transcript
from ntlpc_tool.inputs import cut, shown

MUCH = 1 << 20
WIDTH = 100
# How often a program with names of its own is run over one script until its names fit.
MOST_RUNS = 100
# How many seconds a program in a conversation may take for a line.
QUIET = 10
STATUS = (
    "A program ends with status 2 where a line of the script is faulty, else with 0.",
    "CONFORMANCE.md, Give your implementation a front end",
)
FORMS = "Each line of a transcript has one of these forms."
NO_TRANSCRIPT = "what it prints has not the form of a transcript"


class Ran(ending.Ending):
    """One run of the program over a script. It is ended where it takes too long, or prints far more than is wanted."""

    def __init__(self, command, script, most, timeout):
        with tempfile.TemporaryFile() as source, tempfile.TemporaryFile() as said:
            source.write(script)
            source.seek(0)
            how = {"stdin": source, "stdout": subprocess.PIPE, "stderr": said, "start_new_session": True}
            with subprocess.Popen(command, **how) as self.child:
                watch = threading.Timer(timeout, self.end_late)
                watch.start()
                self.printed = self.child.stdout.read(most + 1)
                self.talks = len(self.printed) > most
                if self.talks:
                    self.end()
                self.status = self.child.wait()
                watch.cancel()
            said.seek(0)
            self.said = said.read(MUCH)

    def end(self):
        """Ends the program and what it started."""
        with contextlib.suppress(ProcessLookupError):
            os.killpg(self.child.pid, signal.SIGKILL)

    def end_late(self):
        self.late = True
        self.end()


@dataclasses.dataclass(frozen=True)
class Cause:
    """What failed scripts have in common: what it means for the program, and the rule that it breaks with the rule's
    page, as far as there is one. `unknown` is the call or directive that the program says it doesn't know."""

    means: str
    rule: Optional[str] = None
    page: Optional[str] = None
    unknown: Optional[str] = None

    def lines(self):
        """The rule and its page as lines of a block."""
        if not self.rule:
            return []
        how = {"initial_indent": "rule: ", "subsequent_indent": " " * 6, "break_long_words": False}
        return [*textwrap.wrap(self.rule, WIDTH, **how), f"      ({self.page})"]


@dataclasses.dataclass(frozen=True)
class Failure:
    """How a script failed: the cause, and the lines that tell of it. Where what is printed differs, `line` is the
    script's line, None where that is the last line of the transcript; `wanted` and `printed` are the two sides, None
    where a text has ended."""

    cause: Cause
    told: Tuple[str, ...]
    line: Optional[int] = None
    wanted: Optional[str] = None
    printed: Optional[str] = None


def of_told(told):
    """The failure of a case that could not be run or judged, told in one line."""
    return Failure(Cause(told), (told,))


def of_run(script, wanted, command, timeout, run=Ran):
    """Runs the program over a script; a Failure, or None where it passes. `run` is how it is run: a start for each
    script, or in a session."""
    try:
        ran = run(command, script, len(wanted) + MUCH, timeout)
    except OSError as error:
        return of_told(f"it could not be started: {error.strerror}")
    return with_ending(of_printed(script, wanted, ran.printed), ran, wanted, timeout)


def of_names(script, wanted, command, timeout, run=Ran):
    """As `of_run`, with handles and identifiers of the program's own, which may differ as long as they differ alike."""
    right, source = transcript.read(wanted), script
    names = own_names.Names(script, right)
    for _ in range(MOST_RUNS):
        try:
            ran = run(command, source, len(wanted) + MUCH, timeout)
        except OSError as error:
            return of_told(f"it could not be started: {error.strerror}")
        got, wrong = as_far_as_formed(ran.printed)
        before, source = source, names.of_got(got)
        if before == source or wrong or ran.late or ran.talks:
            break
    else:
        return of_told(f"its handles or identifiers are others in each of {MOST_RUNS} runs")
    return with_ending(up_to_names(script, before, right, got, wrong), ran, wanted, timeout)


def of_talk(script, wanted, command, timeout):
    """As `of_names`, in a conversation: the program answers each line before it reads the next one."""
    right = transcript.read(wanted)
    names, source, quiet = own_names.Names(script, right), [], None
    stop, unsaid = needs.stop_of(wanted), bytearray()
    try:
        run = talk.Talk(command, len(wanted) + MUCH, timeout)
    except OSError as error:
        return of_told(f"it could not be started: {error.strerror}")
    with run:
        for number in range(1, len(names.lines) + 1):
            source.append(names.line(number))
            # A last line without byte 10 is one only where the script has ended.
            last = number == len(names.lines)
            unsaid += source[-1] + b"\n" * (not last)
            count = len(names.entries.get(number, ())) + bool(stop and stop[0] == number)
            if not count and not last:
                continue
            run.say(unsaid)
            unsaid, begin = bytearray(), len(run.printed)
            if not last and not run.hear(number, count, min(timeout, QUIET)):
                quiet = number
                break
            names.learn(number, filter(None, map(transcript.loosely, map(shown, run.printed[begin:].splitlines()))))
        run.finish()
    got, wrong = as_far_as_formed(bytes(run.printed))
    failure = up_to_names(script, b"\n".join(source), right, got, wrong)
    if failure and quiet and not run.late:
        told = f"it told too little of line {quiet} before line {quiet + 1} was written"
        failure = dataclasses.replace(failure, told=(*failure.told, told))
    return with_ending(failure, run, wanted, timeout)


def up_to_names(script, before, right, got, wrong):
    """Judges a transcript whose names may differ alike; `before` is the script as it was run, and `wrong` tells of the
    first line without a form."""
    found = differences.between(right, got, renaming.Renaming((right, got), script_lines.Script(script)))
    failure = of_difference(script, before, right, got, found[0]) if found else None
    if wrong and not (found and isinstance(found[0].got, transcript.Entry)):
        cause = Cause(NO_TRANSCRIPT, FORMS, reasons.TRANSCRIPT)
        failure = Failure(cause, (f"line {wrong.number} of what it printed: {wrong.reason}", *cause.lines()))
    return failure


def as_far_as_formed(printed):
    """The transcript that was printed, and what is wrong with its first line without a form, if there is one."""
    try:
        return transcript.read(printed), None
    except transcript.Malformed as wrong:
        return well_formed(printed, wrong.number), wrong


def of_difference(script, source, right, got, first):
    """The Failure for the first difference up to names; `source` is the script as it was run."""
    lines = [it.split(b"\n") for it in (script, source)]
    texts = [cut(shown(it[first.line - 1])) if first.line <= len(it) else "(no such line)" for it in lines]
    told = [f"line {first.line} of the script: {texts[0]}"]
    told += [f"as it was run: {texts[1]}"] if texts[1] != texts[0] else []
    sides = [it.raw if it else None for it in (first.wanted, first.got)]
    told += [f"{name} {cut(it or '(nothing)')}" for name, it in zip(("wanted: ", "printed:"), sides)]
    cause = Cause(first.means + detail(script, right, got, first), *(first.rule or (None, None)))
    return Failure(cause, (*told, f"differs: {first.says}", *cause.lines()), first.line, *sides)


def with_ending(failure, ran, wanted, timeout):
    """What failed in what was printed, if anything, with what is wrong with how the program ended."""
    ended = ran.wrong(2 if needs.stop_of(wanted) else 0, timeout)
    if not failure and not ended:
        return None
    if ended and ran.broke_down():
        # It was ended, or broke down, and is told apart by that; what it printed last is chance.
        rule = failure.cause.lines() if failure else []
        told = [it for it in failure.told if it not in rule] if failure else []
        failure = dataclasses.replace(failure or of_told(ended), cause=Cause(ended), told=(*told, ended))
    elif not failure:
        cause = Cause(ended, *STATUS)
        failure = Failure(cause, (ended, *cause.lines()))
    elif ended:
        failure = dataclasses.replace(failure, told=(*failure.told, ended))
    if ran.said.strip():
        said = f"its standard error ends: {shown(ran.said.strip().splitlines()[-1][-200:])}"
        failure = dataclasses.replace(failure, told=(*failure.told, said))
    return failure


def printed_by(command, script, timeout, run=Ran):
    """What the program prints for a script of one line; nothing where it can't be started."""
    try:
        return run(command, script, MUCH, timeout).printed
    except OSError:
        return b""


def of_printed(script, wanted, printed):
    """Judges what was printed for a script; a Failure, or None where it is right."""
    if printed == wanted:
        return None
    at, lines = first_difference(wanted, printed)
    number = min([it for it in map(script_line, lines) if it], default=None)
    told = [f"line {at + 1} of the transcript differs"]
    if number:
        source = script.split(b"\n")
        text = cut(shown(source[number - 1])) if number <= len(source) else "(the script has no such line)"
        told.append(f"line {number} of the script: {text}")
    for name, line in zip(("wanted: ", "printed:"), lines):
        told.append(f"{name} {side(line)}")
        found = transcript.loosely(shown(line.rstrip(b"\n"))) if line else None
        if found and found.field("msg") is not None:
            told.append(f"         {message.in_words(found.field('msg'))}")
    told += out_of_form(printed, at + 1)
    cause = cause_of(script, wanted, printed, at + 1)
    sides = (None if line is None else shown(line.rstrip(b"\n")) for line in lines)
    return Failure(cause, (*told, *cause.lines()), number, *sides)


def first_difference(wanted, printed):
    """How many lines are the same on both sides, and the first line that differs; None where a side has ended."""
    sides = [it.splitlines(True) for it in (wanted, printed)]
    at = 0
    while all(at < len(it) for it in sides) and sides[0][at] == sides[1][at]:
        at += 1
    return at, [it[at] if at < len(it) else None for it in sides]


def side(line):
    """One side of a difference; None is where the text has ended."""
    if line is None:
        return "(nothing)"
    if line.endswith(b"\n"):
        return cut(shown(line[:-1]))
    return f"{cut(shown(line))} (without byte 10 at its end)"


def script_line(line):
    """The number of the script's line that a line of a transcript belongs to; None where it belongs to none."""
    found = re.match(rb"(?:stop )?(\d{1,9}) ", line or b"")
    return int(found[1]) if found else None


def cause_of(script, wanted, printed, number):
    """What the first difference, which is in line `number` of the transcript, means, and the rule that it breaks."""
    unknown = needs.unknown_at(script, printed)
    if unknown in needs.of(script, wanted) and needs.stop_of(printed) != needs.stop_of(wanted):
        what = "call" if unknown in forms.CALLS else "directive"
        rule = f"{forms.form_of(unknown)} is a line of the language."
        return Cause(f"it says that it has no {what} {unknown}", rule, f"{reasons.SCRIPTS}, Lines", unknown)
    right = transcript.read(wanted)
    try:
        got = transcript.read(printed)
    except transcript.Malformed as wrong:
        if wrong.number <= number and not (needs.stop_of(wanted) and number > len(right.entries)):
            return Cause(NO_TRANSCRIPT, FORMS, reasons.TRANSCRIPT)
        got = well_formed(printed, wrong.number)
    found = differences.between(right, got)
    if not found:
        return Cause("it prints the entries of a line in another order", *reasons.rule("*", "order"))
    first = found[0]
    return Cause(first.means + detail(script, right, got, first), *(first.rule or (None, None)))


def out_of_form(printed, number):
    """What keeps a line from being one of a transcript, as a line of a block; nothing where it is one."""
    try:
        transcript.read(printed)
    except transcript.Malformed as wrong:
        return [f"its form: {wrong.reason}"] if wrong.number == number else []
    return []


def well_formed(printed, number):
    """A transcript up to a line that has no form, with a last line in its place: it goes on there."""
    above = printed.splitlines(True)[: number - 1]
    return transcript.read(b"".join(above) + b"end 0 0 0\n")


def detail(script, wanted, got, first):
    """What tells a difference of the last lines from other such ones: the fault, and the call or directive."""
    if not isinstance(first.wanted or first.got, transcript.Closing):
        return ""
    stops = [it.closing.numbers if it.closing and it.closing.word == "stop" else None for it in (wanted, got)]
    if stops[0] != stops[1]:
        line, kind = min(filter(None, stops))
        if all(stops) and stops[0][0] == stops[1][0]:
            return ": kind {} is told as kind {}".format(stops[0][1], stops[1][1])
        return f": kind {kind}, {faults.name_of(kind)}{in_a_line_of(script, line)}"
    ended = got.entries[-1].line if got.entries else 0
    behind = next((it.line for it in wanted.entries if it.line > ended), None)
    return in_a_line_of(script, behind) if behind and not got.closing else ""


def in_a_line_of(script, number):
    """The call or directive that a line names, as a part of a sentence."""
    lines = script.split(b"\n")
    name = needs.name_in(lines[number - 1]) if number <= len(lines) else None
    return f", in a line of {name}" if name else ""
