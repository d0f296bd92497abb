"""Checks an answer to an exercise of docs/EXERCISES.md and docs/EXERCISES_CONNECTIONS.md.

    ntlpc-tool exercise N ANSWER

N is the exercise's number. ANSWER is your script, over which the program ntlpc is run, or the transcript that you say
it has; `-` is the standard input.

An answer is right where each thread is told the same as in the worked answer, in the same order, and as many objects
are left. So comments and empty lines are free, and the order of the lines as far as no thread sees it. Handles and
identifiers may differ where they differ alike everywhere. Other data, in a message or a connect's info, are told as a
note, since not each task gives them. Where the answer isn't right, the first entry of each thread that differs is told.

Exit status: 0 where the answer is right, 1 where it isn't, 2 where something can't be read or run.
"""
import collections
import dataclasses

from ntlpc_tool import CHECKOUT, FOLDER, describe, faults, inputs, program, renaming, script_lines, transcript
from ntlpc_tool.words import diagram

NAME = "exercise"
# That of this checkout, then the one that was installed with the tools.
PLACES = (CHECKOUT / "examples" / "exercises", FOLDER.parent / "examples" / "exercises")


def add_arguments(parser):
    parser.add_argument("number", metavar="N", help="the number of the exercise")
    parser.add_argument("answer", metavar="ANSWER", help="your script or transcript, or - for the standard input")
    program.add_option(parser)


def run(arguments):
    name, script, wanted = worked(arguments.number)
    data = inputs.read(arguments.answer)
    got = transcript.read(data) if diagram.is_transcript(data) else told_by(arguments.program, data)
    if got.closing and got.closing.word == "stop":
        line, kind = got.closing.numbers
        print(f"{name}: line {line} of the answer is faulty, kind {kind}: {faults.name_of(kind)}")
        print("`ntlpc-tool why` shows where in the line")
        return 1
    found = Comparison(script, wanted, got)
    for line in found.wrong or [f"right, {describe.counted(len(got.entries), 'entry')}"]:
        print(f"{name}: {line}")
    for line in found.notes:
        print(f"note: {line}")
    return 1 if found.wrong else 0


def worked(number):
    """The name of an exercise, its worked script, and the transcript."""
    folder = next((it for it in PLACES if it.is_dir()), None)
    if not folder:
        raise inputs.Misuse(f"the exercises are missing; they should be in one of {', '.join(map(str, PLACES))}")
    names = {str(int(it.name[:2])): it for it in sorted(folder.glob("[0-9][0-9]-*.script"))}
    if number not in names:
        raise inputs.Misuse(f"there is no exercise {inputs.cut(number, 40)}; there are {', '.join(names)}")
    script = script_lines.Script(names[number].read_bytes())
    return f"exercise {number}", script, transcript.load(str(names[number].with_suffix(".transcript")))


def told_by(name, script):
    """The transcript that the program prints for an answer."""
    ran = program.replay(program.find(name), script)
    if ran.status not in (0, 2):
        raise inputs.Misuse(f"the program ended with status {ran.status}: {ran.ending()}")
    return transcript.read(ran.printed)


class Comparison:
    """What differs between the worked answer and another one: `wrong`, and data that differ in `notes`."""

    def __init__(self, script, wanted, got):
        self.names = renaming.Renaming((wanted, got), script)
        self.notes = []
        self.wrong = self.of_directives(wanted, got) + self.of_threads(wanted, got) + self.of_ends(wanted, got)

    def of_directives(self, wanted, got):
        """The directives that are wanted, or one too many; their order is free."""
        sides = ([it for it in side.entries if it.thread is None] for side in (wanted, got))
        here, there = (collections.Counter(map(told, side)) for side in sides)
        both = (("is missing", here - there), ("is too much", there - here))
        found = ((text, how, count) for how, counts in both for text, count in counts.items())
        return [f"`{text}` {how}, {describe.counted(count, 'time')}" for text, how, count in found]

    def of_threads(self, wanted, got):
        """For each thread the first entry that differs."""
        others = collections.defaultdict(collections.deque)
        for entry in got.entries:
            others[entry.thread].append(entry)
        wrong, counts = {}, collections.Counter()
        for entry in (it for it in wanted.entries if it.thread is not None):
            counts[entry.thread] += 1
            other = others[entry.thread].popleft() if others[entry.thread] else None
            where = f"thread {entry.thread}, its entry {counts[entry.thread]}"
            if entry.thread not in wrong and not self.same(entry, other, where):
                line = f"line {other.line} of the answer: `{told(other)}`" if other else "the answer ends before it"
                wrong[entry.thread] = f"{where}: `{told(entry)}` is wanted; {line}"
            self.names.close(entry)
        for thread, rest in others.items():
            if thread is not None and rest and thread not in wrong:
                line = f"line {rest[0].line} of the answer is one too many: `{told(rest[0])}`"
                wrong[thread] = f"thread {thread}, its entry {counts[thread] + 1}: {line}"
        return list(wrong.values())

    def same(self, wanted, got, where):
        """Whether two entries tell the same, up to names and data."""
        if not got or (wanted.kind, wanted.call, wanted.status) != (got.kind, got.call, got.status):
            return False
        fitted, problems = self.names.fit(wanted, got)
        if problems or [it for it, _ in fitted.fields] != [it for it, _ in wanted.fields]:
            return False
        if data_of(fitted) != data_of(wanted):
            self.notes.append(f"{where} has other data: line {got.line} of the answer")
        return without_data(fitted) == without_data(wanted)

    def of_ends(self, wanted, got):
        """The last lines: how many objects are left."""
        if not got.closing:
            return ["the last line is missing"]
        here, there = wanted.closing.numbers[2], got.closing.numbers[2]
        return [] if here == there else [f"{describe.counted(here, 'object')} left are wanted, not {there}"]


def told(entry):
    """An entry as it is printed, without its line and with long fields cut."""
    return inputs.cut(entry.raw.partition(" ")[2], 120)


def data_of(entry):
    """The data of an entry's message, and its info."""
    shown = entry.message()
    return shown and shown.data, entry.field("info")


def without_data(entry):
    """The fields of an entry, with the header of its message alone and without the sizes of its data."""
    fields = {name: value for name, value in entry.fields if name not in ("msg", "info")}
    shown = entry.message()
    header = shown and dataclasses.replace(shown, data=b"", data_size=0, message_size=0)
    return fields, header
