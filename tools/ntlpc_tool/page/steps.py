"""A script as steps, each a line with its entries and with what they mean, and the lines between that have none."""
import dataclasses
from typing import Optional, Tuple

from ntlpc_tool import describe, inputs, turns
from ntlpc_tool.page import ruled, waits
from ntlpc_tool.transcript import Closing, Entry
from ntlpc_tool.words import show

END = "end"
NO_LINE = "(the script has no such line)"


@dataclasses.dataclass(frozen=True)
class Told:
    """An entry: what it means, a line of text each, and its rules, pairs of a sentence and its place."""

    entry: Entry
    means: Tuple[str, ...]
    rules: Tuple[Tuple[str, str], ...]


@dataclasses.dataclass(frozen=True)
class Last:
    """The end of a transcript: its last line, None where it has none, what it means, and its rules."""

    closing: Optional[Closing]
    means: Tuple[str, ...]
    rules: Tuple[Tuple[str, str], ...]


@dataclasses.dataclass(frozen=True)
class Step:
    """One step. `key` is the number of its line, or END behind all lines, where there is no `text`; `deed` is what the
    server on a thread did there, `last` the end of the transcript where that stands here, and `waits` who waits."""

    key: str
    text: Optional[str]
    deed: Optional[str]
    told: Tuple[Told, ...]
    last: Optional[Last]
    waits: Tuple[str, ...]


@dataclasses.dataclass(frozen=True)
class Silent:
    """A line without an entry: its number, its text, and whether it is a comment."""

    number: int
    text: str
    comment: bool


def of(found, script):
    """The steps and the silent lines of a script with its transcript, in their order."""
    entries, stops = {}, found.closing and found.closing.word == "stop"
    for entry in found.entries:
        entries.setdefault(entry.line, []).append(entry)
    waiting, last = waits.Waits(found, script), _last(found, script)
    line = found.closing.numbers[0] if stops else None
    for number in sorted({*range(1, len(script.lines) + 1), *entries, *({line} if stops else ())}):
        if number in entries or number == line:
            told = entries.get(number, [])
            yield _step(number, told, last if number == line else None, script, waiting.behind(number))
        elif script.text(number).strip():
            text = inputs.cut(script.text(number))
            yield Silent(number, text, text.startswith("#"))
    if not stops:
        yield Step(END, None, None, (), last, tuple(waiting.behind(None)))


def _step(number, entries, last, script, waiting):
    """The step of a line."""
    text = script.text(number)
    told = []
    for entry in entries:
        means, rules = describe.of_entry(entry), ruled.of_entry(entry, entries)
        told.append(Told(entry, tuple(means), tuple(rules)))
    deed = turns.deed(script.words(number), entries)
    return Step(str(number), NO_LINE if text is None else inputs.cut(text), deed, tuple(told), last, tuple(waiting))


def _last(found, script):
    """The end of a transcript."""
    means, closing = tuple(show.closing_told(found.closing, None)), found.closing
    return Last(closing, means, tuple(ruled.of_closing(closing)) if closing else ())
