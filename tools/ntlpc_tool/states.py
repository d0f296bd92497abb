"""What `ntlpc states` prints: a transcript, and behind the entries of a line what became of the machine's rows in it.

A row is a process, a port, a handle and so on. Each that came, changed or went has a line of JSON, which begins with a
brace as no line of a transcript does: the number of the script's line, what became of the row with its name, and the
row's values, all of them also where few changed. Of a row that went the name alone is told.
"""
import dataclasses
import json

from ntlpc_tool import inputs

WORDS = ("came", "changed", "went")


class Malformed(Exception):
    """A line of JSON that tells of no row."""


@dataclasses.dataclass(frozen=True)
class Change:
    """What became of a row in a line of the script: `word` is one of WORDS, `values` are empty where the row went."""

    line: int
    word: str
    name: str
    values: dict


def split(data):
    """The transcript that stands in bytes, and the changes that stand between its lines. A transcript has none."""
    kept, changes = [], []
    for number, line in enumerate(data.split(b"\n"), 1):
        if line.startswith(b"{"):
            changes.append(_change(number, line))
        else:
            kept.append(line)
    return b"\n".join(kept), changes


def _change(number, line):
    """The change that a line tells."""
    try:
        # Not what JSON has beside: a number like Infinity has no place in a row.
        values = json.loads(line, parse_constant=_refuse)
    except (ValueError, RecursionError):
        raise Malformed(f"line {number} of what was printed is no JSON") from None
    at = values.pop("line", None)
    words = [it for it in WORDS if it in values]
    name = values.pop(words[0]) if len(words) == 1 else None
    if type(at) is not int or not isinstance(name, str) or not name:
        raise Malformed(f"line {number} of what was printed tells of no row: {inputs.cut(inputs.shown(line), 90)}")
    return Change(at, words[0], name, values)


def _refuse(word):
    raise ValueError(word)
