"""Where in a faulty line its fault lies.

The program alone knows the grammar, and names a line and a kind. The place is found by asking it for more lines: the
faulty line cut short, or with lawful words in place of those behind some word. So a place is where the program's own
answer changes.
"""
import dataclasses
import re
from typing import Optional

from ntlpc_tool import forms, inputs, program, transcript

BYTE, WORD, CALL, COUNT, NUMBER, HEX, MESSAGE, SID, LONG, LINES = 1, 2, 3, 4, 5, 6, 7, 8, 9, 10
MOST_BYTES = 16_384
MOST_LINES = 1_000_000
# What an access list and a quality of service begin with.
LIST, QUALITY = b"acl:", b"q:"
# A part of a word that is lawful as a Number and as HEX.
LAWFUL_PART = b"10"
# No form has more words.
MOST_WORDS = max(len(forms.named(it)) for it in (*forms.DIRECTIVES, *forms.CALLS))


@dataclasses.dataclass(frozen=True)
class Place:
    """Bytes of a line: from `begin` on, before `end`. `word` counts the words from 0, where the place lies in one."""

    begin: int
    end: int
    word: Optional[int] = None


class Probe:
    """Asks a program for the fault of lines, each as a script of its own."""

    def __init__(self, name):
        self.name = name
        self.known = {}

    def kind(self, line):
        """The kind of a line's fault, None where it is well formed."""
        if line not in self.known:
            self.known[line] = self._asked(line)
        return self.known[line]

    def _asked(self, line):
        ran = program.replay(self.name, line + b"\n")
        stopped = re.search(rb"(?:\A|\n)stop 1 (\d+)\n\Z", ran.printed)
        if ran.status not in (0, 2) or (ran.status == 2) != bool(stopped):
            raise inputs.Misuse(f"{self.name} ended with status {ran.status} for one line alone: {ran.ending()}")
        return int(stopped[1]) if stopped else None


def spans_of(line):
    """Where the words of a line stand."""
    return [found.span() for found in re.finditer(rb"[^ ]+", line)]


def words_of(line):
    """The words of a line, as bytes."""
    return [line[begin:end] for begin, end in spans_of(line)]


def texts_of(line):
    """The words of a line, as text that can be shown."""
    return [inputs.shown(it) for it in words_of(line)]


def place_of(probe, line, kind):
    """Where the fault of a line lies, None where it can't be told."""
    if kind == LONG:
        return Place(MOST_BYTES, len(line))
    if kind == LINES:
        return Place(0, max(len(line), 1))
    if probe.kind(line) != kind:
        return None
    if kind == BYTE:
        return _of_byte(probe, line)
    if kind == COUNT:
        return _of_count(probe, line)
    at = _faulty_word(probe, line)
    return None if at is None else _inside(probe, line, kind, at)


def with_other(line, place, other):
    """The line with other bytes in a place."""
    return line[: place.begin] + other + line[place.end :]


def last_lawful(most, lawful):
    """The greatest number up to `most` that is lawful, where all below it are and 0 is."""
    low, high = 0, most
    while low < high:
        middle = (low + high + 1) // 2
        if lawful(middle):
            low = middle
        else:
            high = middle - 1
    return low


def _of_byte(probe, line):
    """The first byte that no line may have, and with it the character that it begins."""
    at = last_lawful(len(line), lambda length: probe.kind(line[:length]) != BYTE)
    for length in range(1, 5):
        try:
            line[at : at + length].decode("utf-8")
            return Place(at, at + length)
        except UnicodeDecodeError:
            continue
    return Place(at, at + 1)


def _of_count(probe, line):
    """The words that are too many, or the end of a line that has too few."""
    spans = spans_of(line)
    for count in range(min(len(spans) - 1, MOST_WORDS), 0, -1):
        if probe.kind(line[: spans[count - 1][1]]) != COUNT:
            return Place(spans[count][0], spans[-1][1], count)
    return Place(spans[-1][1], spans[-1][1], len(spans))


def missing_words(probe, line):
    """How many words a line with too few lacks at least, None where that can't be told."""
    for count in range(1, MOST_WORDS):
        if probe.kind(b" ".join([line, *[LAWFUL_PART] * count])) != COUNT:
            return count
    return None


def _faulty_word(probe, line):
    """Which word has the fault: with lawful words behind it the line has it still, with one word less it hasn't."""
    spans = spans_of(line)
    if probe.kind(line[: spans[0][1]]) not in (None, COUNT):
        return 0
    if len(spans) > 1 and probe.kind(line[: spans[1][1]]) == CALL:
        return 1
    if len(spans) > len(forms.of_words(texts_of(line))):
        return None
    for at in range(1, len(spans)):
        if probe.kind(_lawful_behind(line, at, line[: spans[at][1]])) is not None:
            return at
    return None


def _lawful_behind(line, at, front):
    """A line that begins with `front`, and behind that has lawful words in place of those behind word `at`."""
    behind = forms.of_words(texts_of(line))[at + 1 : len(spans_of(line))]
    return b" ".join([front, *(forms.WORDS[it][1].encode() if it in forms.WORDS else it.encode() for it in behind)])


def _inside(probe, line, kind, at):
    """The part of a word that has the fault: a number of a message, a digit of its bytes, the level of a quality of
    service, or an entry of an access list, and of that the mask or the SID; else the whole word."""
    begin, end = spans_of(line)[at]
    whole = Place(begin, end, at)

    def asked(word):
        return probe.kind(_lawful_behind(line, at, line[:begin] + word))

    form = next(iter(forms.of_words(texts_of(line))[at:]), None)
    if form == "[DACL]" and line[begin:end].startswith(LIST):
        return _part_of_list(asked, line[begin:end], whole, kind)
    if form == "QOS" and kind == NUMBER:
        return Place(begin + len(QUALITY), line.index(b":", begin + len(QUALITY)), at)
    if kind == NUMBER:
        return _number_in(asked, line[begin:end], whole)
    if kind == HEX:
        return _digit_in(asked, line[begin:end], whole)
    return whole


def _part_of_list(asked, word, whole, kind):
    """The first entry of an access list with which the list has the fault, and of that entry the mask or the SID."""
    entries = word[len(LIST) :].split(b",")
    at = next(it for it in range(len(entries)) if asked(LIST + b",".join(entries[: it + 1])) == kind)
    begin = whole.begin + len(LIST + b"".join(it + b"," for it in entries[:at]))
    parts = entries[at].split(b"/")
    if kind == WORD:
        return Place(begin, begin + len(entries[at]), whole.word)
    front = b"/".join(parts[: 1 if kind == NUMBER else 2]) + b"/"
    part = parts[1] if kind == NUMBER else parts[2]
    return Place(begin + len(front), begin + len(front) + len(part), whole.word)


def _number_in(asked, word, whole):
    """The number of a message or a view that has the fault: with lawful parts behind it the word has the fault still."""
    parts = re.split(rb"([:.])", word)
    if len(parts) == 1:
        return whole
    for at in range(0, len(parts), 2):
        behind = [it if number % 2 else LAWFUL_PART for number, it in enumerate(parts[at + 1 :], 1)]
        if asked(b"".join(parts[: at + 1] + behind)) == NUMBER:
            begin = whole.begin + len(b"".join(parts[:at]))
            return Place(begin, begin + len(parts[at]), whole.word)
    return whole


def _digit_in(asked, word, whole):
    """The first digit that is none, or the one that has no other beside it. In front of the digits stands what makes
    them a message, or nothing where they are a word of their own."""
    front = next((it for it in range(1, len(word)) if asked(word[:it]) is None), None)
    if front is None and asked(LAWFUL_PART) is not None:
        return whole
    front = front or 0
    pairs = last_lawful((len(word) - front) // 2, lambda count: asked(word[: front + 2 * count]) is None)
    at = front + 2 * pairs
    if at + 1 < len(word) and asked(word[: at + 1] + b"0") is None:
        at += 1
    return Place(whole.begin + at, whole.begin + at + 1, whole.word)
