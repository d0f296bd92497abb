"""How a transcript is read. docs/SCRIPTS.md, "The transcript", tells its form.

`read` is strict: it takes what that page allows and tells what is wrong with anything else. It doesn't ask whether a
call may print such an entry; which calls there are, and what they print, is for the program. `loosely` takes a line
that has the outline of an entry, for those who compare what a program prints, right or wrong.
"""
import dataclasses
import re
from typing import Optional, Tuple

from ntlpc_tool import inputs, message

FILE = "a transcript's file, or - for the standard input"
OUTLINE = re.compile(r"(\d{1,19}) ([*~]?)(\d{1,19}|-) (\w+)(?: (\w+))?((?: \w+=[\w,-]*)*)")
CLOSING = re.compile(r"(end|stop)((?: (?:0|[1-9][0-9]{0,18}))*)")
CLOSING_NUMBERS = {"end": ("LINES", "ENTRIES", "OBJECTS"), "stop": ("LINE", "KIND")}
KINDS = ("answer", "wait", "wake", "died", "busy", "nothread", "directive")
DECIMAL, HEX8, BYTES = "0|[1-9][0-9]*", "[0-9a-f]{8}", "(?:[0-9a-f]{2})*"
SID = f"S-1(?:-(?:{DECIMAL})){{2,16}}"
HEADER = "[0-9a-f]{%d}" % (2 * message.HEADER_SIZE)
# The fields: the form of each value, and how it is told.
FIELDS = {
    "h": (DECIMAL, "a decimal number"),
    "thread": (DECIMAL, "a decimal number"),
    "id": (DECIMAL, "a decimal number"),
    "ctx": (HEX8, "8 hexadecimal digits in lower case"),
    "msg": (HEADER + BYTES, "at least 24 bytes, each as 2 hexadecimal digits in lower case"),
    "max": (DECIMAL, "a decimal number"),
    "info": (BYTES, "bytes, each as 2 hexadecimal digits in lower case"),
    "base": (HEX8, "8 hexadecimal digits in lower case"),
    "size": (DECIMAL, "a decimal number"),
    "data": (BYTES, "bytes, each as 2 hexadecimal digits in lower case"),
    "target": (HEX8, "8 hexadecimal digits in lower case"),
    "vbase": (HEX8, "8 hexadecimal digits in lower case"),
    "vsize": (DECIMAL, "a decimal number"),
    "user": (SID, "a SID"),
    "groups": (f"(?:{SID}(?:,{SID}){{0,15}})?", "SIDs, at most 16, with commas between them"),
    "level": (DECIMAL, "a decimal number"),
    "type": ("[a-z]+", "a word in small letters"),
    "access": (HEX8, "8 hexadecimal digits in lower case"),
    "handles": (DECIMAL, "a decimal number"),
    "pointers": (DECIMAL, "a decimal number"),
}
MOST_LINE = 1_000_000
MOST_THREAD = 2_147_483_647
MOST_NUMBER = 4_294_967_295
BEGINNINGS = {
    b"\xff\xfe": "the byte order mark of UTF-16, as `>` of some shells writes it; a transcript is ASCII text",
    b"\xfe\xff": "the byte order mark of UTF-16; a transcript is ASCII text",
    b"\xef\xbb\xbf": "the byte order mark of UTF-8; a transcript is ASCII text without one",
}


class Malformed(Exception):
    """A line that no transcript has: `number` is its number in the transcript, `reason` tells what is wrong."""

    def __init__(self, number, reason):
        super().__init__(f"line {number} of the transcript: {reason}")
        self.number = number
        self.reason = reason


class _Wrong(Exception):
    """What is wrong with a line."""


@dataclasses.dataclass(frozen=True)
class Entry:
    """One line of a transcript that a line of the script made.

    `kind` is one of KINDS. `thread` is None in a directive's entry, whose `call` is the directive's word. `call` is
    None where the thread was busy, is none, or died. `status` is 8 hexadecimal digits in an answer, a wake and a
    directive, and where a thread died, whose code it is; else None. `fields` are pairs of a name and a value as they
    are printed. `raw` is the line without its end.
    """

    line: int
    kind: str
    thread: Optional[int]
    call: Optional[str]
    status: Optional[str]
    fields: Tuple[Tuple[str, str], ...]
    raw: str

    def field(self, name):
        """The value of a field as it is printed, None where the entry has no such field."""
        return dict(self.fields).get(name)

    def message(self):
        """The message that the entry shows, None where it shows none."""
        digits = self.field("msg")
        return None if digits is None else message.Message.read(bytes.fromhex(digits))


@dataclasses.dataclass(frozen=True)
class Closing:
    """The last line: `word` is `end` or `stop`, `numbers` are the three or two numbers behind it."""

    word: str
    numbers: Tuple[int, ...]
    raw: str


@dataclasses.dataclass(frozen=True)
class Transcript:
    """The entries in their order, and the last line; None where the transcript has none, as when the input failed."""

    entries: Tuple[Entry, ...]
    closing: Optional[Closing]


def loosely(text):
    """The entry of which a line has the outline, else None. Nothing but the outline is tested."""
    found = OUTLINE.fullmatch(text)
    if not found:
        return None
    number, mark, who, second, third, fields = found.groups()
    thread = None if who == "-" else int(who)
    pairs = tuple(tuple(it.split("=", 1)) for it in fields.split())
    if mark == "~" and second == "died":
        return Entry(int(number), second, thread, None, third, pairs, text)
    if third is None:
        return Entry(int(number), second, thread, None, None, pairs, text)
    kind = "directive" if who == "-" else "wake" if mark == "*" else "wait" if third == "wait" else "answer"
    return Entry(int(number), kind, thread, second, None if kind == "wait" else third, pairs, text)


def read(data):
    """The transcript that bytes are; a line of no form raises Malformed."""
    for mark, reason in BEGINNINGS.items():
        if data.startswith(mark):
            raise Malformed(1, f"it begins with {reason}")
    lines = inputs.lines_of(data)
    entries, closing, last = [], None, 0
    for number, line in enumerate(lines, 1):
        try:
            if closing:
                raise _Wrong(f"it stands behind the last line, `{closing.raw}`")
            text = _text_of(line)
            closing = _closing(text)
            if not closing:
                entries.append(_entry(text, last))
                last = entries[-1].line
        except _Wrong as wrong:
            raise Malformed(number, str(wrong)) from None
    if lines and not data.endswith(b"\n"):
        raise Malformed(len(lines), "byte 10 is missing at its end")
    return Transcript(tuple(entries), closing)


def load(path):
    """The transcript in a file; `-` is standard input."""
    data = inputs.read(path)
    try:
        return read(data)
    except Malformed as wrong:
        raise inputs.Misuse(f"{inputs.name_of(path)}: {wrong}") from None


def still_waiting(transcript):
    """The entries of the waits that nothing ended, in their order."""
    return next(reversed(waits_by_line(transcript).values()), [])


def waits_by_line(transcript):
    """For each line that has an entry the entries of the waits that nothing ended up to its end, in their order."""
    waits, found = {}, {}
    for entry in transcript.entries:
        if entry.kind == "wait":
            waits[entry.thread] = entry
        elif entry.kind in ("wake", "answer", "died"):
            waits.pop(entry.thread, None)
        found[entry.line] = list(waits.values())
    return found


def _text_of(line):
    """A line as text."""
    if line.endswith(b"\r"):
        raise _Wrong("it ends with a carriage return (byte 13); lines end with byte 10 alone")
    for at, byte in enumerate(line):
        if not 32 <= byte <= 126:
            raise _Wrong(f"its byte {at + 1} is {byte}; a transcript has bytes from 32 to 126 alone")
    if not line.strip():
        raise _Wrong("it has no word")
    return line.decode("ascii")


def _closing(text):
    """The last line that a line is, None where it begins as none."""
    word = text.split(" ")[0]
    if word not in CLOSING_NUMBERS:
        return None
    found = CLOSING.fullmatch(text)
    numbers = tuple(int(it) for it in found[2].split()) if found else ()
    if len(numbers) != len(CLOSING_NUMBERS[word]):
        raise _Wrong(f"the form is `{' '.join((word, *CLOSING_NUMBERS[word]))}`, with decimal numbers, not `{text}`")
    return Closing(word, numbers, text)


def _entry(text, last):
    """The entry that a line is; `last` is the script's line that the entry above it names."""
    entry = loosely(text)
    if not entry:
        raise _Wrong(_why_no_entry(text))
    words = text.split(" ")
    _number(words[0], "the number of the script's line", 1, MOST_LINE)
    if entry.line < last:
        raise _Wrong(f"the line above is of line {last} of the script, and entries stand in the order of its lines")
    if entry.kind not in KINDS:
        raise _Wrong(f"`{entry.kind}` has neither a status nor `wait` behind it, and is neither `busy` nor `nothread`")
    died = entry.kind == "died"
    if words[1].startswith("~") != died or died and None in (entry.thread, entry.status):
        raise _Wrong("a tilde stands before a thread that died alone, `LINE ~TID died STATUS`")
    if entry.thread is not None:
        _number(words[1].lstrip("*~"), "the number of the thread", 1, MOST_THREAD)
    if words[1].startswith("*") and entry.kind != "wake":
        raise _Wrong("a star stands before the thread of a wake alone, `LINE *TID CALL STATUS`")
    if entry.status is not None and not re.fullmatch(HEX8, entry.status):
        raise _Wrong(f"the status `{entry.status}` isn't 8 hexadecimal digits in lower case")
    _check_fields(entry)
    return entry


def _check_fields(entry):
    """Tests the fields of an entry: which there are, and the form of each value."""
    if entry.fields and entry.kind in ("died", "busy", "nothread", "directive"):
        raise _Wrong(f"an entry of this kind ({entry.kind}) has no field")
    names = [name for name, _ in entry.fields]
    for name, value in entry.fields:
        if name not in FIELDS:
            raise _Wrong(f"there is no field `{name}`; the fields are {', '.join(FIELDS)}")
        if names.count(name) > 1:
            raise _Wrong(f"the field `{name}` stands there twice")
        form, told = FIELDS[name]
        if not re.fullmatch(form, value):
            raise _Wrong(f"the value of `{name}` isn't {told}: `{inputs.cut(value, 60)}`")
        if form == DECIMAL:
            _number(value, f"the value of `{name}`", 0, MOST_NUMBER)


def _number(word, what, least, most):
    """Tests a decimal number."""
    if not re.fullmatch(DECIMAL, word):
        raise _Wrong(f"{what} is `{word}`, which is no decimal number without leading zeros")
    if len(word) > len(str(most)) or not least <= int(word) <= most:
        raise _Wrong(f"{what} is {word}, outside {least} to {most}")


def _why_no_entry(text):
    """What keeps a line from having the outline of an entry."""
    words = text.split(" ")
    if "" in words:
        return "its words aren't parted by single spaces, or a space stands at its front or end"
    if not words[0].isdigit():
        word = inputs.cut(words[0], 40)
        return f"it begins with `{word}`, neither with the number of a script's line nor with `end` or `stop`"
    if len(words) < 3:
        return "it ends too soon: an entry has a line's number, a thread or `-`, and what it was told"
    if not re.fullmatch(r"[*~]?\d+|-", words[1]):
        no_thread = f"behind the line's number stands `{words[1]}`, which is no thread"
        return f"{no_thread}, no thread behind a star or a tilde, and no `-`"
    for word in words[4:]:
        if "=" not in word:
            return f"`{inputs.cut(word, 40)}` is no field: a field is a name, `=` and a value"
    return f"`{inputs.cut(' '.join(words[2:]), 60)}` isn't a call with a status and its fields"
