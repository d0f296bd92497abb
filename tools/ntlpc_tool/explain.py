"""What a fault of a line is, in sentences, and what would end it.

What may stand in a place is taken from the tables of forms. Whatever is proposed in the place of a fault was tried with
the program first.
"""
import difflib
import re
import unicodedata

from ntlpc_tool import absent, describe, forms, inputs, placing

MARKS = {b"\xff\xfe": "UTF-16", b"\xfe\xff": "UTF-16", b"\xef\xbb\xbf": "UTF-8"}
SID = "a SID: S-1-, a number below 2^48, and 1 to 15 numbers below 2^32 with a dash before each"
MOST_NAME, MOST_ENTRIES, MOST_SUBS = 32, 16, 15
CALLS = ", ".join(forms.CALLS)
BYTES = {
    0: "a zero byte",
    9: "a tab",
    11: "a vertical tab",
    12: "a form feed",
    13: "a carriage return",
    127: "byte 127",
}


class Explanation:
    """The sentences for one faulty line: `script` is the whole script, `number` the line's."""

    def __init__(self, probe, script, number, kind):
        lines = inputs.lines_of(script)
        self.probe = probe
        self.script = script
        self.lines = lines
        self.line = lines[number - 1] if number <= len(lines) else b""
        self.number = number
        self.kind = kind
        self.place = placing.place_of(probe, self.line, kind)
        self.words = placing.texts_of(self.line[: placing.MOST_BYTES])
        self.form = forms.of_words(self.words)

    def sentences(self):
        """What is wrong, what is expected, and what would end the fault."""
        if self.place is None:
            return ["where in the line the fault lies can't be told: its form isn't known here"]
        told = {
            placing.BYTE: self.of_byte,
            placing.WORD: self.of_word,
            placing.CALL: self.of_call,
            placing.COUNT: self.of_count,
            placing.NUMBER: self.of_number,
            placing.HEX: self.of_hex,
            placing.MESSAGE: self.of_message,
            placing.SID: self.of_sid,
            placing.LONG: self.of_long,
            placing.LINES: self.of_lines,
        }
        return told[self.kind]() if self.kind in told else []

    # The bytes.

    def of_byte(self):
        encoding = self.encoding()
        if encoding == "UTF-8":
            told = "the script begins with the byte order mark of UTF-8, as many editors write it"
            return [told, "what takes it away: tail -c +4 SCRIPT > OTHER"]
        if encoding:
            told = "the script is UTF-16 text; a script's bytes are ASCII outside its comments"
            return [told, f"what changes that: iconv -f {encoding} -t UTF-8 SCRIPT > OTHER"]
        found = self.line[self.place.begin : self.place.end]
        if found == b"\r" and self.place.end == len(self.line):
            count = sum(it.endswith(b"\r") for it in self.lines)
            told = f"the line ends with a carriage return (CRLF), as {count} of the script's {len(self.lines)} lines do"
            return [told, "what takes them away: tr -d '\\r' < SCRIPT > OTHER"]
        told = [f"it is {name_of(found)}; outside a comment each byte is one of 32 to 126"]
        return told + (self.other_ends() or self.other_bytes(found))

    def other_ends(self):
        """What to do where all lines end with a carriage return alone, so that the script is one line."""
        count = self.line.count(b"\r")
        if len(self.lines) > 1 or not count:
            return []
        told = f"the script's only line has {count} carriage returns (byte 13), which end no line"
        return [told, "what makes line ends of them: tr '\\r' '\\n' < SCRIPT > OTHER"]

    def encoding(self):
        """The encoding that the script's first bytes show, None where it may be ASCII text."""
        start = self.script[:64]
        for mark, name in MARKS.items():
            if start.startswith(mark):
                return name
        if len(start) > 3 and not any(start[1::2]):
            return "UTF-16LE"
        return "UTF-16BE" if len(start) > 3 and not any(start[::2]) else None

    def other_bytes(self, found):
        """Bytes that may be meant by others."""
        if found in (b"\t", b"\r", b"\xc2\xa0", b"\v", b"\f"):
            return self.tried(b" ", name="a space")
        plain = unicodedata.normalize("NFKC", found.decode("utf-8", "ignore")).encode("ascii", "ignore")
        if not plain and found.decode("utf-8", "ignore") in "\u2010\u2011\u2012\u2013\u2014\u2212":
            plain = b"-"
        return self.tried(plain) if plain else []

    # The first word, the call, and words of the language.

    def of_word(self):
        word = self.words[self.place.word]
        if self.place.word:
            return self.of_keyword(word)
        told = [f"expected here: {forms.FIRST}"]
        if word.startswith("#"):
            return [*told, "a comment begins with its # as the line's first byte; here a space stands before it"]
        if word in forms.CALLS or word in absent.CALLS:
            return [*told, f"{word} is a call: the number of the thread that makes it stands before it"]
        if word in absent.DIRECTIVES:
            return [*told, f"the directive {word} isn't built yet"]
        if re.match(r"[-+.]\d", word):
            return [*told, "a thread's number has neither a sign nor a point before its digits"]
        return told + self.nearest(word, forms.DIRECTIVES)

    def of_keyword(self, word):
        form = self.form[self.place.word].strip("[]")
        told = [f"expected here: {self.expected()}"]
        if form in ("accept|refuse", "handled|unhandled"):
            return told + self.nearest(word, form.split("|"))
        if form == "null":
            return told + self.tried(b"null")
        if form == "TOKEN":
            return told + self.why_no_name(word)
        if form == "DACL":
            return told + self.why_no_list(word)
        if form == "QOS":
            return told + self.why_no_quality(word)
        if word.startswith("w:"):
            count = word.count(":")
            return [*told, f"behind w stand three numbers with a colon before each, not {count}"]
        return told + (self.in_small_letters(word, "w:") or self.tried(b"-"))

    def in_small_letters(self, word, front):
        """What the program makes of a word whose front is to have small letters, where it is another case of it."""
        if word.startswith(front) or not word.lower().startswith(front):
            return []
        return self.tried(front.encode() + self.line[self.place.begin + len(front) : self.place.end])

    def why_no_name(self, word):
        """What keeps a word from being the name of a token."""
        if len(word) > MOST_NAME:
            return [f"it has {len(word)} characters; a token's name has at most {MOST_NAME}"]
        other = re.search("[^A-Za-z0-9_]", word)
        plain = re.sub("[^A-Za-z0-9_]", "_", word)
        return [f"{other[0]} is no letter, no digit and no _", *self.tried(plain.encode())]

    def why_no_quality(self, word):
        """What keeps a word from being a quality of service."""
        if not word.startswith("q:"):
            return self.in_small_letters(word, "q:") or self.tried(b"-")
        parts = word[2:].split(":")
        if len(parts) != 2:
            return [f"behind q: stand two parts with a colon between them, not {len(parts)}"]
        small = parts[1].lower()
        told = self.tried(f"q:{parts[0]}:{small}".encode()) if small in ("s", "d") else []
        return ["behind the level stands s, for static tracking, or d, for dynamic tracking", *told]

    def why_no_list(self, word):
        """What keeps a word from being an access list, or a part of one from being an entry."""
        if not word.startswith("acl:"):
            told = self.in_small_letters(word, "acl:")
            return told or ["a name can't have a space; a further word is a list of who may connect"]
        entry = inputs.shown(self.line[self.place.begin : self.place.end])
        at = self.line[: self.place.begin].rpartition(b" ")[2].count(b",")
        if at >= MOST_ENTRIES:
            return [f"a list has at most {MOST_ENTRIES} entries"]
        if not entry:
            return ["an entry is missing: commas stand between entries alone"]
        parts = entry.split("/")
        if len(parts) != 3:
            return [f"an entry has three parts with a slash between them, A/MASK/SID or D/MASK/SID, not {len(parts)}"]
        told = self.tried("/".join([parts[0].upper(), *parts[1:]]).encode()) if parts[0] in ("a", "d") else []
        return ["an entry begins with A, which allows, or with D, which denies", *told]

    def of_call(self):
        word = self.words[1]
        told = [f"expected here: a call ({CALLS})"]
        if word in absent.CALLS:
            return [*told, f"{word} isn't built yet"]
        if word in forms.DIRECTIVES or word in absent.DIRECTIVES:
            return [*told, f"{word} is a directive: no thread's number stands before it"]
        if word.startswith("Zw"):
            return told + self.tried(b"Nt" + word[2:].encode(), front="the calls' names begin with Nt: ")
        return told + self.nearest(word, forms.CALLS)

    def nearest(self, word, known):
        """The known word that is nearest to one."""
        small = {it.lower(): it for it in known}
        found = difflib.get_close_matches(word.lower(), small, 1)
        if not found:
            return []
        front = "the letters' case counts: " if found[0] == word.lower() else ""
        return self.tried(small[found[0]].encode(), front=front)

    # The count of words.

    def of_count(self):
        form = next((found for it in self.words[:2] if (found := forms.form_of(it))), None)
        told = [f"the form is {form}"] if form else []
        if self.place.begin < self.place.end:
            extra = len(self.words) - self.place.word
            return [*told, f"{describe.counted(extra, 'word')} too many", *self.extra_words()]
        if len(self.words) == 1 and not form:
            return [f"the call is missing behind the thread's number: {CALLS}"]
        missing = placing.missing_words(self.probe, self.line)
        lacks = self.form[len(self.words) : len(self.words) + (missing or 0)]
        count = describe.counted(missing, "word") if missing else "words"
        return [*told, f"{count} missing at the end{': ' if lacks else ''}{' '.join(lacks)}"]

    def extra_words(self):
        """Why there may be words too many."""
        extra = self.words[self.place.word :]
        told = []
        if any(it.startswith("#") for it in self.words[self.place.word - 1 :]):
            told.append("a comment has a line of its own")
        last = self.form[-1].strip("[]") if self.form else ""
        if last in ("NAME", "PATH", "TARGET") and not told:
            told.append("a name can't have a space")
        if last in ("MSG", "INFO", "HEX"):
            begin = placing.spans_of(self.line)[self.place.word - 1][1]
            if self.probe.kind(self.line[:begin] + "".join(extra).encode()) is None:
                joined = self.words[self.place.word - 1] + "".join(extra)
                told.append(f"the digits of bytes have no space between them: {joined}")
        return told

    # Numbers, digits, messages.

    def of_number(self):
        word = inputs.shown(self.line[self.place.begin : self.place.end])
        whole = word == self.words[self.place.word]
        is_level = self.form[self.place.word : self.place.word + 1] == ("QOS",)
        part = "a level: a number from 0 to 3" if is_level else "a number from 0 to 4294967295"
        expected = self.expected() if whole else part
        return [f"expected here: {expected}", f"a number is {forms.NUMBER}", *self.why_no_number(word)]

    def why_no_number(self, word):
        """What keeps a word from being a number."""
        if not word:
            return ["the number is missing"]
        if word[0] == "-" and word != "-":
            return ["there are no negative numbers"]
        if word[0] == "+":
            return ["a number has no sign", *self.tried(word[1:].encode())]
        if re.fullmatch(r"0X[0-9A-Fa-f]+", word):
            return ["the x of 0x is a small one", *self.tried(b"0x" + word[2:].encode())]
        if re.fullmatch(r"0+[0-9]+", word):
            return ["it has a leading zero", *self.tried((word.lstrip("0") or "0").encode())]
        if re.fullmatch(r"[0-9]+|0x[0-9A-Fa-f]+", word):
            return [self.why_out_of_range(word)]
        if re.fullmatch(r"[0-9A-Fa-f]+", word):
            return ["hexadecimal digits have 0x before them", *self.tried(b"0x" + word.encode())]
        if word == "self":
            calls = "NtCreateThread, NtTerminateThread, NtTerminateProcess and NtSetInformationProcess"
            return [f"the word self stands for the first handle of {calls} alone"]
        return ["it isn't made of digits alone"]

    def why_out_of_range(self, word):
        """What keeps a word of digits from being a number in its place."""
        if word.startswith("0x") and len(word) > 10:
            return "behind 0x stand more than 8 digits"
        if word.strip("0x") == "":
            return "0 is no process and no thread"
        return "it is too large"

    def of_hex(self):
        told = [f"expected here: {forms.HEX}"]
        digit = inputs.shown(self.line[self.place.begin : self.place.end])
        front = self.line[: self.place.begin]
        if self.probe.kind(front + b"00") != placing.HEX and re.fullmatch("[0-9A-Fa-f]", digit):
            alone = f"the digit {digit} has no other beside it: two digits are a byte"
            return [*told, alone, *self.tried(b"0" + digit.encode())]
        if digit in "xX" and front.endswith(b"0"):
            return [*told, "HEX has no 0x before it"]
        return [*told, f"{digit} is no hexadecimal digit", *self.text_meant()]

    def text_meant(self):
        """What the digits are where text stands in their place."""
        word = self.words[self.place.word]
        front, colon, text = word.rpartition(":")
        if len(re.sub("[0-9A-Fa-f]", "", text)) < 2:
            return []
        spelled = f"{front}{colon}{text.encode().hex()}"
        whole = placing.Place(*placing.spans_of(self.line)[self.place.word], self.place.word)
        return self.tried(spelled.encode(), whole, front="if text is meant, each of its bytes is two digits: ")

    def of_message(self):
        word = self.words[self.place.word]
        told = [f"expected here: {self.expected()}"]
        info = self.form[self.place.word] == "INFO"
        if info and word[:2] in ("m:", "r:"):
            return [*told, f"an INFO is no message: {word[:2]} doesn't stand there"]
        if re.match("[MDR]:", word):
            return told + self.tried(word[0].lower().encode() + self.line[self.place.begin + 1 : self.place.end])
        if re.fullmatch("([0-9A-Fa-f]{2})+", word):
            return told + self.tried(b"d:" + word.encode())
        if word.startswith("r:"):
            numbers, colon, _ = word[2:].partition(":")
            if not colon:
                return [*told, "behind the numbers of r: a colon is missing", *self.tried(word.encode() + b":")]
            count = numbers.count(".") + 1
            return [*told, f"between r: and the next colon stand three numbers parted by two dots, not {count}"]
        return told

    def of_sid(self):
        text = inputs.shown(self.line[self.place.begin : self.place.end])
        return [f"expected here: {SID}", *self.why_no_sid(text)]

    def why_no_sid(self, text):
        """What keeps a text from being the one spelling of a SID."""
        if re.fullmatch("s-1-.*", text):
            return self.tried(b"S" + text[1:].encode())
        numbers = text.split("-")[2:]
        if not text.startswith("S-1-") or not all(re.fullmatch("[0-9]+", it) for it in numbers):
            return ["a SID is S-1 and further numbers in decimal, a dash before each, and nothing else"]
        if any(re.match("0[0-9]", it) for it in numbers):
            plain = "-".join(["S-1", *(it.lstrip("0") or "0" for it in numbers)])
            return ["a number has a leading zero", *self.tried(plain.encode())]
        if len(numbers) == 1:
            return ["behind the authority stands no number"]
        if len(numbers) - 1 > MOST_SUBS:
            return [f"behind the authority stand {len(numbers) - 1} numbers; there may be {MOST_SUBS}"]
        return ["a number is too large"]

    def of_long(self):
        return [f"the line has {len(self.line)} bytes; a line has at most {placing.MOST_BYTES}", *self.other_ends()]

    def of_lines(self):
        count = f"the script has {len(self.lines)} lines; it may have {placing.MOST_LINES}"
        return [f"{count}, comments and empty lines among them"]

    # What they share.

    def expected(self):
        """What may stand in the place."""
        return forms.WORDS[self.form[self.place.word]][0] if self.place.word < len(self.form) else forms.FIRST

    def tried(self, other, place=None, name=None, front=""):
        """Tells what the program makes of the line with other bytes in the place; nothing where a fault stays there."""
        place = place or self.place
        line = placing.with_other(self.line, place, other)
        kind = self.probe.kind(line)
        name = name or inputs.cut(inputs.shown(other), 60)
        if kind is None:
            return [f"{front}with {name} there the line is well formed"]
        then = placing.place_of(self.probe, line, kind)
        if then and then.begin >= place.begin + len(other):
            return [f"{front}with {name} there this fault is gone, and the next one is of kind {kind}"]
        return []


def name_of(found):
    """What a byte, or the bytes of a character, are."""
    if len(found) == 1 and found[0] < 128:
        return BYTES.get(found[0], f"the control byte {found[0]}")
    try:
        character = found.decode("utf-8")
        name = unicodedata.name(character, "without a name")
        return f"the character {name} (U+{ord(character):04X}), {len(found)} bytes of UTF-8"
    except UnicodeDecodeError:
        return f"byte {found[0]}, no ASCII"
