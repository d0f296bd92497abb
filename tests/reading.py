"""Reads lines of scripts as the definitions of the grammar say, with their numbers: what the fault of a line is, by its
kind. It is held against the scripts of the suite by tests/told_scripts.py, so that what it says of others counts."""
import functools
import re

import definitions
import pages  # (it finds the tools)

from ntlpc_tool import forms

PAIRS = re.compile(r"(?:[0-9A-Fa-f]{2})*")


class Fault(Exception):
    """The first fault of a line, by its name in the definitions."""


@functools.cache
def bounds():
    """The numbers of the grammar, by names."""
    text, sids = (definitions.text_of(it, "specs", "antt") for it in ("lpc_model", "lpc_sid"))
    tokens = definitions.text_of("lpc_tokens", "src", "rt")
    one = lambda pattern, place: int(re.search(pattern, place, re.M)[1])
    return {
        "highest": one(r"nat_le \(digits_value base digits\) (\d+)$", text),
        "digits": one(r"is_empty digits \|\| nat_lt (\d+) \(length digits\)", text),
        "number": one(r"^is_id n = nat_le 1 n && nat_le n (\d+)$", text),
        "level": definitions.Levels().most,
        "entries": one(r"nat_lt (\d+) \(length \(entry_texts text\)\)", text),
        "groups": one(r"nat_le \(length others\) (\d+) then Ok \(a, b, others\)", text),
        "name": one(r"^pub const TOKEN_NAME_LIMIT: usize = (\d+);$", tokens),
        "parts": one(r"^are_words ns = nat_le \(length ns\) (\d+) ", sids),
        "part": one(r"every \(λ n\. nat_lt n \(2 \^ (\d+)\)\) ns", sids),
        "authority": one(r"nat_lt sid\.authority \(2 \^ (\d+)\)", sids),
        "line": definitions.profile()[0]["LINE_LIMIT"],
    }


def fault_if(test, name):
    """A fault where a test holds."""
    if test:
        raise Fault(name)


def number(word, lowest=0, highest=None):
    """A Number: decimal, or with `0x` in front; at most `highest`."""
    decimal = re.fullmatch(r"0|[1-9][0-9]*", word)
    digits = re.fullmatch(rf"0x([0-9A-Fa-f]{{1,{bounds()['digits']}}})", word)
    fault_if(not decimal and not digits, "Number")
    value = int(word) if decimal else int(digits[1], 16)
    fault_if(not lowest <= value <= (bounds()["highest"] if highest is None else highest), "Number")


def hexadecimal(word):
    """Pairs of hexadecimal digits."""
    fault_if(not PAIRS.fullmatch(word), "Hex")


def message(word):
    """MSG."""
    if word[:2] in ("m:", "d:"):
        return hexadecimal(word[2:])
    fault_if(word[:2] != "r:", "Message")
    front, colon, data = word[2:].partition(":")
    fault_if(not colon or front.count(".") != 2, "Message")
    for part in front.split("."):
        number(part)
    return hexadecimal(data)


def info(word):
    """INFO."""
    if word != "-":
        fault_if(word[:2] != "d:", "Message")
        hexadecimal(word[2:])


def quality(word):
    """QOS."""
    if word != "-":
        parts = word[2:].split(":")
        fault_if(word[:2] != "q:" or len(parts) != 2 or parts[1] not in ("s", "d"), "Word")
        number(parts[0], highest=bounds()["level"])


def view(word):
    """VIEW."""
    if word != "-":
        parts = word[2:].split(":")
        fault_if(word[:2] != "w:" or len(parts) != 3, "Word")
        for part in parts:
            number(part)


def sid(word):
    """A SID."""
    found = re.fullmatch(r"S-1-(0|[1-9]\d*)((?:-(?:0|[1-9]\d*))+)", word)
    fault_if(not found or int(found[1]) >= 2 ** bounds()["authority"], "Sid")
    parts = found[2][1:].split("-")
    fault_if(len(parts) > bounds()["parts"] or any(int(it) >= 2 ** bounds()["part"] for it in parts), "Sid")


def access_list(word):
    """DACL: the forms of all entries come first."""
    fault_if(word[:4] != "acl:", "Word")
    entries = [it.split("/") for it in word[4:].split(",")] if word[4:] else []
    fault_if(len(entries) > bounds()["entries"], "Word")
    fault_if(any(len(it) != 3 or it[0] not in ("A", "D") for it in entries), "Word")
    for _, mask, who in entries:
        number(mask)
        sid(who)


def token(word):
    """The name of a token."""
    fault_if(not re.fullmatch(rf"[0-9A-Za-z_]{{1,{bounds()['name']}}}", word), "Word")


def any_word(word):
    """A word that may be any."""


READERS = {
    "PID": lambda word: number(word, 1, bounds()["number"]),
    "TID": lambda word: number(word, 1, bounds()["number"]),
    "HEX": hexadecimal, "MSG": message, "[MSG]": message, "INFO": info, "QOS": quality, "VIEW": view,
    "[DACL]": access_list, "TOKEN": token, "[TOKEN]": token, "USER": sid, "[GROUP]": sid,
    "NAME": any_word, "PATH": any_word, "TARGET": any_word,
}
NUMBERS = ("H", "PORT", "CODE", "CTX", "SIZE", "OFFSET", "ADDRESS", "INDEX", "LEN", "PROT", "CLASS")


def word_of(form, word):
    """Reads a word where a form has this one."""
    if form in READERS:
        READERS[form](word)
    elif form in NUMBERS:
        number(word)
    elif form in ("H|self", "ACCESS|same"):
        if word != form.partition("|")[2]:
            number(word)
    else:
        fault_if(word not in form.split("|"), "Word")


def words_of(form, words):
    """Reads the words behind the name of a call or a directive."""
    least = len([it for it in form if not it.startswith("[")])
    fault_if(not least <= len(words) <= len(form), "Count")
    for it, word in zip(form, words):
        word_of(it, word)


def line_of(line):
    """Reads a line."""
    fault_if(len(line) > bounds()["line"], "Long")
    if line.startswith("#"):
        return
    fault_if(any(not 32 <= ord(it) <= 126 for it in line), "Byte")
    words = line.split()
    if words and words[0][0].isdigit():
        READERS["TID"](words[0])
        fault_if(len(words) < 2, "Count")
        fault_if(words[1] not in forms.CALLS, "Call")
        words_of(forms.CALLS[words[1]], words[2:])
    elif words:
        fault_if(words[0] not in forms.DIRECTIVES, "Word")
        words_of(forms.DIRECTIVES[words[0]], words[1:])


@functools.cache
def kinds():
    """The numbers of the faults, by their names."""
    return definitions.fault_kinds()


def kind_of(line):
    """The kind of a line's first fault, 0 where it has none. Each byte is one character."""
    try:
        line_of(line)
    except Fault as fault:
        return kinds()[str(fault)]
    return 0
