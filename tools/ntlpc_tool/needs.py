"""Which calls and directives a script needs, and which ones a program says that it doesn't have."""
import re

from ntlpc_tool import forms, placing, script_lines

NAMES = (*forms.DIRECTIVES, *forms.CALLS)
MOST_THREAD = 2_147_483_647
NUMBER = re.compile(rb"0|[1-9][0-9]{0,9}|0x[0-9A-Fa-f]{1,8}")
STOP = re.compile(rb"(?:\A|\n)stop (\d{1,9}) (\d{1,9})\n\Z")
# The kinds of faults that are looked for before a line's words.
BEFORE_WORDS = (placing.BYTE, placing.LONG, placing.LINES)
# The kinds with which a program says that it knows no such word.
UNKNOWN = (placing.WORD, placing.CALL)


def in_order(found):
    """Names in the order of the pages."""
    return [it for it in NAMES if it in found]


def name_in(line):
    """The call or directive that a line names; None where it names none."""
    words = [it for it in line.split(b" ") if it]
    if not words or line.startswith(b"#"):
        return None
    if not words[0][:1].isdigit():
        return _known(words[0], forms.DIRECTIVES)
    thread = script_lines.number(words[0].decode()) if NUMBER.fullmatch(words[0]) else 0
    return _known(words[1], forms.CALLS) if len(words) > 1 and 1 <= thread <= MOST_THREAD else None


def _known(word, names):
    """A word as one of the names, None where it is none of them."""
    text = word.decode("latin-1")
    return text if text in names else None


def stop_of(transcript):
    """The line and the kind of fault with which a transcript stops; None where it doesn't."""
    found = STOP.search(transcript)
    return (int(found[1]), int(found[2])) if found else None


def of(script, transcript):
    """The calls and directives that a program has to know for a script, as its right transcript tells: what stands
    behind a faulty line isn't read, and neither are the words of a line whose fault is looked for before them."""
    line, kind = stop_of(transcript) or (None, None)
    lines = script.split(b"\n")[: line and line - (kind in BEFORE_WORDS)]
    return {it for it in map(name_in, lines) if it}


def unknown_at(script, transcript):
    """The call or directive at which a transcript stops since the program knows none of this name; else None."""
    line, kind = stop_of(transcript) or (0, None)
    lines = script.split(b"\n")
    name = name_in(lines[line - 1]) if 1 <= line <= len(lines) else None
    return name if name and kind == UNKNOWN[name in forms.CALLS] else None


def probe(name):
    """A script of one lawful line for a call or directive."""
    words = [forms.WORDS[it][1] for it in (forms.DIRECTIVES.get(name) or forms.CALLS[name]) if not it.startswith("[")]
    return " ".join([name, *words] if name in forms.DIRECTIVES else ["24", name, *words]).encode() + b"\n"


def not_built(replay):
    """The calls and directives that a program doesn't know; `replay` gives what it prints for a script."""
    found = []
    for name in NAMES:
        script = probe(name)
        if unknown_at(script, replay(script)):
            found.append(name)
    return found
