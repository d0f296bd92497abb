"""Stands in for a program with handles and identifiers of its own: the program ntlpc, with others in their place.

    python3 renamed.py PROGRAM replay

The handle 4 is 112 here, 8 is 124, and so on; the identifier 1 is 1001. Any other value names nothing.
"""
import re
import subprocess
import sys

import support
from ntlpc_tool import forms, message, placing

HANDLE = re.compile(r" (h|thread)=(\d+)")
IDENTIFIER = re.compile(r" id=(\d+)")
SHOWN = re.compile(r" msg=([0-9a-f]+)")
NONE = 0xFFFFFFF1
MESSAGE_ID = slice(16, 20)


def handle_in(value):
    """The program's handle for one of these."""
    return (value - 100) // 3 if value > 100 and (value - 100) % 12 == 0 else NONE


def identifier_in(value):
    """The program's identifier for one of these; a thread's end has 0."""
    return value - 1000 if value > 1000 else 0 if value == 0 else NONE


def with_identifier(data, change):
    """The bytes of a message with another identifier, where there is one."""
    if len(data) < message.HEADER_SIZE:
        return data
    found = bytearray(data)
    found[MESSAGE_ID] = change(int.from_bytes(data[MESSAGE_ID], "little")).to_bytes(4, "little")
    return bytes(found)


def word_in(word, kind):
    """A word of a line as the program takes it; what is out of form stays."""
    if kind in ("H", "H|self", "PORT") and re.fullmatch(r"0|[1-9]\d{0,9}|0x[0-9A-Fa-f]{1,8}", word):
        value = int(word, 0)
        return str(handle_in(value)) if value < 1 << 32 else word
    view = re.fullmatch(r"w:([^:]*)(:[^:]*:[^:]*)", word)
    if kind == "VIEW" and view:
        return f"w:{word_in(view[1], 'H')}{view[2]}"
    found = re.fullmatch(r"r:(\w+\.\w+)\.(0|[1-9]\d{0,9}|0x[0-9A-Fa-f]{1,8}):(.*)", word)
    if kind in ("MSG", "[MSG]") and found and int(found[2], 0) < 1 << 32:
        return f"r:{found[1]}.{identifier_in(int(found[2], 0))}:{found[3]}"
    if kind in ("MSG", "[MSG]") and re.fullmatch("m:(?:[0-9A-Fa-f]{2})*", word):
        return f"m:{with_identifier(bytes.fromhex(word[2:]), identifier_in).hex()}"
    return word


def line_in(line):
    """A line of the script as the program takes it. Spaces are lost, so a line that is too long stays."""
    words = [it for it in line.split(" ") if it]
    form = forms.of_words(words)
    if line.startswith("#") or not 1 <= len(words) <= len(form) or words[0] in forms.DIRECTIVES:
        return line
    if len(line) > placing.MOST_BYTES:
        return line
    return " ".join(word_in(word, kind) for word, kind in zip(words, form))


def line_out(line):
    """A line of the transcript with these handles and identifiers."""
    line = HANDLE.sub(lambda found: f" {found[1]}={100 + 3 * int(found[2])}", line)
    line = IDENTIFIER.sub(lambda found: f" id={1000 + int(found[1])}", line)

    def shown(found):
        data = bytes.fromhex(found[1])
        return f" msg={with_identifier(data, lambda value: value and value + 1000).hex()}"

    return SHOWN.sub(shown, line)


def main(program):
    script = sys.stdin.buffer.read().decode("latin-1")
    script = "\n".join(map(line_in, script.split("\n")))
    ran = subprocess.run([program, "replay"], input=script.encode("latin-1"), stdout=subprocess.PIPE)
    sys.stdout.write("".join(map(line_out, ran.stdout.decode("latin-1").splitlines(True))))
    return ran.returncode


if __name__ == "__main__":
    sys.exit(main(sys.argv[1]))
