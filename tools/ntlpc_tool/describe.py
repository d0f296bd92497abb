"""How an entry of a transcript, its fields and its message are told in words, a list of lines each."""
import struct

from ntlpc_tool import message, statuses

ROW = 16
# The data of a message that tells of an end: a birth, which is a maker and a number.
BIRTH = struct.Struct("<II")
USE_RIGHT = 1
# The rights of a handle to a section, by what they let a view be.
MAP_RIGHTS = {2: "to be written", 4: "to be read alone"}
LATIN = 0x100
# The fields that show a number: what the number is.
NUMBERS = {
    "h": "handle",
    "thread": "handle of its thread",
    "id": "identifier",
    "max": "longest message",
    "size": "size",
    "vsize": "size of it",
    "handles": "handles",
    "pointers": "rows that count",
}
# The fields that show where a view lies.
BASES = {"base": "first address", "target": "at the other side", "vbase": "the other's view"}
# The impersonation levels, and SIDs that stand for the same on each system.
LEVELS = {"0": "anonymous", "1": "identification", "2": "impersonation", "3": "delegation"}
WELL_KNOWN = {"S-1-1-0": "everyone", "S-1-5-18": "the local system", "S-1-5-32-544": "the administrators"}
# The chances of an exception, as the data of an event tell them.
CHANCES = {1: "the first chance", 2: "the second chance"}
LABEL = 19


def counted(number, word):
    """A number and what it counts: `1 line`, `2 lines`, `0 entries`."""
    if number == 1:
        return f"1 {word}"
    return f"{number} {word[:-1]}ies" if word.endswith("y") else f"{number} {word}s"


def encoding_of(data):
    """How bytes spell text: `ascii` or `utf-16-le`, perhaps with zeros behind it; None where they spell none.

    Some numbers spell characters too. So UTF-16 has to have two characters at least, and half of them Latin.
    """
    plain = data.rstrip(b"\0")
    if plain and all(32 <= it <= 126 for it in plain):
        return "ascii"
    try:
        text = data.decode("utf-16-le").rstrip("\0")
    except UnicodeDecodeError:
        return None
    latin = sum(ord(it) < LATIN for it in text)
    return "utf-16-le" if len(text) > 1 and text.isprintable() and 2 * latin >= len(text) else None


def text_of(data):
    """The text that bytes spell, None where they spell none."""
    encoding = encoding_of(data)
    return data.decode(encoding).rstrip("\0") if encoding else None


def of_entry(found):
    """An entry in words: who, which call, and how it went; then its fields."""
    who = "directive" if found.thread is None else f"thread {found.thread}"
    if found.kind == "busy":
        return [f"{who} is busy: it waits in an earlier call, so this line has no effect"]
    if found.kind == "nothread":
        return [f"{who} isn't there: no live thread has this number, so this line has no effect"]
    if found.kind == "wait":
        head = f"{who} waits in {found.call}"
    elif found.kind == "died":
        head = f"{who} died, with the code {statuses.code_with_name(found.status)}"
    elif found.kind == "wake":
        head = f"{who} wakes from {found.call}: {statuses.with_name(found.status)}"
    else:
        head = f"{who} {found.call}: {statuses.with_name(found.status)}"
    return [head, *(f"    {line}" for name, value in found.fields for line in of_field(found, name, value))]


def of_field(found, name, value):
    """A field of an entry in words."""
    if name == "msg":
        return of_message(found.message())
    if name in ("info", "data"):
        return of_data(bytes.fromhex(value), name)
    if name in BASES:
        return [_row(BASES[name], value)]
    if name == "ctx":
        return [_row("context", f"{value} ({int(value, 16)})")]
    if name == "access":
        return [_row("access", f"{value}, {_rights(int(value, 16), found.field('type') or 'object')}")]
    if name == "type":
        return [_row("kind of object", value)]
    if name in ("user", "groups"):
        sids = value.split(",") if value else []
        return [_row(name if not at else "", _sid(it)) for at, it in enumerate(sids)] or [_row(name, "none")]
    if name == "level":
        return [_row("level", f"{value} ({LEVELS[value]})" if value in LEVELS else value)]
    return [_row(NUMBERS[name], f"{value} bytes with its header" if name == "max" else value)]


def _sid(text):
    """A SID, and what it stands for where that is known."""
    return f"{text} ({WELL_KNOWN[text]})" if text in WELL_KNOWN else text


def _rights(access, kind):
    """Which of the rights that calls want a handle grants."""
    if kind == "section":
        granted = [name for right, name in MAP_RIGHTS.items() if access & right]
        return f"with the right to map views {' and '.join(granted)}" if granted else "without a right to map views"
    return f"{'with' if access & USE_RIGHT else 'without'} the right to use the {kind}"


def of_message(found):
    """A message in words: its header field by field, then its data."""
    rows = [
        _row("DataSize", found.data_size),
        _row("MessageSize", found.message_size),
        _row("type", f"{found.type} ({found.type_name() or 'no type'})"),
        _row("VirtualRangesOffset", f"{found.ranges_offset}{'' if found.ranges_offset else ' (no range table)'}"),
    ]
    if found.ranges_offset:
        rows += _ranges(found.ranges())
    rows += [
        _row("ClientId", f"{found.process}.{found.thread} (process {found.process}, thread {found.thread})"),
        _row("MessageId", found.message_id),
        _row("SectionSize", found.section_size),
    ]
    rows += of_data(found.data, "data")
    if found.type in (message.PORT_CLOSED, message.CLIENT_DIED) and len(found.data) == BIRTH.size:
        rows.append(_row("", f"({_of_birth(found, *BIRTH.unpack(found.data))})"))
    if found.raised():
        rows.append(_row("", f"({_of_exception(found, *found.raised())})"))
    return ["message", *(f"  {it}" for it in rows)]


def _of_birth(found, maker, number):
    """What the data of an end tell: who made the port or the thread, and as which of all things that it made."""
    if found.type == message.PORT_CLOSED:
        return f"thread {maker}, the port that it made as number {number}"
    if maker:
        return f"thread {found.thread} died, which thread {maker} made as number {number}"
    return f"thread {number} died"


def _of_exception(found, code, chance):
    """What the data of an event tell: who raised what, and which chance this is."""
    return f"thread {found.thread} raised {statuses.code_with_name(code)}; {CHANCES.get(chance, f'chance {chance}')}"


def of_data(found, label):
    """Bytes as rows of hexadecimal digits, with the text beside them where they are text."""
    if not found:
        return [_row(label, "none")]
    encoding, rows = encoding_of(found), []
    for at in range(0, len(found), ROW):
        part = found[at : at + ROW]
        beside = part.decode(encoding, "replace").rstrip("\0") if encoding else ""
        digits = part.hex(" ").ljust(3 * min(len(found), ROW) + 1)
        rows.append(_row(label if not at else "", f'{digits}"{beside}"' if beside else digits.rstrip()))
    return rows


def _ranges(found):
    if found is None:
        return ["  the range table doesn't lie in the data"]
    return [f"  range {number}: base {base:08x}, size {size}" for number, (base, size) in enumerate(found)]


def _row(label, value):
    return f"{label:{LABEL}} {value}"
