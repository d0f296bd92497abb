"""Messages: a header of 24 bytes, low bytes first, and the data behind it (Windows NT's PORT_MESSAGE for 32 bits)."""
import dataclasses
import struct

TYPES = {
    0: "new message",
    1: "request",
    2: "reply",
    3: "datagram",
    4: "lost reply",
    5: "port closed",
    6: "client died",
    7: "exception",
    8: "debug event",
    9: "error event",
    10: "connection request",
}
REQUEST, DATAGRAM, PORT_CLOSED, CLIENT_DIED, CONNECTION_REQUEST = 1, 3, 5, 6, 10
# The messages that tell of an exception, and the data of one: the code, and the chance.
EXCEPTION, DEBUG_EVENT = 7, 8
EVENTS = (EXCEPTION, DEBUG_EVENT)
RAISED = struct.Struct("<II")
LAYOUT = struct.Struct("<HHHHIIII")
HEADER_SIZE = LAYOUT.size
RANGE = struct.Struct("<II")
COUNT_SIZE = 4


class Short(ValueError):
    """Bytes that are fewer than a header has."""


@dataclasses.dataclass(frozen=True)
class Message:
    """A message, lawful or not; the fields stand in the order of the header."""

    data_size: int
    message_size: int
    type: int
    ranges_offset: int
    process: int
    thread: int
    message_id: int
    section_size: int
    data: bytes

    @classmethod
    def read(cls, found):
        """The message that bytes are."""
        if len(found) < HEADER_SIZE:
            raise Short(f"{len(found)} bytes, fewer than a header has")
        return cls(*LAYOUT.unpack_from(found), bytes(found[HEADER_SIZE:]))

    @classmethod
    def of_data(cls, data, process=0, thread=0, message_id=0):
        """The message that a script spells `d:` and the data, or `r:` where a client and an identifier are given."""
        return cls(len(data), HEADER_SIZE + len(data), 0, 0, process, thread, message_id, 0, bytes(data))

    def to_bytes(self):
        """Header and data; the numbers have to fit their fields."""
        return LAYOUT.pack(*dataclasses.astuple(self)[:-1]) + self.data

    def type_name(self):
        """The name of the type, None where the number is no type."""
        return TYPES.get(self.type)

    def raised(self):
        """The code, 8 hexadecimal digits, and the chance of an event; None where it is none, or has other data."""
        if self.type not in EVENTS or len(self.data) != RAISED.size:
            return None
        code, chance = RAISED.unpack(self.data)
        return f"{code:08x}", chance

    def ranges(self):
        """The pairs of base and size in the range table; None where a table is told of that doesn't lie in the data."""
        if not self.ranges_offset:
            return ()
        at = self.ranges_offset - HEADER_SIZE
        if at < 0 or at + COUNT_SIZE > len(self.data):
            return None
        count = int.from_bytes(self.data[at : at + COUNT_SIZE], "little")
        table = self.data[at + COUNT_SIZE :][: count * RANGE.size]
        return tuple(RANGE.iter_unpack(table)) if len(table) == count * RANGE.size else None


def in_words(digits):
    """The header and the data of a message in words, or what keeps them from being told."""
    try:
        it = Message.read(bytes.fromhex(digits))
    except Short as short:
        return str(short)
    except ValueError:
        return "no hexadecimal digits"
    words = [
        f"DataSize {it.data_size}",
        f"MessageSize {it.message_size}",
        f"type {it.type} ({it.type_name() or 'no type'})",
        f"ClientId {it.process}.{it.thread}",
        f"MessageId {it.message_id}",
        f"SectionSize {it.section_size}",
        f"data {it.data.hex() or 'none'}",
    ]
    if it.ranges_offset:
        words.insert(3, f"VirtualRangesOffset {it.ranges_offset}")
    return ", ".join(words)
