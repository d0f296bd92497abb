"""`compare` looks at each part of a message: of every field of the header, and of the data, another value is told."""
import unittest

import support
from ntlpc_tool import differences, transcript

# The fields of the header as docs/SCRIPTS.md lays them out, each with the byte at which it begins, and the data.
PARTS = {
    "DataSize": 0,
    "MessageSize": 2,
    "type": 4,
    "VirtualRangesOffset": 6,
    "ClientId, process": 8,
    "ClientId, thread": 12,
    "MessageId": 16,
    "SectionSize": 20,
    "data": 24,
}
# A receive that takes a message whose bytes are all different, so that none can be taken for another.
MESSAGE = bytes(range(1, 26))


def read(message):
    """The transcript of a receive that is shown a message."""
    line = f"1 28 NtReplyWaitReceivePort 00000000 ctx=00000000 msg={message.hex()}\nend 1 1 0\n"
    return transcript.read(line.encode())


class Parts(unittest.TestCase):
    """One byte of the message differs."""

    def test_each_byte_of_a_message_is_compared(self):
        starts = sorted(PARTS.items(), key=lambda it: it[1])
        for at in range(len(MESSAGE)):
            other = bytes(byte ^ 0x80 if place == at else byte for place, byte in enumerate(MESSAGE))
            found = differences.between(read(MESSAGE), read(other))
            name = [part for part, start in starts if start <= at][-1]
            with self.subTest(byte=at):
                self.assertEqual(len(found), 1)
                self.assertIn(name, found[0].says)

    def test_equal_messages_do_not_differ(self):
        self.assertEqual(differences.between(read(MESSAGE), read(MESSAGE)), [])

    def test_the_parts_are_those_of_the_tool(self):
        self.assertEqual([it[0] for it in differences.HEADER], list(PARTS))


if __name__ == "__main__":
    unittest.main()
