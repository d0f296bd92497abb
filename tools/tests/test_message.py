"""Messages and the names of statuses. The bytes were spelled by hand from docs/SCRIPTS.md, "Messages"."""
import unittest

import support
from ntlpc_tool import message, pages, statuses

# DataSize 1, MessageSize 25, type 2, no table, client 20.24, MessageId 1, SectionSize 0, and the byte 43.
REPLY = bytes.fromhex("0100" "1900" "0200" "0000" "14000000" "18000000" "01000000" "00000000" "43")
# 12 bytes of data, all a table at 24: one entry, base 0x10000, size 16.
RANGES = bytes.fromhex("0c00" "2400" "0100" "1800" "20000000" "24000000" "02000000" "00000000")
RANGES += bytes.fromhex("01000000" "00000100" "10000000")


class Messages(unittest.TestCase):
    def test_the_fields_of_a_header(self):
        found = message.Message.read(REPLY)
        self.assertEqual(found, message.Message(1, 25, 2, 0, 20, 24, 1, 0, b"C"))
        self.assertEqual(found.type_name(), "reply")
        self.assertEqual(found.to_bytes(), REPLY)

    def test_low_bytes_come_first(self):
        found = message.Message.read(bytes(range(24)))
        self.assertEqual((found.data_size, found.type, found.process), (0x0100, 0x0504, 0x0B0A0908))
        self.assertIsNone(found.type_name())

    def test_fewer_bytes_than_a_header(self):
        with self.assertRaises(message.Short):
            message.Message.read(bytes(23))

    def test_the_forms_of_a_script(self):
        self.assertEqual(message.Message.of_data(b"AB").to_bytes(), bytes.fromhex("02001a00") + bytes(20) + b"AB")
        wanted = "01001900" "00000000" "14000000" "18000000" "01000000" "00000000" "43"
        self.assertEqual(message.Message.of_data(b"C", 20, 24, 1).to_bytes(), bytes.fromhex(wanted))

    def test_ranges(self):
        self.assertEqual(message.Message.read(REPLY).ranges(), ())
        self.assertEqual(message.Message.read(RANGES).ranges(), ((0x10000, 16),))
        self.assertIsNone(message.Message.read(RANGES[:-1]).ranges())
        self.assertIsNone(message.Message.read(RANGES[:6] + b"\x17\0" + RANGES[8:]).ranges())

    def test_a_message_in_words(self):
        wanted = "DataSize 1, MessageSize 25, type 2 (reply), ClientId 20.24, MessageId 1, SectionSize 0, data 43"
        self.assertEqual(message.in_words(REPLY.hex()), wanted)
        self.assertIn("VirtualRangesOffset 24, ClientId 32.36", message.in_words(RANGES.hex()))
        self.assertEqual(message.in_words("0102"), "2 bytes, fewer than a header has")
        self.assertEqual(message.in_words("012"), "no hexadecimal digits")


class Names(unittest.TestCase):
    def test_the_statuses_are_those_of_the_page(self):
        found = {}
        for _, head, rows in pages.tables(pages.text_of("SERVICES.md")):
            if head == ["Status", "Name", "Status", "Name"]:
                for row in rows:
                    found.update({number.lower(): name for number, name in (row[:2], row[2:]) if number})
        self.assertEqual(found, statuses.PROFILE)
        self.assertFalse(set(statuses.PROFILE) & set(statuses.OTHERS))

    def test_a_status_with_its_name(self):
        self.assertEqual(statuses.with_name("c000021f"), "c000021f REPLY_MESSAGE_MISMATCH")
        self.assertIsNone(statuses.name_of("c0001234"))


if __name__ == "__main__":
    unittest.main()
