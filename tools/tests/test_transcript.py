"""The reader of transcripts. Each line was spelled by hand from docs/SCRIPTS.md, "The transcript"."""
import unittest

import support
from ntlpc_tool import pages, transcript

REPLY = "01001900020000001400000018000000010000000000000043"


def only(line):
    """The one entry of a transcript of one line."""
    return transcript.read(line.encode() + b"\n").entries[0]


class Entries(unittest.TestCase):
    def test_each_kind_has_its_parts(self):
        wanted = {
            "6 28 NtReplyPort 00000000": (6, "answer", 28, "NtReplyPort", "00000000", ()),
            "3 24 NtCreatePort 00000000 h=4": (3, "answer", 24, "NtCreatePort", "00000000", (("h", "4"),)),
            "4 24 NtRequestWaitReplyPort wait id=1": (4, "wait", 24, "NtRequestWaitReplyPort", None, (("id", "1"),)),
            "9 *28 NtListenPort c0000037": (9, "wake", 28, "NtListenPort", "c0000037", ()),
            "7 ~28 died c0000005": (7, "died", 28, None, "c0000005", ()),
            "9 28 busy": (9, "busy", 28, None, None, ()),
            "10 36 nothread": (10, "nothread", 36, None, None, ()),
            "1 - boot 00000000": (1, "directive", None, "boot", "00000000", ()),
        }
        for line, parts in wanted.items():
            with self.subTest(line):
                found = only(line)
                told = (found.line, found.kind, found.thread, found.call, found.status, found.fields)
                self.assertEqual(told, parts)
                self.assertEqual(found.raw, line)

    def test_fields_keep_their_order(self):
        found = only("8 *36 NtConnectPort 00000000 h=4 max=256 info=")
        self.assertEqual(found.fields, (("h", "4"), ("max", "256"), ("info", "")))
        self.assertEqual(found.field("info"), "")
        self.assertIsNone(found.field("msg"))

    def test_a_message_is_read(self):
        found = only(f"6 *24 NtRequestWaitReplyPort 00000000 msg={REPLY}").message()
        self.assertEqual((found.type, found.process, found.thread, found.message_id, found.data), (2, 20, 24, 1, b"C"))

    def test_the_fields_are_those_of_the_page(self):
        tables = pages.tables(pages.text_of("SCRIPTS.md"))
        rows = [rows for _, head, rows in tables if head[0] == "Field" and len(head) == 3]
        named = [row[0].strip("`") for it in rows for row in it]
        self.assertEqual(list(transcript.FIELDS), named)

    def test_the_kinds_are_those_of_the_page(self):
        rows = [rows for _, head, rows in pages.tables(pages.text_of("SCRIPTS.md")) if head[0] == "Entry"]
        self.assertEqual(list(transcript.KINDS), [row[0] for it in rows for row in it])


class LastLines(unittest.TestCase):
    def test_end_and_stop(self):
        self.assertEqual(transcript.read(b"end 0 0 0\n").closing.numbers, (0, 0, 0))
        found = transcript.read(b"1 - boot 00000000\nstop 4 5\n")
        self.assertEqual((found.closing.word, found.closing.numbers, len(found.entries)), ("stop", (4, 5), 1))

    def test_a_transcript_may_have_none(self):
        self.assertIsNone(transcript.read(b"1 - boot 00000000\n").closing)
        self.assertEqual(transcript.read(b""), transcript.Transcript((), None))


class MalformedLines(unittest.TestCase):
    def refused(self, data, number, words):
        """Holds that bytes are malformed at a line, and that the reason has these words."""
        with self.assertRaises(transcript.Malformed) as caught:
            transcript.read(data)
        self.assertEqual(caught.exception.number, number)
        self.assertIn(words, caught.exception.reason)

    def test_lines_of_no_form(self):
        wanted = {
            b"": "no word",
            b"hello": "it begins with `hello`",
            b"1  24 busy": "single spaces",
            b"1 24 busy ": "single spaces",
            b"1 24": "ends too soon",
            b"1 x busy": "`x`, which is no thread",
            b"01 24 busy": "no decimal number",
            b"0 24 busy": "outside 1 to",
            b"1000001 24 busy": "outside 1 to 1000000",
            b"1 0 busy": "outside 1 to 2147483647",
            b"1 2147483648 nothread": "outside 1 to 2147483647",
            b"1 24 NtCreatePort": "`NtCreatePort` has neither a status nor `wait`",
            b"1 *24 busy": "a star",
            b"1 *24 NtListenPort wait": "the status `wait`",
            b"1 24 NtCreatePort C0000035": "the status `C0000035`",
            b"1 24 NtCreatePort 0": "the status `0`",
            b"1 - boot wait": "the status `wait`",
            b"1 - boot 00000000 h=4": "has no field",
            b"1 24 busy h=4": "has no field",
            b"1 24 NtCreatePort 00000000 handle=4": "there is no field `handle`",
            b"1 24 NtCreatePort 00000000 h=4 h=8": "twice",
            b"1 24 NtCreatePort 00000000 h=04": "isn't a decimal number",
            b"1 24 NtCreatePort 00000000 h=4294967296": "outside 0 to 4294967295",
            b"1 24 NtCreatePort 00000000 h": "`h` is no field",
            b"1 24 NtReplyWaitReceivePort 00000000 ctx=7": "8 hexadecimal digits",
            b"1 24 NtListenPort 00000000 msg=0100": "at least 24 bytes",
            b"1 24 NtListenPort 00000000 msg=" + REPLY.encode() + b"4": "at least 24 bytes",
            b"1 *24 NtConnectPort c0000041 info=4E": "in lower case",
            b"1 24 died": "`LINE ~TID died STATUS`",
            b"1 ~24 died": "`LINE ~TID died STATUS`",
            b"1 ~- died 00000000": "`LINE ~TID died STATUS`",
            b"1 ~24 busy": "`LINE ~TID died STATUS`",
            b"1 ~24 NtClose 00000000": "`LINE ~TID died STATUS`",
            b"1 ~24 died 5": "isn't 8 hexadecimal digits",
            b"1 ~24 died 00000005 h=4": "has no field",
            b"1 ~~24 died 00000005": "no thread behind a star or a tilde",
            b"1 24 bus\xc3\xbf": "its byte 9 is 195",
            b"1 24\tbusy": "its byte 5 is 9",
            b"1 24 busy\r": "carriage return",
            b"end 1 1": "`end LINES ENTRIES OBJECTS`",
            b"stop 1": "`stop LINE KIND`",
            b"stop 1 x": "`stop LINE KIND`",
            b"9" * 5000 + b" 24 busy": "isn't a call",
        }
        for line, words in wanted.items():
            with self.subTest(line):
                self.refused(line + b"\n", 1, words)

    def test_the_number_is_that_of_the_transcripts_line(self):
        self.refused(b"1 - boot 00000000\n2 24 busy\nstop\n", 3, "stop LINE KIND")

    def test_nothing_stands_behind_the_last_line(self):
        self.refused(b"end 0 0 0\nend 0 0 0\n", 2, "behind the last line, `end 0 0 0`")

    def test_entries_stand_in_the_order_of_lines(self):
        self.refused(b"2 24 busy\n1 24 busy\n", 2, "of line 2 of the script")

    def test_each_line_ends_with_byte_10(self):
        self.refused(b"1 24 busy\nend 1 1 0", 2, "byte 10 is missing")

    def test_other_encodings_are_named(self):
        text = "1 24 busy\n"
        self.refused(text.encode("utf-16"), 1, "UTF-16")
        self.refused(b"\xfe\xff" + text.encode("utf-16-be"), 1, "UTF-16")
        self.refused(text.encode("utf-8-sig"), 1, "UTF-8")


class Waits(unittest.TestCase):
    def test_those_are_left_that_nothing_ended(self):
        text = b"1 24 NtListenPort wait\n2 28 NtListenPort wait\n3 28 busy\n"
        text += b"4 *24 NtListenPort c0000037\n4 *28 NtListenPort c0000037\n5 28 NtListenPort wait\n"
        self.assertEqual([it.raw for it in transcript.still_waiting(transcript.read(text))], ["5 28 NtListenPort wait"])


    def test_a_thread_that_died_waits_no_longer(self):
        text = b"1 24 NtListenPort wait\n2 28 NtListenPort wait\n3 ~32 died 00000001\n3 ~24 died 00000001\n"
        self.assertEqual([it.raw for it in transcript.still_waiting(transcript.read(text))], ["2 28 NtListenPort wait"])

    def test_who_waits_behind_each_line(self):
        text = b"1 28 NtListenPort wait\n2 24 NtListenPort wait\n4 32 NtClose 00000000\n4 *28 NtListenPort c0000037\n"
        found = transcript.waits_by_line(transcript.read(text))
        threads = {line: [it.thread for it in waits] for line, waits in found.items()}
        self.assertEqual(threads, {1: [28], 2: [28, 24], 4: [24]})
        self.assertEqual(transcript.still_waiting(transcript.read(b"end 0 0 0\n")), [])


class Examples(unittest.TestCase):
    def test_each_example_is_read(self):
        self.assertGreater(len(support.EXAMPLES), 9)
        for script in support.EXAMPLES:
            data = script.with_suffix(".transcript").read_bytes()
            found = transcript.read(data)
            again = [it.raw for it in (*found.entries, found.closing)]
            self.assertEqual("".join(f"{it}\n" for it in again), data.decode())


if __name__ == "__main__":
    unittest.main()
