"""The words `show` and `json`. What they have to say was worked by hand from the page's examples."""
import json
import unittest

import support
from ntlpc_tool import describe, faults, pages

# A wait, a wake with a message, a busy thread, a thread that is none, a refusal, and a wait that stays.
SCRIPT = b"""boot 20 24
24 NtListenPort 4
24 NtReplyWaitReceivePort 4
99 NtClose 4
28 NtClose 8
24 NtReplyWaitReceivePort 4
"""
TRANSCRIPT = b"""1 - boot 00000000
2 24 NtListenPort wait
2 *24 NtListenPort 00000000 msg=02001a000a000000200000002400000001000000000000004869
3 24 NtReplyWaitReceivePort wait
4 99 nothread
5 28 NtClose c0000008
6 24 busy
end 6 7 3
"""
SHOWN = """\
line 1: boot 20 24
    directive boot: 00000000 SUCCESS
line 2: 24 NtListenPort 4
    thread 24 waits in NtListenPort
    thread 24 wakes from NtListenPort: 00000000 SUCCESS
        message
          DataSize            2
          MessageSize         26
          type                10 (connection request)
          VirtualRangesOffset 0 (no range table)
          ClientId            32.36 (process 32, thread 36)
          MessageId           1
          SectionSize         0
          data                48 69  "Hi"
line 3: 24 NtReplyWaitReceivePort 4
    thread 24 waits in NtReplyWaitReceivePort
line 4: 99 NtClose 4
    thread 99 isn't there: no live thread has this number, so this line has no effect
line 5: 28 NtClose 8
    thread 28 NtClose: c0000008 INVALID_HANDLE
line 6: 24 NtReplyWaitReceivePort 4
    thread 24 is busy: it waits in an earlier call, so this line has no effect
end: lines read 6, entries printed 7, objects left 3
thread 24 still waits in NtReplyWaitReceivePort, since line 3
    24 NtReplyWaitReceivePort 4
"""


class Show(support.WithFolder):
    def test_a_transcript_with_its_script(self):
        ran = support.run("show", "-", "--script", self.file("s", SCRIPT), source=TRANSCRIPT)
        self.assertEqual((ran.returncode, ran.stderr, ran.stdout), (0, "", SHOWN))

    def test_a_transcript_alone(self):
        told = support.run("show", source=TRANSCRIPT).stdout.splitlines()
        self.assertEqual(told[0], "line 1     directive boot: 00000000 SUCCESS")
        self.assertEqual(told[2], "line 2     thread 24 wakes from NtListenPort: 00000000 SUCCESS")
        self.assertEqual(told[-1], "thread 24 still waits in NtReplyWaitReceivePort, since line 3")

    def test_fields_of_a_query_and_of_a_connect(self):
        text = b"1 24 NtQueryObject 00000000 type=port access=001f0000 handles=2 pointers=3\n"
        text += b"2 *36 NtConnectPort 00000000 h=4 max=256 info=4f4b\n"
        told = [" ".join(it.split()) for it in support.run("show", source=text).stdout.splitlines()]
        self.assertEqual(
            told,
            [
                "line 1 thread 24 NtQueryObject: 00000000 SUCCESS",
                "kind of object port",
                "access 001f0000, without the right to use the port",
                "handles 2",
                "rows that count 3",
                "line 2 thread 36 wakes from NtConnectPort: 00000000 SUCCESS",
                "handle 4",
                "longest message 256 bytes with its header",
                'info 4f 4b "OK"',
                "the transcript has no last line: the run didn't come to its end",
                "no thread waits",
            ],
        )

    def test_fields_of_views(self):
        text = b"1 24 NtAcceptConnectPort 00000000 h=8 base=00010000 target=00020000 vbase=00030000 vsize=4096\n"
        told = [" ".join(it.split()) for it in support.run("show", source=text).stdout.splitlines()]
        wanted = [
            "handle 8",
            "first address 00010000",
            "at the other side 00020000",
            "the other's view 00030000",
            "size of it 4096",
        ]
        self.assertEqual(told[1:6], wanted)

    def test_fields_of_tokens(self):
        text = (
            b"1 24 NtQueryInformationToken 00000000 user=S-1-5-18\n"
            b"2 24 NtQueryInformationToken 00000000 groups=S-1-5-32-544,S-1-5-21-7\n"
            b"3 24 NtQueryInformationToken 00000000 groups=\n"
            b"4 24 NtQueryInformationToken 00000000 level=2\n"
        )
        told = [" ".join(it.split()) for it in support.run("show", source=text).stdout.splitlines()]
        self.assertEqual(
            [it for it in told if it and "NtQuery" not in it][:5],
            [
                "user S-1-5-18 (the local system)",
                "groups S-1-5-32-544 (the administrators)",
                "S-1-5-21-7",
                "groups none",
                "level 2 (impersonation)",
            ],
        )

    def test_a_range_table(self):
        head = "0c002400010018002000000024000000020000000000000"
        text = f"1 24 NtListenPort 00000000 msg={head}00100000000000100{10:02x}000000\n".encode()
        self.assertIn("range 0: base 00010000, size 10", support.run("show", source=text).stdout)

    def test_the_end_of_a_client_port(self):
        data = "2400000001000000"
        head = "0800200005000000200000002400000001000000"
        text = f"1 24 NtReplyWaitReceivePort 00000000 ctx=00000007 msg={head}{data:0>24}\n"
        told = support.run("show", source=text.encode()).stdout
        self.assertIn("type                5 (port closed)", told)
        self.assertIn("(thread 36, the port that it made as number 1)", told)

    def test_an_exception(self):
        head = "0800200008000000200000002400000001000000" + "00" * 4
        text = f"1 24 NtReplyWaitReceivePort 00000000 ctx=00000000 msg={head}940000c001000000\n2 ~36 died c0000094\n"
        told = support.run("show", source=f"{text}3 *40 raise 00010002\n4 *44 raise 00000000\n".encode()).stdout
        self.assertIn("type                8 (debug event)", told)
        self.assertIn("(thread 36 raised c0000094 INTEGER_DIVIDE_BY_ZERO; the first chance)", told)
        self.assertIn("thread 36 died, with the code c0000094 INTEGER_DIVIDE_BY_ZERO", told)
        self.assertIn("thread 40 wakes from raise: 00010002 DBG_CONTINUE", told)
        self.assertIn("thread 44 wakes from raise: 00000000 SUCCESS", told)

    def test_an_event_with_other_data_is_shown_as_it_is(self):
        head = "0400200007000000200000002400000001000000" + "00" * 4
        told = support.run("show", source=f"1 24 NtListenPort 00000000 msg={head}01020304\n".encode()).stdout
        self.assertIn("type                7 (exception)", told)
        self.assertNotIn("raised", told)

    def test_a_file_that_is_not_its_script_is_refused(self):
        transcript = support.ROOT / "examples" / "first-request.transcript"
        ran = support.run("show", "--script", self.file("binary", bytes(range(256)) * 9), transcript)
        self.assertEqual((ran.returncode, ran.stdout), (2, ""))
        told = "is not the script of this transcript: line 1 has an entry there, and has a byte outside 32 to 126\n"
        self.assertTrue(ran.stderr.startswith("ntlpc-tool show: ") and ran.stderr.endswith(told), ran.stderr)

    def test_a_faulty_line_is_named(self):
        told = support.run("show", source=b"1 - boot 00000000\nstop 4 5\n").stdout
        self.assertIn("stop: line 4 is faulty, kind 5: a number out of form or range", told)

    def test_each_example_is_readable(self):
        for script in support.EXAMPLES:
            ran = support.run("show", script.with_suffix(".transcript"), "--script", script)
            self.assertEqual((ran.returncode, ran.stderr), (0, ""))
            self.assertLessEqual(max(map(len, ran.stdout.splitlines())), 100, script)

    @support.needs_program
    def test_each_example_is_run(self):
        for script in support.EXAMPLES:
            wanted = support.run("show", script.with_suffix(".transcript"), "--script", script)
            self.assertEqual(support.run("show", "--script", script).stdout, wanted.stdout)

    def test_a_program_that_fails_is_told(self):
        fake = self.file("fake", b"#!/bin/sh\necho 1 - boot 00000000\nexit 5\n")
        support.pathlib.Path(fake).chmod(0o755)
        ran = support.run("show", "--script", self.file("s", SCRIPT), "--program", fake)
        self.assertEqual(ran.returncode, 2)
        self.assertIn("status 5: memory ran out", ran.stderr)
        self.assertIn("no last line", ran.stdout)


class Deaths(support.WithFolder):
    TRANSCRIPT = b"""1 24 NtReplyWaitReceivePort wait
2 ~36 died c0000005
2 ~40 died 00000007
2 *24 NtReplyWaitReceivePort 00000000 ctx=00000007 msg=%s
end 2 4 3
"""
    DIED = b"0800200006000000200000002400000000000000000000000000000024000000"

    def test_threads_that_die_are_told_with_their_codes(self):
        told = support.run("show", source=self.TRANSCRIPT % self.DIED).stdout.splitlines()
        self.assertEqual(told[1], "line 2     thread 36 died, with the code c0000005 ACCESS_VIOLATION")
        self.assertEqual(told[2], "line 2     thread 40 died, with the code 00000007")
        shown = [it.strip() for it in told]
        self.assertIn("type                6 (client died)", shown)
        self.assertIn("(thread 36 died)", shown)
        self.assertEqual(shown[-1], "no thread waits")

    def test_a_thread_that_a_call_made_is_told_with_its_maker(self):
        died = b"08002000060000002000000024000000000000000000000018000000" + b"02000000"
        told = [it.strip() for it in support.run("show", source=self.TRANSCRIPT % died).stdout.splitlines()]
        self.assertIn("(thread 36 died, which thread 24 made as number 2)", told)

    def test_what_makes_and_names_processes_is_told(self):
        text = b"1 24 NtCreateProcess 00000000 h=4 thread=8\n"
        text += b"2 24 NtQueryObject 00000000 type=process access=00000001 handles=1 pointers=2\n"
        told = [" ".join(it.split()) for it in support.run("show", source=text).stdout.splitlines()]
        self.assertEqual(told[1:3], ["handle 4", "handle of its thread 8"])
        self.assertEqual(told[4:6], ["kind of object process", "access 00000001, with the right to use the process"])
        lines = support.run("json", source=text).stdout.splitlines()
        self.assertEqual(json.loads(lines[0])["fields"], {"h": 4, "thread": 8})

    def test_json_has_the_code_as_the_status(self):
        lines = support.run("json", source=self.TRANSCRIPT % self.DIED).stdout.splitlines()
        wanted = {"line": 2, "kind": "died", "thread": 40, "call": None, "status": "00000007"}
        found = json.loads(lines[2])
        self.assertEqual({key: found[key] for key in wanted}, wanted)
        self.assertEqual((found["status_name"], found["fields"]), (None, {}))


class Text(unittest.TestCase):
    def test_what_is_text(self):
        wanted = {
            b"AB": "AB",
            b"AB\0": "AB",
            b"A": "A",
            b"A\0B\0": "AB",
            b"A\0B\0\0\0": "AB",
            "\u00c4\u00dc".encode("utf-16-le"): "\u00c4\u00dc",
            b"": None,
            b"\0\0": None,
            b"A\0": "A",
            b"a\0\0\0": "a",
            b"\x05\0\x01\0": None,
            b"\0A": None,
            b"$\0\0\0\x01\0\0\0": None,
            "\u4e2d\u6587".encode("utf-16-le"): None,
        }
        for data, text in wanted.items():
            self.assertEqual(describe.text_of(data), text, data)

    def test_long_data_has_rows_of_16_bytes(self):
        rows = describe.of_data("abcdefghi".encode("utf-16-le"), "data")
        self.assertEqual([it.split('"')[1] for it in rows], ["abcdefgh", "i"])
        self.assertEqual(rows[0].split("  ")[0], "data")
        self.assertIn("61 00 62 00 63 00 64 00 65 00 66 00 67 00 68 00  ", rows[0])


class Faults(unittest.TestCase):
    def test_the_kinds_are_those_of_the_page(self):
        kinds = [rows for _, head, rows in pages.tables(pages.text_of("SCRIPTS.md")) if head[0] == "Kind"]
        self.assertEqual(list(faults.KINDS), [int(row[0]) for it in kinds for row in it])


class Json(unittest.TestCase):
    def test_each_entry_is_an_object(self):
        ran = support.run("json", source=TRANSCRIPT)
        found = [json.loads(it) for it in ran.stdout.splitlines()]
        self.assertEqual((ran.returncode, len(found)), (0, 8))
        names = ("line", "kind", "thread", "call", "status", "status_name", "fields")
        wanted = [
            (1, "directive", None, "boot", "00000000", "SUCCESS", {}),
            (2, "wait", 24, "NtListenPort", None, None, {}),
            (4, "nothread", 99, None, None, None, {}),
            (5, "answer", 28, "NtClose", "c0000008", "INVALID_HANDLE", {}),
            (6, "busy", 24, None, None, None, {}),
        ]
        self.assertEqual([found[at] for at in (0, 1, 4, 5, 6)], [dict(zip(names, it)) for it in wanted])
        self.assertEqual(found[-1], {"kind": "end", "lines": 6, "entries": 7, "objects": 3})

    def test_a_message_is_an_object(self):
        found = json.loads(support.run("json", source=TRANSCRIPT).stdout.splitlines()[2])
        self.assertEqual(found["fields"], {"msg": "02001a000a000000200000002400000001000000000000004869"})
        self.assertEqual(
            found["message"],
            {
                "data_size": 2,
                "message_size": 26,
                "type": 10,
                "type_name": "connection request",
                "ranges_offset": 0,
                "ranges": [],
                "process": 32,
                "thread": 36,
                "message_id": 1,
                "section_size": 0,
                "data": "4869",
                "text": "Hi",
            },
        )

    def test_fields_that_are_numbers(self):
        line = b"1 24 NtQueryObject 00000000 type=port access=001f0001 handles=2 pointers=3\nstop 2 5\n"
        told = [json.loads(it) for it in support.run("json", source=line).stdout.splitlines()]
        self.assertEqual(told[0]["fields"], {"type": "port", "access": "001f0001", "handles": 2, "pointers": 3})
        self.assertEqual(told[1], {"kind": "stop", "line": 2, "fault": 5})

    def test_each_example_has_an_object_a_line(self):
        for script in support.EXAMPLES:
            path = script.with_suffix(".transcript")
            found = [json.loads(it) for it in support.run("json", path).stdout.splitlines()]
            lines = path.read_text().splitlines()
            self.assertEqual(len(found), len(lines))
            for one, line in zip(found[:-1], lines):
                self.assertEqual(str(one["line"]), line.split()[0])


if __name__ == "__main__":
    unittest.main()
