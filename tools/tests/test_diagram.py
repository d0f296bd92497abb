"""`diagram`: who sends what to whom, in Mermaid's language and in PlantUML's, and drawn where PlantUML is there."""
import os
import re
import shutil
import subprocess
import unittest

import support
from ntlpc_tool import drawing, script_lines, sequence, transcript

SUITE = sorted((support.ROOT / "conformance").glob("*/*.script"))
# The statements of Mermaid's sequence diagrams that are used.
STATEMENTS = [
    r"participant (T\d+) as thread \d+<br/>process (?:\d+|unknown)",
    r"Note over T\d+(?:,T\d+)?: (?:[^#;<>{}\\]|#\d+;|<br/>)+",
    r"T\d+(?:->>|-->>|--x)T\d+: (?:[^#;<>{}\\]|#\d+;)+",
    r"(?:activate|deactivate) T\d+",
    r"%% .*",
]


def picture_of(found, script=None):
    """The picture of a transcript's bytes, and of its script's."""
    return sequence.Picture(transcript.read(found), script_lines.Script(script) if script is not None else None)


def mermaid(lines, script=None):
    """The lines of the diagram of a transcript's lines, without the first."""
    text = "".join(f"{it}\n" for it in lines).encode()
    return [it.strip() for it in drawing.mermaid(picture_of(text, script)).splitlines()[1:]]


class Example(unittest.TestCase):
    def test_a_request_and_its_reply(self):
        script = support.ROOT / "examples" / "first-request.script"
        ran = support.run("diagram", script.with_suffix(".transcript"), "--script", script)
        wanted = """\
sequenceDiagram
    participant T24 as thread 24<br/>process 20
    participant T28 as thread 28<br/>process 20
    Note over T24: 3 NtCreatePort -: h=4
    Note over T24: 4 request 1 sent, and waits
    activate T24
    T24->>T28: 5 request 20.24.1 "AB"
    T28-->>T24: 6 reply 20.24.1 "C"
    deactivate T24
    Note over T24,T28: end: 6 lines, 7 entries, 4 objects left
"""
        self.assertEqual((ran.returncode, ran.stdout), (0, wanted))

    @support.needs_program
    def test_a_script_is_run(self):
        for script in support.EXAMPLES:
            with self.subTest(script.name):
                ran = support.inside("diagram", script)
                both = support.inside("diagram", script.with_suffix(".transcript"), "--script", script)
                self.assertEqual((ran.returncode, ran.stdout), (0, both.stdout))


class Events(unittest.TestCase):
    """Expected lines are worked by hand from the entries."""

    BOOTS = ["1 - boot 00000000", "2 - boot 00000000"]

    def test_an_exception_through_its_chances(self):
        shown = ["08002000080000002000000024000000%02x00000000000000050000c0%02x000000" % it for it in ((1, 1), (2, 2))]
        lines = [
            "4 36 raise wait id=1",
            f"5 24 NtReplyWaitReceivePort 00000000 ctx=00000000 msg={shown[0]}",
            "6 24 NtReplyPort 00000000",
            f"7 24 NtReplyWaitReceivePort 00000000 ctx=00000007 msg={shown[1]}",
            "8 24 NtReplyPort 00000000",
            "8 *36 raise 00010002",
            "9 36 raise 00000000",
        ]
        wanted = [
            "participant T36 as thread 36<br/>process 32",
            "participant T24 as thread 24<br/>process unknown",
            "Note over T36: 4 event 1 sent, and waits",
            "activate T36",
            "T36->>T24: 5 debug event 32.36.1 c0000005, chance 1",
            "Note over T24: 6 NtReplyPort<br/>the exception goes on",
            "T36->>T24: 7 debug event 32.36.2 c0000005, chance 2 context 7",
            "T24-->>T36: 8 continued",
            "deactivate T36",
            "Note over T36: 9 raise",
        ]
        self.assertEqual(mermaid(lines), wanted)

    def test_an_exception_that_its_frames_handle_and_one_that_ends_a_process(self):
        lines = [
            "4 36 raise wait id=1",
            "5 44 raise wait id=1",
            "6 24 NtClose 00000000",
            "6 *44 raise 00000000",
            "6 ~36 died c0000005",
        ]
        wanted = [
            "Note over T36: 4 event 1 sent, not received, and waits",
            "activate T36",
            "Note over T44: 5 event 1 sent, not received, and waits",
            "activate T44",
            "Note over T24: 6 NtClose",
            "T24-->>T44: 6 handled by its frame handlers",
            "deactivate T44",
            "Note over T36: 6 died, code c0000005 ACCESS_VIOLATION",
            "deactivate T36",
        ]
        self.assertEqual(mermaid(lines)[3:], wanted)

    def test_what_is_received_at_once_is_one_arrow(self):
        shown = "000018000100000014000000180000000100000000000000"
        lines = [
            "6 28 NtReplyWaitReceivePort wait",
            "11 24 NtRequestWaitReplyPort wait id=1",
            f"11 *28 NtReplyWaitReceivePort 00000000 ctx=00000000 msg={shown}",
        ]
        wanted = [
            "participant T28 as thread 28<br/>process unknown",
            "participant T24 as thread 24<br/>process 20",
            "Note over T28: 6 NtReplyWaitReceivePort waits",
            "activate T28",
            "T24->>T28: 11 request 20.24.1 without data",
            "activate T24",
            "deactivate T28",
            "Note over T24: still waits in NtRequestWaitReplyPort, since line 11",
            "deactivate T24",
        ]
        self.assertEqual(mermaid(lines), wanted)

    def test_a_datagram_that_nobody_receives(self):
        lines = ["5 24 NtRequestPort 00000000 id=7", "end 5 1 3"]
        wanted = [
            "Note over T24: 5 datagram 7 sent, not received",
            "Note over T24: end: 5 lines, 1 entry, 3 objects left",
        ]
        self.assertEqual(mermaid(lines)[1:], wanted)

    CONNECTS = [
        "3 24 NtCreatePort 00000000 h=4",
        "4 36 NtConnectPort wait id=1",
        "5 24 NtListenPort 00000000 msg=02001a000a000000200000002400000001000000000000004869",
    ]
    SCRIPT = b"boot 20 24\nboot 32 36\n24 NtCreatePort \\P\n36 NtConnectPort \\P - - d:4869\n24 NtListenPort 4\n"

    def connect(self, answers, words):
        return mermaid([*self.BOOTS, *self.CONNECTS, *answers], self.SCRIPT + words)[2:]

    START = [
        "Note over T24: 3 NtCreatePort #92;P: h=4",
        "Note over T36: 4 connection request 1 sent, and waits",
        "activate T36",
        'T36->>T24: 5 connection request 32.36.1 "Hi"',
    ]

    def test_a_connect_is_accepted_and_completed(self):
        answers = [
            "6 24 NtAcceptConnectPort 00000000 h=8",
            "7 24 NtCompleteConnectPort 00000000",
            "7 *36 NtConnectPort 00000000 h=4 max=256 info=4f4b",
        ]
        words = b"24 NtAcceptConnectPort 7 r:32.0x24.1:4f4b accept -\n24 NtCompleteConnectPort 8\n"
        wanted = ["T24-->>T36: 6 accept: h=8", 'T24-->>T36: 7 connected: h=4 "OK"', "deactivate T36"]
        self.assertEqual(self.connect(answers, words), [*self.START, *wanted])

    def test_a_connect_is_refused(self):
        answers = ["6 24 NtAcceptConnectPort 00000000", "6 *36 NtConnectPort c0000041 info=4e6f"]
        words = b"24 NtAcceptConnectPort 0 r:32.36.1:4e6f refuse -\n"
        self.assertEqual(self.connect(answers, words), [*self.START, 'T24--xT36: 6 refused "No"', "deactivate T36"])

    DEATHS = [
        "1 28 NtReplyWaitReceivePort wait",
        "2 36 NtListenPort wait",
        "3 ~36 died 00000007",
        "3 ~40 died 00000007",
        "3 *28 NtReplyWaitReceivePort c0000037",
    ]

    def test_threads_that_die(self):
        wanted = [
            "Note over T36: 3 died, code 00000007",
            "deactivate T36",
            "Note over T40: 3 died, code 00000007",
            "T36--xT28: 3 NtReplyWaitReceivePort ends: c0000037 PORT_DISCONNECTED",
            "deactivate T28",
        ]
        self.assertEqual(mermaid(self.DEATHS)[-5:], wanted)

    def test_a_thread_that_ends_another_process_has_its_call(self):
        told = ["1 24 NtCreateProcess 00000000 h=4 thread=8", "2 24 NtTerminateProcess 00000000", "2 ~36 died 00000007"]
        wanted = [
            "Note over T24: 1 NtCreateProcess: h=4 thread=8",
            "Note over T24: 2 NtTerminateProcess",
            "Note over T36: 2 died, code 00000007",
        ]
        self.assertEqual(mermaid(told)[-3:], wanted)

    def test_the_thread_that_ends_the_others_is_the_scripts(self):
        script = b"28 NtReplyWaitReceivePort 4\n36 NtListenPort 4\n40 NtTerminateProcess self 7\n"
        wanted = [
            "Note over T40: 3 NtTerminateProcess self 7<br/>died, code 00000007",
            "T40--xT28: 3 NtReplyWaitReceivePort ends: c0000037 PORT_DISCONNECTED",
            "deactivate T28",
        ]
        self.assertEqual(mermaid(self.DEATHS, script)[-3:], wanted)

    def test_a_threads_end_comes_from_it(self):
        shown = "0800200006000000200000002400000000000000000000000000000024000000"
        lines = ["3 ~36 died 00000007", f"4 24 NtReplyWaitReceivePort 00000000 ctx=00000007 msg={shown}"]
        wanted = ["Note over T36: 3 died, code 00000007", "T36->>T24: 4 client died 32.36.0 context 7"]
        self.assertEqual(mermaid(lines)[-2:], wanted)

    def test_a_connect_that_a_closing_ends(self):
        answers = ["6 24 NtClose 00000000", "6 *36 NtConnectPort c0000041 info="]
        wanted = [
            "Note over T24: 6 NtClose 4",
            "T24--xT36: 6 NtConnectPort ends: c0000041 PORT_CONNECTION_REFUSED",
            "deactivate T36",
        ]
        self.assertEqual(self.connect(answers, b"24 NtClose 4\n"), [*self.START, *wanted])

    def test_a_clients_end(self):
        shown = "0800200005000000200000002400000001000000000000002400000001000000"
        (_, _, arrow) = mermaid([f"25 24 NtReplyWaitReceivePort 00000000 ctx=00000007 msg={shown}"])
        self.assertEqual(arrow, "T36->>T24: 25 port closed 32.36.1 context 7")

    def test_refusals_and_lines_without_effect(self):
        lines = ["1 - boot c0000035", "2 24 NtClose c0000008", "3 24 busy", "4 99 nothread", "stop 5 2"]
        wanted = [
            "participant T24 as thread 24<br/>process unknown",
            "Note over T24: 1 boot<br/>c0000035 OBJECT_NAME_COLLISION",
            "Note over T24: 2 NtClose<br/>c0000008 INVALID_HANDLE",
            "Note over T24: 3 busy: it waits and makes no call",
            "Note over T24: 4 no live thread 99",
            "Note over T24: line 5: fault 2, the script stops",
        ]
        self.assertEqual(mermaid(lines), wanted)

    def test_a_transcript_without_threads(self):
        self.assertEqual(
            mermaid(["1 - dir 00000000", "end 1 1 0"]), ["%% 1 dir", "%% end: 1 line, 1 entry, 0 objects left"]
        )

    def test_threads_of_a_process_stand_side_by_side(self):
        script = b"boot 20 24\nboot 32 36\nthread 28 20\n24 NtClose 4\n36 NtClose 4\n28 NtClose 4\n"
        lines = [
            *self.BOOTS,
            "3 - thread 00000000",
            *(f"{at} {it} NtClose c0000008" for at, it in ((4, 24), (5, 36), (6, 28))),
        ]
        self.assertEqual([it.split()[1] for it in mermaid(lines, script)[:3]], ["T24", "T28", "T36"])


class Languages(unittest.TestCase):
    def test_marks_of_the_languages_are_spelled_by_number(self):
        script = b"boot 20 24\n24 NtCreatePort \\a#;<b>{%%}**__//\n"
        lines = b"1 - boot 00000000\n2 24 NtCreatePort 00000000 h=4\n"
        picture = picture_of(lines, script)
        self.assertIn("NtCreatePort #92;a#35;#59;#60;b#62;#123;#37;#37;#125;**__//: h=4", drawing.mermaid(picture))
        plantuml = drawing.plantuml(picture)
        self.assertIn("<U+005C>a<U+0023><U+003B><U+003C>b<U+003E>", plantuml)
        self.assertNotIn("**", plantuml)

    def test_each_script_of_the_suite_is_well_formed(self):
        self.assertGreater(len(SUITE), 500)
        for script in (*SUITE, *support.EXAMPLES):
            with self.subTest(script.name):
                found, source = script.with_suffix(".transcript").read_bytes(), script.read_bytes()
                for given in (None, source):
                    self.check(drawing.mermaid(picture_of(found, given)).splitlines())

    def check(self, lines):
        """Each line is a statement, each thread is a participant, and no bar begins or ends twice."""
        self.assertEqual(lines[0], "sequenceDiagram")
        known, active = set(), set()
        for line in map(str.strip, lines[1:]):
            self.assertTrue(any(re.fullmatch(it, line) for it in STATEMENTS), line)
            word, _, rest = line.partition(" ")
            if word == "participant":
                known.add(rest.split()[0])
            elif word != "%%":
                self.assertLessEqual(set(re.findall(r"\bT\d+\b", line.partition(": ")[0])), known, line)
            if word in ("activate", "deactivate"):
                self.assertEqual(rest in active, word == "deactivate", line)
                (active.add if word == "activate" else active.remove)(rest)
        self.assertEqual(active, set())

    @unittest.skipUnless(shutil.which("plantuml"), "plantuml isn't installed")
    def test_plantuml_draws_each_example(self):
        texts = [
            drawing.plantuml(picture_of(it.with_suffix(".transcript").read_bytes(), it.read_bytes()))
            for it in support.EXAMPLES
        ]
        how = {"input": "\n".join(texts).encode(), "capture_output": True}
        ran = subprocess.run(["plantuml", "-tsvg", "-pipe"], **how)
        self.assertEqual(ran.returncode, 0, ran.stderr)
        self.assertEqual(ran.stdout.count(b"</svg>"), len(texts))


class Files(support.WithFolder):
    def setUp(self):
        super().setUp()
        self.transcript = self.file("t", b"1 - boot 00000000\n2 24 NtCreatePort 00000000 h=4\nend 2 2 3\n")
        self.picture = os.path.join(self.folder.name, "picture.svg")

    def draw(self, plantuml=None, path=None):
        """Draws with another program in the place of PlantUML."""
        if plantuml:
            os.chmod(self.file("plantuml", plantuml.encode()), 0o755)
        return support.run(
            "diagram", self.transcript, "--svg", path or self.picture, PATH=f"{self.folder.name}:/usr/bin:/bin"
        )

    def test_plantuml_is_given_the_picture_in_its_language(self):
        ran = self.draw("#!/bin/sh\necho \"<svg words='$*'>\"; cat; echo '</svg>'\n")
        self.assertEqual((ran.returncode, ran.stderr), (0, ""))
        with open(self.picture, encoding="utf-8") as file:
            drawn = file.read()
        self.assertIn("words='-tsvg -pipe -charset UTF-8'", drawn)
        self.assertIn("@startuml\n", drawn)
        self.assertIn("note over T24 #FFFFFF : 2 NtCreatePort: h=4\n", drawn)

    def test_plantuml_that_fails_is_told(self):
        ran = self.draw("#!/bin/sh\necho no picture >&2; exit 200\n")
        self.assertEqual(ran.returncode, 2)
        self.assertIn("plantuml ended with status 200, and said: no picture\n", ran.stderr)
        self.assertFalse(os.path.exists(self.picture))

    def test_plantuml_that_is_missing_is_told(self):
        ran = support.run("diagram", self.transcript, "--svg", self.picture, PATH="/nonexistent")
        self.assertEqual((ran.returncode, ran.stdout), (2, ""))
        self.assertIn("the package `plantuml` has it\n", ran.stderr)

    def test_a_file_that_cannot_be_written_is_told(self):
        ran = self.draw("#!/bin/sh\necho '<svg></svg>'\n", path="/nonexistent/picture.svg")
        self.assertEqual(ran.returncode, 2)
        self.assertIn("/nonexistent/picture.svg can't be written", ran.stderr)

    def test_plantumls_language_can_be_kept(self):
        path = os.path.join(self.folder.name, "picture.puml")
        self.assertEqual(support.run("diagram", self.transcript, "--plantuml", path).returncode, 0)
        with open(path, encoding="utf-8") as file:
            self.assertEqual(file.read().splitlines()[0], "@startuml")

    def test_what_has_to_be_a_transcript(self):
        script = self.file("s", b"boot 20 24\n")
        ran = support.run("diagram", script, "--script", script)
        self.assertEqual(ran.returncode, 2)
        self.assertIn("line 1 of the transcript", ran.stderr)


if __name__ == "__main__":
    unittest.main()
