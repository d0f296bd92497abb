"""`exercise`: the worked answers are right, what is free in an answer is free, and what is wrong is told."""
import unittest

import support
from ntlpc_tool import inputs
from ntlpc_tool.words import exercise

FOLDER = support.ROOT / "examples" / "exercises"
SCRIPTS = sorted(FOLDER.glob("*.script"))
# The worked answer of exercise 1, and of 3, as transcripts.
ONE, THREE = ((FOLDER / f"{it}.transcript").read_bytes() for it in ("01-request-and-reply", "03-datagrams"))


class Answers(support.WithFolder):
    def check(self, number, answer, status, *told):
        """Runs the word over an answer; its status, and what it tells."""
        ran = support.inside("exercise", number, self.file("answer", answer))
        self.assertEqual((ran.returncode, ran.stderr), (status, ""), ran.stdout)
        for text in told:
            self.assertIn(text, ran.stdout)
        return ran.stdout

    def test_each_worked_transcript_is_right(self):
        for number, script in enumerate(SCRIPTS, 1):
            told = self.check(number, script.with_suffix(".transcript").read_bytes(), 0)
            self.assertRegex(told, rf"\Aexercise {number}: right, \d+ entries\n\Z")

    @support.needs_program
    def test_each_worked_script_is_right(self):
        for number, script in enumerate(SCRIPTS, 1):
            self.check(number, script.read_bytes(), 0, "right")

    @support.needs_program
    def test_comments_empty_lines_and_the_order_of_lines_are_free(self):
        script = b"""boot 8 12

12 NtCreatePort -
# the second thread comes later
thread 16 8
12 NtRequestWaitReplyPort 4 d:70696e67
16 NtReplyWaitReceivePort 4
16 NtReplyPort 4 r:8.12.1:706f6e67
"""
        self.assertNotIn("note", self.check(1, script, 0, "right, 7 entries"))
        self.check(1, script.replace(b"706f6e67", b"61"), 0, "note: thread 12, its entry 3 has other data: line 8")

    @support.needs_program
    def test_a_reply_that_comes_too_early_is_wrong(self):
        script = (FOLDER / "01-request-and-reply.script").read_bytes().splitlines(True)
        told = self.check(1, b"".join([*script[:5], script[6], script[5]]), 1)
        self.assertIn("thread 16, its entry 1: `16 NtReplyWaitReceivePort 00000000 ctx=00000000 msg=", told)
        self.assertIn("line 6 of the answer: `16 NtReplyPort c000021f`", told)
        self.assertIn("thread 12, its entry 3: `*12 NtRequestWaitReplyPort 00000000 msg=", told)

    @support.needs_program
    def test_a_faulty_script_is_told(self):
        self.check(1, b"boot 8 12\n12 NtFoo\n", 1, "line 2 of the answer is faulty, kind 3")

    def test_names_may_differ_alike_alone(self):
        other = THREE.replace(b"h=4", b"h=24").replace(b"id=1", b"id=9").replace(b"0c000000010000", b"0c000000090000")
        self.check(3, other, 0, "right, 11 entries")
        self.check(3, THREE.replace(b"id=2", b"id=1"), 1, "thread 12, its entry 3: `12 NtRequestPort 00000000 id=2`")

    def test_what_is_missing_and_too_much_is_told(self):
        lines = ONE.splitlines(True)
        self.check(1, b"".join([*lines[:1], *lines[2:]]), 1, "`- thread 00000000` is missing, 1 time")
        self.check(1, b"".join([*lines[:2], *lines[1:]]), 1, "`- thread 00000000` is too much, 1 time")
        self.check(1, b"".join([*lines[:6], *lines[7:]]), 1, "thread 12, its entry 3: ", "the answer ends before it")
        further = b"8 16 busy\n"
        told = "thread 16, its entry 3: line 8 of the answer is one too many: `16 busy`"
        self.check(1, b"".join([*lines[:7], further, *lines[7:]]), 1, told)
        self.check(1, ONE.replace(b"end 7 7 4", b"end 7 7 5"), 1, "4 objects left are wanted, not 5")
        self.check(1, b"".join(lines[:-1]), 1, "the last line is missing")

    def test_another_header_is_wrong(self):
        self.check(1, ONE.replace(b"04001c0002", b"04001c0001"), 1, "thread 12, its entry 3: ")

    def test_wrong_words_have_one_line(self):
        for number in ("0", "12", "01", "-1", "x", "", "9" * 5000):
            ran = support.inside("exercise", "--", number, self.file("answer", ONE))
            self.assertEqual((ran.returncode, ran.stdout), (2, ""), number)
            self.assertRegex(ran.stderr, r"\Antlpc-tool exercise: there is no exercise .*; there are 1, 2, .*\n\Z")
        ran = support.inside("exercise", "1", "/nonexistent")
        self.assertRegex(ran.stderr, r"\Antlpc-tool exercise: /nonexistent can't be read: .+\n\Z")

    def test_where_no_exercises_are_that_is_told(self):
        places, exercise.PLACES = exercise.PLACES, ()
        try:
            with self.assertRaisesRegex(inputs.Misuse, "the exercises are missing"):
                exercise.worked("1")
        finally:
            exercise.PLACES = places


if __name__ == "__main__":
    unittest.main()
