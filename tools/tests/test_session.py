"""A program that runs many scripts in one process: `conformance/run --session`, and `serve`, which answers it."""
import os
import pathlib
import subprocess
import sys
import unittest
import unittest.mock

import support
from ntlpc_tool import judge, main, session

SUITE = support.ROOT / "conformance"
PAGE = (support.ROOT / "docs" / "CONFORMANCE.md").read_text(encoding="utf-8")
SERVE = [sys.executable, str(support.TOOLS / "ntlpc-tool"), "serve"]
SHORT = "boot/a-process-with-its-first-thread"
# Six scripts that the example passes.
FINE = ("--only", "boot/a-[pt]*[de]", "--only", "thread/a-[mt]*")
# A harness: `answer` makes a transcript of a script, and `number` is that of the script in this process, from 1.
HARNESS = """
import os, subprocess, sys, time
sys.stderr.write("started\\n")
def right(script):
    example = [sys.executable, {example!r}, "replay"]
    return subprocess.run(example, input=script, stdout=subprocess.PIPE).stdout
def say(data):
    sys.stdout.buffer.write(data)
    sys.stdout.buffer.flush()
for number, head in enumerate(iter(sys.stdin.buffer.readline, b""), 1):
    script = sys.stdin.buffer.read(int(head.split()[1]))
    {change}
    say(right(script) + b"done\\n")
"""


def run(*words, **how):
    """Runs the suite with these words, one script at a time."""
    how = {"capture_output": True, "text": True, "timeout": 120, "cwd": support.ROOT, **how}
    return subprocess.run([SUITE / "run", "--jobs", "1", *map(str, words)], **how)


def last(ran):
    return ran.stdout.splitlines()[-1]


class WithHarness(support.WithFolder):
    def harness(self, change="pass"):
        """A harness round the example, with a line of its own in front of each answer."""
        code = HARNESS.format(example=str(SUITE / "example.py"), change=change)
        return [sys.executable, self.file("harness.py", code.encode())]

    def starts(self, *words):
        """The harness, behind what counts its starts, and the file with a line for each."""
        count = pathlib.Path(self.folder.name) / "count"
        return ["sh", "-c", f'echo >> {count}; exec "$@"', "sh", *self.harness(*words)], count


class Runs(WithHarness):
    """What the suite tells of harnesses that are right, and of those that aren't."""

    def test_a_harness_is_started_once_and_told_of_as_a_program_is(self):
        harness, count = self.starts()
        words = ("--built", "--only", "thread/a-*")
        alone = run(*words, sys.executable, SUITE / "example.py")
        ran = run(*words, "--session", *harness)
        self.assertEqual((ran.returncode, ran.stdout, ran.stderr), (1, alone.stdout, ""))
        self.assertEqual(last(ran), "5 passed, 1 failed, 1 skipped")
        self.assertEqual(len(count.read_text().splitlines()), 1)

    def test_the_harness_of_the_page_passes(self):
        code = PAGE.split("```python\n", 1)[1].split("```\n", 1)[0]
        for words in ((), ("--up-to-names",)):
            ran = run(*words, *FINE, "--session", sys.executable, "-c", code)
            self.assertEqual((ran.returncode, ran.stdout), (0, "6 passed, 0 failed\n"))

    def test_as_many_are_started_as_run_at_a_time(self):
        harness, count = self.starts("time.sleep(0.2)")
        ran = run("--jobs", "3", *FINE, "--session", *harness)
        self.assertEqual((ran.returncode, ran.stdout), (0, "6 passed, 0 failed\n"))
        self.assertEqual(len(count.read_text().splitlines()), 3)

    def test_one_that_ends_in_the_middle_is_started_anew(self):
        for code, told in (("os._exit(3)", "status 3"), ("os.kill(os.getpid(), 11)", "signal 11")):
            change = f"if number == 2: say(b'3 - boot 0'), sys.stderr.write('why\\n'), sys.stderr.flush(), {code}"
            harness, count = self.starts(change)
            ran = run(*FINE, "--session", *harness)
            self.assertEqual((ran.returncode, last(ran)), (1, "3 passed, 3 failed"))
            self.assertEqual(ran.stdout.count(f"    it ended with {told} before it said `done`\n"), 3, ran.stdout)
            self.assertEqual(ran.stdout.count("    its standard error ends: why\n"), 3)
            self.assertIn("    printed: 3 - boot 0 (without byte 10 at its end)\n", ran.stdout)
            self.assertEqual(len(count.read_text().splitlines()), 3)
            count.unlink()

    def test_one_that_ends_behind_each_script_fails_every_second(self):
        ran = run(*FINE, "--session", *self.harness("if number == 2: sys.exit(0)"))
        self.assertEqual((ran.returncode, last(ran)), (1, "3 passed, 3 failed"))
        self.assertIn("    it ended with status 0 before it said `done`\n", ran.stdout)

    def test_one_that_hangs_is_ended_and_started_anew(self):
        harness, count = self.starts("number == 2 and time.sleep(60)")
        ran = run("--timeout", "5", "--shard", "1/2", *FINE, "--session", *harness)
        self.assertEqual((ran.returncode, last(ran)), (1, "2 passed, 1 failed"))
        self.assertIn("    it did not say `done` within 5 seconds, and was ended\n", ran.stdout)
        self.assertNotIn("rule:", ran.stdout)
        self.assertEqual(len(count.read_text().splitlines()), 2)

    def test_what_stands_where_nothing_may_is_told(self):
        for change, told in {
            "if number == 2: say(b'hello\\n')": "printed: hello",
            "if number == 1: say(right(script) + b'done\\nbye\\n'); continue": "printed: bye",
            "if number == 2: say(b'done\\n'); continue": "printed: (nothing)",
            "if number == 2: say(right(script)[:-1] + b'done\\n'); continue": "(without byte 10 at its end)",
            "if number == 2: say(right(script) * 2 + b'done\\n'); continue": "wanted:  (nothing)",
        }.items():
            ran = run("--shard", "1/2", *FINE, "--session", *self.harness(change))
            self.assertEqual((ran.returncode, last(ran)), (1, "2 passed, 1 failed"), ran.stdout)
            self.assertIn(told, ran.stdout)

    def test_one_that_prints_more_and_more_is_ended(self):
        ran = run("--only", SHORT, "--session", "yes")
        self.assertEqual((ran.returncode, last(ran)), (1, "0 passed, 1 failed"))
        self.assertIn("    it printed more and more, and was ended\n", ran.stdout)

    def test_one_that_goes_on_at_the_end_is_ended(self):
        with unittest.mock.patch.object(session, "GRACE", 0.2):
            sessions = session.Sessions()
            command = ["sh", "-c", "read line; echo done; exec sleep 60"]
            self.assertEqual(sessions.run(command, b"", 100, 30).printed, b"")
            sessions.end()

    def test_one_that_answers_while_it_reads_is_read_and_written_to_at_once(self):
        code = "import sys\nfor line in sys.stdin: print('done' if line == 'last\\n' else 'x' * 99)"
        one = session.Session([sys.executable, "-uc", code])
        answer = one.run(b"123456789\n" * 20_000 + b"last\n", 1 << 22, 60)
        one.end()
        self.assertEqual((answer.status, answer.late, len(answer.printed)), (None, False, 2_000_100))

    def test_one_that_cannot_be_started_fails_each(self):
        broken = self.file("broken", b"\x7fELF")
        os.chmod(broken, 0o755)
        ran = run("--built", "--shard", "1/2", *FINE, "--session", broken)
        self.assertEqual((ran.returncode, last(ran)), (1, "0 passed, 3 failed, 0 skipped"))
        self.assertIn("    it could not be started: ", ran.stdout)

    def test_words_that_go_with_no_session_are_refused(self):
        told = "--session goes with neither --transcripts nor --line-by-line\n"
        for words in (("--line-by-line", "--session", "true"), ("--session", "--transcripts", self.folder.name)):
            ran = run(*words)
            self.assertEqual((ran.returncode, ran.stdout), (64, ""))
            self.assertTrue(ran.stderr.endswith(told), ran.stderr)
        self.assertTrue(run("--session").stderr.endswith("conformance/run: a program is missing\n"))


class Serves(support.WithFolder):
    """`serve` runs the program over each script that it is asked for."""

    def serve(self, source, *words):
        return support.run("serve", *words, source=source)

    def fails(self, source, told, printed="", *words):
        ran = self.serve(source, *words)
        self.assertEqual((ran.returncode, ran.stdout), (main.MISUSE, printed))
        self.assertRegex(ran.stderr, rf"\Antlpc-tool serve: {told}\n\Z")

    @support.needs_program
    def test_scripts_are_answered_one_behind_the_other(self):
        ran = self.serve(b"script 11\nboot 20 24\nscript 0\nscript 10\n1 NtFoo \xff\nscript 10\nboot 20 24")
        first, faulty = "1 - boot 00000000\nend 1 1 2\ndone\n", "stop 1 1\ndone\n"
        self.assertEqual((ran.returncode, ran.stdout), (0, f"{first}end 0 0 0\ndone\n{faulty}{first}"))
        self.assertEqual(self.serve(b"").stdout, "")

    @support.needs_program
    def test_the_suite_passes_over_it(self):
        ran = run("--only", "NtReplyPort/a-*", "--only", "boot/[ae]*", "--session", *SERVE)
        self.assertEqual(ran.returncode, 0, ran.stdout)
        self.assertRegex(last(ran), r"\A\d\d passed, 0 failed\Z")

    @support.needs_program
    def test_an_input_of_another_form_is_told(self):
        wanted = "`script BYTES` is wanted in front of script {}, and not .*"
        for head in (b"boot 20 24\n", b"script\n", b"script x\n", b"script 08\n", b"script 4", b"script 0 \n", b"\n"):
            self.fails(head, wanted.format(1))
        self.fails(b"script 0\nend\n", wanted.format(2), "end 0 0 0\ndone\n")
        self.fails(b"script 12\nboot 20 24\n", "the input ended behind 11 of the 12 bytes of script 1")

    @support.needs_program
    def test_a_program_that_breaks_off_is_told(self):
        other = self.file("other", b"#!/bin/sh\necho 1 - boot 00000000\nexit 5\n")
        os.chmod(other, 0o755)
        self.fails(b"script 0\n", f"{other} ended with status 5: memory ran out.*", "", "--program", other)

    def test_an_answer_that_is_whole_breaks_nothing_down(self):
        whole = session.Answer(b"end 0 0 0\n", b"")
        self.assertFalse(whole.broke_down())
        self.assertIsNone(judge.with_ending(None, whole, b"end 0 0 0\n", 1))


if __name__ == "__main__":
    unittest.main()
