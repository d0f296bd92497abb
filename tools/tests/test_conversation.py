"""A conversation with the program, and with programs that break off, print nonsense or are silent."""
import os
import sys

import support
from ntlpc_tool.conversation import Broken, Conversation, Stopped

# Answers each line as the program would, where all lines but the markers are comments.
POLITE = """#!{python}
import sys
for number, line in enumerate(sys.stdin, 1):
    if not line.startswith("#"):
        print(number, line.split()[0], "nothread", flush=True)
print("end", number, number // 2, 0)
"""


class Talks(support.WithFolder):
    def standin(self, code):
        """A program of this code."""
        path = self.file("standin", code.replace("{python}", sys.executable).encode())
        os.chmod(path, 0o755)
        return path

    def test_a_comment_is_answered_by_no_entry(self):
        with Conversation(self.standin(POLITE)) as oracle:
            self.assertEqual(oracle.step("# a comment"), ())
            self.assertEqual(oracle.step("# and another one"), ())
            self.assertEqual(oracle.close().numbers, (4, 2, 0))

    def test_a_program_that_ends_is_told(self):
        with Conversation(self.standin("#!/bin/sh\nexit 5\n")) as oracle:
            with self.assertRaisesRegex(Broken, "the program ended: memory ran out"):
                oracle.step("boot 20 24")

    def test_nonsense_is_told(self):
        with Conversation(self.standin("#!/bin/sh\nread line\necho hello\nread line\n")) as oracle:
            with self.assertRaisesRegex(Broken, "it printed b'hello"):
                oracle.step("boot 20 24")

    def test_silence_is_told(self):
        with Conversation(self.standin("#!/bin/sh\nexec sleep 60\n"), seconds=0.5) as oracle:
            with self.assertRaisesRegex(Broken, "silent for 0.5 seconds"):
                oracle.step("boot 20 24")

    def test_nobody_listens_behind_its_end(self):
        with Conversation(self.standin(POLITE)) as oracle:
            oracle.step("# a comment")
        self.assertFalse(oracle._listener.is_alive())

    def test_a_line_is_one_line(self):
        with Conversation(self.standin(POLITE)) as oracle:
            with self.assertRaises(ValueError):
                oracle.step("boot 20 24\nboot 28 32")

    @support.needs_program
    def test_a_line_is_answered_before_the_next_one(self):
        with Conversation() as oracle:
            (booted,) = oracle.step("boot 20 24")
            self.assertEqual((booted.call, booted.status), ("boot", "00000000"))
            (port,) = oracle.step("24 NtCreatePort -")
            self.assertEqual((port.status, port.field("h")), ("00000000", "4"))
            self.assertEqual(oracle.close().numbers, (4, 4, 3))

    @support.needs_program
    def test_a_faulty_line_ends_it(self):
        with Conversation() as oracle:
            oracle.step("boot 20 24")
            with self.assertRaises(Stopped) as caught:
                oracle.step("24 NtCreatePort")
            self.assertEqual(caught.exception.closing.numbers, (3, 4))
