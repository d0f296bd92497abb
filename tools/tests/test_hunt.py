"""`hunt`: what was told is followed, scripts go by the seed, what differs is shrunk, and failures are told."""
import os
import pathlib
import random
import re
import subprocess
import sys
import time
import unittest
import unittest.mock

import plain_rules
import support
from ntlpc_tool import following, hunting, main, needs, planning, program, scenes, shrinking, statuses, transcript
from ntlpc_tool.conversation import Conversation
from ntlpc_tool.words import hunt

# Runs the program, and changes what it prints.
WRONG = """#!{python}
import re, subprocess, sys
ran = subprocess.run([{program!r}, *sys.argv[1:]], input=sys.stdin.buffer.read(), capture_output=True)
sys.stdout.buffer.write({change})
sys.exit(ran.returncode)
"""
# Each duplicate has a handle that is 4 too great.
GREATER = 'ran.stdout.replace(b"NtDuplicateObject 00000000 h=", b"NtDuplicateObject 00000000 h=4")'


class Following(unittest.TestCase):
    def test_who_waits_is_known_in_each_example(self):
        for path in support.EXAMPLES:
            script, shown = path.read_bytes(), transcript.load(str(path.with_suffix(".transcript")))
            # A turn's call stands in its entries alone; `hunt` makes no turns.
            if any(needs.name_in(line) == "turn" for line in script.splitlines()):
                continue
            world, entries = following.World(), {}
            for entry in shown.entries:
                entries.setdefault(entry.line, []).append(entry)
            for number, line in enumerate(script.decode("ascii").splitlines(), 1):
                world.tell(line, entries.get(number, ()))
            with self.subTest(path.name):
                self.assertEqual(sorted(world.waits), sorted(it.thread for it in transcript.still_waiting(shown)))
                self.assertEqual([it for it in world.dead if it[1] in world.threads], [])

    def test_a_head_is_read(self):
        self.assertEqual(following.head_of("r:4.0x8.1:41"), (4, 8, 1))
        self.assertIsNone(following.head_of("d:41"))

    def test_nothing_stands_in_a_world_of_nobody(self):
        for seed in range(20):
            line = hunting.Hunter(random.Random(seed), following.World()).line()
            self.assertIn(needs.name_in(line.encode()), ("boot", *needs.NAMES))


class Plans(unittest.TestCase):
    """The lines of a plan, run one behind the other."""

    def told(self, *plans, seed=1):
        """The world and the entries behind these plans, each a function of a hunter."""
        world, entries = following.World(), []
        hunter = hunting.Hunter(random.Random(seed), world)
        with Conversation() as oracle:
            for plan in plans:
                for line in plan(hunter):
                    told = oracle.step(line)
                    world.tell(line, told)
                    entries += told
        return world, entries

    def served(self, hunter):
        return planning.served(hunter, 2)

    @support.needs_program
    def test_a_start_has_connections(self):
        for seed in range(8):
            world, entries = self.told(self.served, seed=seed)
            self.assertEqual({it.status for it in entries if it.status}, {statuses.SUCCESS})
            ports = [it.thing for owned in world.handles.values() for it in owned.values()]
            self.assertEqual(sorted(it.kind for it in ports), ["client"] * 2 + ["connection"] + ["server"] * 2)
            self.assertTrue(all(it.complete and it.other.home for it in ports if it.kind == "server"))

    @support.needs_program
    def test_a_limit_is_reached(self):
        for name, plan in planning.limits():
            call = "NtConnectPort" if name == "link" else name
            status = "c0000033" if name in ("dir", "link") else "c0000044"
            told = [it for seed in range(3) for it in self.told(self.served, plan, seed=seed)[1]]
            self.assertIn((call, status), {(it.call, it.status) for it in told})

    @support.needs_program
    def test_who_waits_is_woken_and_who_registered_is_told_of(self):
        for scene, texts in {
            scenes.last_handle: ("*", "NtReplyWaitReceivePort c0000037"),
            scenes.last_words: (" died 00000003", "msg=0800200006"),
            scenes.broken_off: ("NtRequestWaitReplyPort c0000253", "NtConnectPort c0000041", "Port c0000037"),
            scenes.lost_client: (" died 00000004", "NtCompleteConnectPort c0000037", "AcceptConnectPort c000000b"),
            scenes.last_process: (" died 00000006", "NtConnectPort c0000041"),
        }.items():
            told = "\n".join(it.raw for seed in range(12) for it in self.told(self.served, scene, seed=seed)[1])
            self.assertEqual([it for it in texts if it not in told], [], scene)
        self.assertEqual(len(scenes.ALL), 5)

    @support.needs_program
    def test_what_stands_in_a_queue_is_counted(self):
        world, entries = self.told(self.served, planning.datagrams, seed=3)
        # Of two ports, 32 each, in one queue.
        self.assertEqual(sum(it.call == "NtRequestPort" and it.status == statuses.SUCCESS for it in entries), 64)
        self.assertEqual(sum(it.thing.queued for owned in world.handles.values() for it in owned.values()), 64)

    @support.needs_program
    def test_an_end_leaves_no_handle(self):
        world, _ = self.told(self.served, planning.end)
        self.assertEqual((world.handles, world.names), ({}, {}))


class Hunts(support.WithFolder):
    def standin(self, code, name="standin"):
        """A program of this code."""
        path = self.file(name, code.encode())
        os.chmod(path, 0o755)
        return path

    def wrong(self, change):
        """The program with a change of what it prints."""
        return self.standin(WRONG.format(python=sys.executable, program=program.find(), change=change))

    def hunt(self, *words):
        return support.inside("hunt", *words)

    @support.needs_program
    def test_the_program_is_right_itself(self):
        ran = self.hunt("--program", program.find(), "--count", "2", "--calls", "60", "--seed", "5")
        self.assertEqual((ran.returncode, ran.stderr), (0, ""))
        self.assertEqual(ran.stdout, "no difference in 2 scripts of 120 lines, seed 5\n")

    @support.needs_program
    def test_what_differs_is_shrunk_and_saved(self):
        saved = f"{self.folder.name}/new/cases"
        ran = self.hunt("--program", self.wrong(GREATER), "--seed", "1", "--calls", "60", "--save", saved)
        self.assertEqual((ran.returncode, ran.stderr), (1, ""), ran.stdout)
        self.assertIn("means: ", ran.stdout)
        self.assertIn("rule: ", ran.stdout)
        (script,) = pathlib.Path(self.folder.name).glob("new/cases/hunt-1-*.script")
        self.assertLessEqual(len(script.read_bytes().splitlines()), 8)
        self.assertIn(b"NtDuplicateObject", script.read_bytes().splitlines()[-1])
        wanted = script.with_suffix(".transcript").read_bytes()
        self.assertEqual(program.replay(program.find(), script.read_bytes()).printed, wanted)

    @support.needs_program
    def test_the_seed_and_the_words_make_the_scripts(self):
        words = ("--program", self.wrong(GREATER), "--seed", "7", "--calls", "30")
        with unittest.mock.patch.object(hunt, "SHRINK_SECONDS", 0):
            told = [self.hunt(*words).stdout for _ in range(2)]
        scripts = [[it for it in text.splitlines() if it.startswith("    ")] for text in told]
        self.assertTrue(scripts[0])
        self.assertEqual(*scripts)

    @support.needs_program
    def test_names_are_left_out(self):
        ran = self.hunt("--program", self.wrong(GREATER), "--count", "2", "--without", "NtDuplicateObject,dir,NtClose")
        self.assertEqual((ran.returncode, ran.stdout), (0, "no difference in 2 scripts of 600 lines, seed 1\n"))

    @support.needs_program
    def test_the_time_ends_it(self):
        ran = self.hunt("--program", program.find(), "--time", "0.05", "--calls", "20")
        self.assertRegex(ran.stdout, r"\Ano difference in \d+ scripts? of \d+ lines, seed 1\n\Z")

    @support.needs_program
    def test_programs_that_fail_are_told(self):
        endings = {
            "exec sleep 60": "it did not end within 0.2 seconds",
            "kill -SEGV $$": "signal 11",
            "exit 3": "status 3, status 0 is wanted",
            "exec yes": "it printed more and more",
            "echo hello": "it prints has not the form of a transcript",
        }
        for code, wanted in endings.items():
            standin = self.standin(f"#!/bin/sh\n{code}\n")
            ran = self.hunt("--program", standin, "--calls", "8", "--timeout", "0.2")
            with self.subTest(code):
                self.assertEqual((ran.returncode, ran.stderr), (1, ""), ran.stdout)
                self.assertIn(wanted, ran.stdout)

    @support.needs_program
    def test_a_program_that_cannot_be_started_has_one_line(self):
        for name in ("/nonexistent/program", self.folder.name, "'"):
            ran = self.hunt("--program", name, "--calls", "5")
            self.assertEqual((ran.returncode, ran.stdout), (2, ""))
            self.assertRegex(ran.stderr, r"\Antlpc-tool hunt: .+\n\Z")

    @support.needs_program
    def test_a_folder_that_cannot_be_made_has_one_line(self):
        ran = self.hunt("--program", "true", "--save", self.file("file", b"") + "/cases")
        self.assertEqual((ran.returncode, ran.stdout), (2, ""))
        self.assertRegex(ran.stderr, r"\Antlpc-tool hunt: .+ can't be made: .+\n\Z")

    @support.needs_program
    def test_a_reader_that_has_gone_ends_it_quietly(self):
        tool = [sys.executable, support.TOOLS / "ntlpc-tool", "hunt", "--program", "true", "--calls", "5"]
        with subprocess.Popen(tool, stdout=subprocess.PIPE, stderr=subprocess.PIPE) as child:
            child.stdout.close()
            said = child.stderr.read()
        self.assertEqual((child.returncode, said), (main.READER_GONE, b""))

    def test_wrong_words_are_refused(self):
        for words in (
            ("--seed", "x"), ("--seed", "-1"), ("--count", "0"), ("--calls", "0"), ("--time", "0"), ("--time", "nan"),
            ("--timeout", "-1"), ("--without", "boot"), ("--without", "NtFoo"), ("--without", ""), ("further",),
        ):  # fmt: skip
            self.assertEqual(self.hunt("--program", "true", *words).returncode, 2, words)
        self.assertEqual(self.hunt().returncode, 2)

    def test_an_oracle_that_breaks_off_has_one_line(self):
        for code in ("exit 5", "read line; echo hello; read line"):
            oracle = self.standin(f"#!/bin/sh\n{code}\n")
            ran = self.hunt("--program", "true", "--oracle", oracle)
            self.assertEqual((ran.returncode, ran.stdout), (2, ""), code)
            self.assertRegex(ran.stderr, r"\Antlpc-tool hunt: the conversation with .+ broke off at line 1: .+\n\Z")


class Plain(unittest.TestCase):
    """The plain implementation, which docs/HUNTING.md tells of: it is right, and each of its wrong rules is known."""

    def of(self, script, *words):
        command = [sys.executable, support.TOOLS / "tests" / "plain.py", *words, "replay"]
        return subprocess.run(command, input=script, capture_output=True, timeout=60)

    def test_it_prints_what_the_examples_have(self):
        for path in support.EXAMPLES:
            script, wanted = path.read_bytes(), path.with_suffix(".transcript").read_bytes()
            if needs.stop_of(wanted) or needs.of(script, wanted) & plain_rules.LEFT_OUT:
                continue
            with self.subTest(path.name):
                self.assertEqual(self.of(script).stdout, wanted)

    def test_the_page_has_a_row_for_each_wrong_rule(self):
        page = (support.ROOT / "docs" / "HUNTING.md").read_text(encoding="utf-8")
        self.assertEqual(re.findall(r"^\| `([\w-]+)`: (.+?) \|", page, re.M), list(plain_rules.WRONGS.items()))
        self.assertIn(f"has all {len(plain_rules.WRONGS)} of", page)

    @support.needs_program
    def test_wrong_rules_are_found(self):
        for name in ("wake-first", "handles-by-age"):
            command = f"{sys.executable} {support.TOOLS / 'tests' / 'plain.py'} --wrong {name}"
            with unittest.mock.patch.object(hunt, "SHRINK_SECONDS", 0):
                ran = support.inside("hunt", "--program", command, "--seed", "1", "--count", "9")
            self.assertEqual((ran.returncode, ran.stderr), (1, ""), name)

    def test_a_wrong_rule_is_one_that_is_known(self):
        self.assertEqual(self.of(b"", "--wrong", "newest-first").returncode, 0)
        self.assertEqual(self.of(b"", "--wrong", "unknown").returncode, 64)


class Shrinks(unittest.TestCase):
    SCRIPT = b"""boot 4 8
boot 12 16
8 NtCreatePort -
8 NtCreatePort \\A
8 NtRequestPort 4 d:41
8 NtRequestPort 8 d:42
16 NtConnectPort \\A - - -
8 NtQueryObject 8
""".splitlines()

    def shrink(self, differs, until=None):
        work = shrinking.Shrinking(program.find(), differs, until or time.monotonic() + 30)
        return work.shortest(self.SCRIPT), work.runs

    @support.needs_program
    def test_lines_are_left_out_and_names_put_right(self):
        short, runs = self.shrink(lambda script, wanted: b"NtRequestPort" in script and b"type=port" in wanted)
        self.assertEqual(len(short), 4, short)
        self.assertEqual(short[-1], b"8 NtQueryObject 4")
        self.assertLess(runs, 60)

    @support.needs_program
    def test_what_always_differs_leaves_nothing(self):
        self.assertEqual(self.shrink(lambda script, wanted: True)[0], [])

    @support.needs_program
    def test_what_differs_as_a_whole_stays(self):
        self.assertEqual(self.shrink(lambda script, wanted: script.count(b"\n") == 8)[0], self.SCRIPT)

    @support.needs_program
    def test_the_time_ends_it(self):
        self.assertEqual(self.shrink(lambda script, wanted: True, time.monotonic() - 1), (self.SCRIPT, 0))


if __name__ == "__main__":
    unittest.main()
