"""The commands of the suite: what is left out, how failures are grouped and told, and what can't be done."""
import json
import os
import pathlib
import subprocess
import sys
import unittest
import unittest.mock
import xml.etree.ElementTree as xml

import support

SUITE = support.ROOT / "conformance"
sys.path.insert(0, str(SUITE))
import suite
from ntlpc_tool import forms, judge, needs, own_names, program, transcript

EXAMPLE = [sys.executable, str(SUITE / "example.py")]
# Of thread/ the example passes 8 scripts, 2 need calls that it doesn't have, and one shows its wrong rule.
WRONG = "thread/a-used-number-comes-before-the-limit"
SHORT = "boot/a-process-with-its-first-thread"


def command(name, *words, **how):
    """Runs a command of the suite; the result has `returncode`, `stdout` and `stderr` as text."""
    how = {"capture_output": True, "text": True, "timeout": 120, **how}
    return subprocess.run([SUITE / name, *map(str, words)], **how)


def run(*words, **how):
    return command("run", *words, **how)


def last(ran):
    """The closing line of a run."""
    return ran.stdout.splitlines()[-1]


class Needs(unittest.TestCase):
    """Which calls and directives a script needs, and which a program says that it doesn't have."""

    def test_a_script_needs_what_its_lines_name(self):
        script = b"# NtClose\nboot 20 24\n\n24 NtCreatePort NtListenPort\n 24  NtQueryObject 4\n"
        self.assertEqual(needs.of(script, b"end 5 3 3\n"), {"boot", "NtCreatePort", "NtQueryObject"})

    def test_what_stands_behind_the_faulty_line_is_not_needed(self):
        script = b"boot 20 24\n24 NtClose\ndir \\A\n"
        self.assertEqual(needs.of(script, b"1 - boot 00000000\nstop 2 4\n"), {"boot", "NtClose"})

    def test_a_fault_that_is_found_before_the_words_needs_no_call(self):
        for line, kind in ((b"24 NtClose 4\t", 1), (b"24 NtClose " + b"4" * 16384, 9)):
            script = b"boot 20 24\n" + line + b"\n"
            self.assertEqual(needs.of(script, b"1 - boot 00000000\nstop 2 %d\n" % kind), {"boot"})
        for thread in (b"0", b"024", b"0X18", b"2147483648", b"4294967296", b"24x", b"9" * 5000):
            self.assertEqual(needs.of(thread + b" NtClose 4\n", b"stop 1 5\n"), set())
        self.assertEqual(needs.of(b"0x18 NtClose 4\n", b"1 24 nothread\nend 1 1 0\n"), {"NtClose"})

    def test_bytes_that_are_no_text_name_nothing(self):
        self.assertEqual(needs.of(b"\xff\xfe 1\n24 \xff\n24\n-\n", b"stop 1 1\n"), set())

    def test_a_program_knows_no_name_where_it_says_so_of_that_line(self):
        script = b"boot 20 24\n24 NtClose 4\nlink \\A \\B\n"
        self.assertEqual(needs.unknown_at(script, b"stop 2 3\n"), "NtClose")
        self.assertEqual(needs.unknown_at(script, b"1 - boot 00000000\nstop 3 2\n"), "link")
        for other in (b"stop 2 2", b"stop 3 3", b"stop 2 5", b"stop 4 3", b"stop 0 3", b"end 3 2 2"):
            self.assertIsNone(needs.unknown_at(script, other + b"\n"), other)
        self.assertIsNone(needs.unknown_at(script, b"stop 2 3"))

    def test_each_probe_is_well_formed_and_names_one_thing(self):
        for name in needs.NAMES:
            self.assertEqual(needs.of(needs.probe(name), b"end 1 1 0\n"), {name})
        self.assertEqual(needs.not_built(lambda script: b"stop 1 3\n"), list(forms.CALLS))
        self.assertEqual(needs.not_built(lambda script: b""), [])

    @support.needs_program
    def test_the_program_knows_all(self):
        found = program.find()
        self.assertEqual(needs.not_built(lambda script: program.replay(found, script).printed), [])
        for name in needs.NAMES:
            self.assertEqual(program.replay(found, needs.probe(name)).status, 0, name)


class Skips(unittest.TestCase):
    def test_what_is_not_built_is_left_out_and_counted_apart(self):
        ran = run("--built", "--only", "thread/*", *EXAMPLE)
        self.assertEqual((ran.returncode, last(ran)), (1, "8 passed, 1 failed, 2 skipped"))
        self.assertIn("left out: what needs token, dir, link, resident, turn, NtConnectPort, ", ran.stdout)
        self.assertEqual(ran.stdout.count("of the transcript differs"), 1)

    def test_without_takes_names_and_may_stand_twice(self):
        for words in (["--without", "NtRequestPort,NtReplyWaitReceivePort"], ["--without", "NtRequestPort"] * 2):
            words += ["--without", "NtReplyWaitReceivePort"]
            ran = run(*words, "--only", "thread/*", *EXAMPLE)
            self.assertEqual((ran.returncode, last(ran)), (1, "8 passed, 1 failed, 2 skipped"))
        self.assertIn("left out: what needs NtRequestPort, NtReplyWaitReceivePort\n", ran.stdout)

    def test_where_all_is_left_out_no_script_was_run(self):
        ran = run("--without", "boot", "--only", SHORT, *EXAMPLE)
        self.assertEqual(ran.returncode, 1)
        self.assertTrue(ran.stdout.endswith("no script was run\n0 passed, 0 failed, 1 skipped\n"))

    def test_where_nothing_is_left_out_that_is_told_too(self):
        ran = run("--without", "NtClose", "--only", SHORT, *EXAMPLE)
        self.assertEqual((ran.returncode, last(ran)), (0, "1 passed, 0 failed, 0 skipped"))

    def test_a_program_that_breaks_down_is_not_taken_for_one_without_calls(self):
        ran = run("--built", "--only", "boot/*", "false")
        self.assertEqual((ran.returncode, last(ran)), (1, "0 passed, 13 failed, 0 skipped"))

    def test_it_is_told_that_scripts_can_be_left_out(self):
        ran = run("--only", "thread/*", *EXAMPLE)
        told = "doesn't know (NtReplyWaitReceivePort, NtRequestPort): 2;"
        self.assertIn(told, " ".join(ran.stdout.split()))
        self.assertEqual(last(ran), "8 passed, 3 failed")

    def test_only_may_stand_twice(self):
        whole = sum(int(last(run("--only", it, *EXAMPLE)).split()[0]) for it in (SHORT, "lines/an-empty-script"))
        both = run("--only", SHORT, "--only", "lines/an-empty-*", "--only", "boot/a-process-with-its-*", *EXAMPLE)
        self.assertEqual((whole, last(both)), (2, "2 passed, 0 failed"))


class Blocks(support.WithFolder):
    """What is told of a script that fails, and how failures are grouped."""

    def judged(self, script, wanted, printed):
        return judge.of_printed(script, wanted, printed)

    def test_the_rule_is_the_one_that_is_broken(self):
        ran = run("--only", WRONG, *EXAMPLE)
        self.assertIn("    see: SERVICES.md, thread TID PID: C0000035, C0000044\n", ran.stdout)
        self.assertIn("    rule: thread tests c0000035 ", ran.stdout)
        self.assertIn("          (SERVICES.md, Directives)\n", ran.stdout)

    def test_a_line_of_no_form_breaks_the_form_of_transcripts(self):
        found = self.judged(b"boot 20 24\n", b"1 - boot 00000000\nend 1 1 2\n", b"1 - boot C0000035\nend 1 1 2\n")
        self.assertEqual((found.cause.means, found.line), (judge.NO_TRANSCRIPT, 1))
        self.assertIn("its form: the status `C0000035` isn't 8 hexadecimal digits in lower case", found.told)

    def test_a_faulty_line_that_runs_on_is_one_whatever_is_printed_for_it(self):
        found = self.judged(b"0 NtCreatePort -\n", b"stop 1 5\n", b"1 0 nothread\nend 1 1 0\n")
        self.assertTrue(found.cause.means.startswith("it takes a faulty line for well formed: kind 5"))

    def test_a_fault_that_comes_before_the_name_is_no_matter_of_what_is_built(self):
        found = self.judged(b"24 NtClose 4\t\n", b"stop 1 1\n", b"stop 1 3\n")
        self.assertTrue(found.cause.means.endswith("kind 1 is told as kind 3"))
        self.assertIsNone(found.cause.unknown)
        found = self.judged(b"24 NtClose\n", b"stop 1 4\n", b"stop 1 3\n")
        self.assertEqual(found.cause.unknown, "NtClose")

    def test_a_line_of_no_form_behind_the_difference_changes_nothing(self):
        wanted = b"1 - boot 00000000\n2 - boot c0000035\nend 2 2 2\n"
        found = self.judged(b"boot 20 24\nboot 20 28\n", wanted, b"1 - boot 00000000\n2 - boot 00000000\nwhat\n")
        self.assertIn("boot is refused with c0000035", found.cause.rule)

    def test_a_program_that_breaks_down_breaks_no_rule(self):
        for code, told in (("kill -9 $$", "it ended with signal 9"), ("sleep 9", "it did not end within 0.5 seconds")):
            ran = run("--timeout", "0.5", "--only", SHORT, "sh", "-c", code)
            self.assertIn(f"    {told}", ran.stdout)
            self.assertNotIn("rule:", ran.stdout)

    def test_a_status_alone_has_its_rule(self):
        wanted = (SUITE / f"{SHORT}.transcript").read_text()
        ran = run("--only", SHORT, "sh", "-c", f"printf '{wanted}'; echo why >&2; exit 1")
        told = ["it ended with status 1, status 0 is wanted", "rule: A program ends with status 2 where ", "why"]
        self.assertEqual([it in ran.stdout for it in told], [True] * 3, ran.stdout)

    def test_a_missing_last_byte_is_told(self):
        found = self.judged(b"", b"end 0 0 0\n", b"end 0 0 0")
        self.assertIn("(without byte 10 at its end)", "\n".join(found.told))

    def test_faults_are_told_apart_by_kind_and_call(self):
        script = b"boot 20 24\n24 NtClose 4\n"
        wanted = b"1 - boot 00000000\n2 24 NtClose c0000008\nend 2 2 2\n"
        means = self.judged(script, wanted, b"1 - boot 00000000\nstop 2 5\n").cause.means
        self.assertTrue(means.endswith("kind 5, a number out of form or range, in a line of NtClose"), means)
        means = self.judged(script, b"stop 1 4\n", b"stop 1 5\n").cause.means
        self.assertTrue(means.endswith("kind 4 is told as kind 5"), means)
        means = self.judged(script, b"stop 1 5\n", wanted).cause.means
        self.assertTrue(means.endswith("kind 5, a number out of form or range, in a line of boot"), means)
        means = self.judged(script, wanted, b"1 - boot 00000000\n").cause.means
        self.assertTrue(means.endswith("in a line of NtClose"), means)

    def test_a_summary_has_a_block_for_each_cause(self):
        folder = pathlib.Path(self.folder.name)
        for case in (SHORT, "boot/a-process-number-is-used-once", "boot/a-thread-number-is-used-once", WRONG):
            (folder / case).parent.mkdir(exist_ok=True)
            ran = subprocess.run([*EXAMPLE, "replay"], input=self.script_of(case), capture_output=True)
            (folder / f"{case}.transcript").write_bytes(ran.stdout.replace(b"boot c0000035", b"boot c0000044"))
        only = [it for pattern in ("boot/a-*-used-once", SHORT, WRONG) for it in ("--only", pattern)]
        ran = run("--transcripts", folder, "--summary", *only)
        told = ran.stdout.splitlines()
        self.assertEqual((ran.returncode, told[-1]), (1, "1 passed, 3 failed"))
        self.assertTrue(told[0].startswith("2 scripts: it refuses the call for another cause"))
        self.assertIn("rule: boot is never refused with c0000044. It is with c0000035 where", told[1])
        shortest = min(("boot/a-process-number-is-used-once", "boot/a-thread-number-is-used-once"), key=self.size_of)
        self.assertIn(f"    the shortest is {shortest}", told)
        self.assertIn(f"    the shortest is {WRONG}", told)
        self.assertEqual(ran.stdout.count("of the transcript differs"), 2)

    def script_of(self, case):
        return suite.Case(case).script()

    def size_of(self, case):
        return sum(not it.startswith(b"#") for it in self.script_of(case).splitlines())


class Names(unittest.TestCase):
    """A program with handles and identifiers of its own."""

    SCRIPT = (
        b"boot 20 24\nthread 28 20\n24 NtCreatePort -\n# 4\n24 NtRequestWaitReplyPort 0x4 d:\n"
        b"28 NtReplyWaitReceivePort 8\n28 NtReplyWaitReceivePort 4\n28 NtReplyPort  4 r:20.24.1:41\n24 NtClose 4\n"
        b"24 NtQueryObject 4\n"
    )
    WANTED = (
        b"1 - boot 00000000\n2 - thread 00000000\n3 24 NtCreatePort 00000000 h=4\n"
        b"5 24 NtRequestWaitReplyPort wait id=1\n6 28 NtReplyWaitReceivePort c0000008\n"
        b"7 28 NtReplyWaitReceivePort 00000000 ctx=00000000 msg=000018000100000014000000180000000100000000000000\n"
        b"8 28 NtReplyPort 00000000\n"
        b"8 *24 NtRequestWaitReplyPort 00000000 msg=010019000200000014000000180000000100000000000000"
        b"41\n9 24 NtClose 00000000\n10 24 NtQueryObject c0000008\nend 10 10 3\n"
    )

    def of_got(self, *changes):
        """The script for a program whose transcript is the right one with these changes."""
        got = self.WANTED
        for change in changes:
            got = got.replace(*change)
        names = own_names.Names(self.SCRIPT, transcript.read(self.WANTED))
        return names.of_got(transcript.read(got)).splitlines()

    def test_names_that_are_the_same_change_nothing(self):
        self.assertEqual(self.of_got(), self.SCRIPT.splitlines())

    def test_handles_and_identifiers_are_the_programs_own(self):
        told = self.of_got((b"h=4", b"h=100"), (b"id=1", b"id=7"))
        self.assertEqual(told[4], b"24 NtRequestWaitReplyPort 100 d:")
        self.assertEqual(told[5:8:2], [b"28 NtReplyWaitReceivePort 8", b"28 NtReplyPort 100 r:20.24.7:41"])
        self.assertEqual(told[8:], [b"24 NtClose 100", b"24 NtQueryObject 100"])

    def test_a_value_that_names_nothing_names_nothing_of_the_programs(self):
        told = self.of_got((b"h=4", b"h=8"))
        self.assertEqual(told[4], b"24 NtRequestWaitReplyPort 8 d:")
        self.assertEqual(told[5], b"28 NtReplyWaitReceivePort 12")

    def test_a_space_gives_a_closed_name_its_own_last_value(self):
        space = own_names.Space()
        space.give(4, 100)
        self.assertEqual([space.of(4), space.of(100), space.of(own_names.MOST)], [100, 104, own_names.MOST])
        space.end(4)
        self.assertEqual([space.of(4), space.of(100)], [100, 100])
        space.give(8, 100)
        self.assertEqual([space.of(4), space.of(8)], [104, 100])
        space.give(12, own_names.MOST)
        self.assertEqual(space.of(own_names.MOST), own_names.MOST - 4)

    def test_a_message_of_all_bytes_has_the_identifier_too(self):
        whole = b"m:01001900000000001400000018000000010000000000000041"
        script = self.SCRIPT.replace(b"r:20.24.1:41", whole)
        names = own_names.Names(script, transcript.read(self.WANTED))
        told = names.of_got(transcript.read(self.WANTED.replace(b"id=1", b"id=258"))).splitlines()
        self.assertEqual(told[7], b"28 NtReplyPort 4 m:01001900000000001400000018000000020100000000000041")

    OFFER = (
        b"boot 20 24\n24 NtCreateSection 4096 4\n24 NtConnectPort \\P - w:4:0:0 -\n"
        b"24 NtConnectPort \\P - w:0x8:0:0 -\n"
    )
    REFUSED = (
        b"1 - boot 00000000\n2 24 NtCreateSection 00000000 h=4\n3 24 NtConnectPort c0000034\n"
        b"4 24 NtConnectPort c0000008\nend 4 4 3\n"
    )

    def test_the_section_of_a_view_has_the_programs_name(self):
        names = own_names.Names(self.OFFER, transcript.read(self.REFUSED))
        told = names.of_got(transcript.read(self.REFUSED.replace(b"h=4", b"h=8"))).splitlines()
        self.assertEqual(told[2], b"24 NtConnectPort \\P - w:8:0:0 -")
        self.assertEqual(told[3], b"24 NtConnectPort \\P - w:12:0:0 -")
        told = own_names.Symbols(self.OFFER, transcript.read(self.REFUSED)).trace().splitlines()
        self.assertEqual(told[1:3], [b"$l2 = 24 NtCreateSection 4096 4", b"24 NtConnectPort \\P - w:$l2:0:0 -"])
        self.assertEqual(told[3], b"24 NtConnectPort \\P - w:0x8:0:0 -")

    def test_symbols_stand_where_a_line_uses_what_another_gave(self):
        told = own_names.Symbols(self.SCRIPT, transcript.read(self.WANTED)).trace().splitlines()
        wanted = self.SCRIPT.splitlines()
        wanted[2], wanted[4] = b"$l3 = 24 NtCreatePort -", b"$l5 = 24 NtRequestWaitReplyPort $l3 d:"
        wanted[6:9] = [b"28 NtReplyWaitReceivePort $l3", b"28 NtReplyPort $l3 r:20.24.$l5:41", b"24 NtClose $l3"]
        self.assertEqual(told, wanted)

    def test_the_second_handle_of_a_call_and_that_of_a_wake_have_symbols(self):
        script = b"24 NtCreateProcess 32 36\n24 NtTerminateThread 8 0\n24 NtConnectPort \\P - - -\n24 NtClose 12\n"
        wanted = (
            b"1 24 NtCreateProcess 00000000 h=4 thread=8\n2 24 NtTerminateThread 00000000\n"
            b"3 24 NtConnectPort wait id=1\n3 *24 NtConnectPort 00000000 h=12 max=256 info=\n4 24 NtClose 00000000\n"
        )
        told = own_names.Symbols(script, transcript.read(wanted)).trace().splitlines()
        self.assertEqual(told[:2], [b"$l1 = 24 NtCreateProcess 32 36", b"24 NtTerminateThread $l1.thread 0"])
        self.assertEqual(told[2:], [b"$l3 = 24 NtConnectPort \\P - - -", b"24 NtClose $l3"])

    RAISED = (
        b"boot 20 24\n24 NtCreatePort -\n24 NtCreateProcess 32 36\n24 NtSetInformationProcess 8 7 4\n"
        b"36 raise 5 unhandled\n24 NtReplyWaitReceivePort 4\n24 NtReplyPort 4 r:32.36.1:\n24 NtReplyWaitReceivePort 4\n"
        b"24 NtReplyPort 4 r:32.36.2:02000100\n"
    )
    CONTINUED = (
        b"1 - boot 00000000\n2 24 NtCreatePort 00000000 h=4\n3 24 NtCreateProcess 00000000 h=8 thread=12\n"
        b"4 24 NtSetInformationProcess 00000000\n5 36 raise wait id=1\n"
        b"6 24 NtReplyWaitReceivePort 00000000 ctx=00000000 "
        b"msg=08002000080000002000000024000000010000000000000005000000" b"01000000\n7 24 NtReplyPort 00000000\n"
        b"8 24 NtReplyWaitReceivePort 00000000 ctx=00000000 "
        b"msg=08002000080000002000000024000000020000000000000005000000" b"02000000\n9 24 NtReplyPort 00000000\n"
        b"9 *36 raise 00010002\nend 9 10 5\n"
    )

    def test_an_event_that_goes_on_has_the_programs_identifier(self):
        names = own_names.Names(self.RAISED, transcript.read(self.CONTINUED))
        got = self.CONTINUED.replace(b"h=4", b"h=16").replace(b"id=1", b"id=7")
        got = got.replace(b"24000000010000", b"24000000070000").replace(b"24000000020000", b"240000000b0000")
        told = names.of_got(transcript.read(got)).splitlines()
        self.assertEqual(told[3], b"24 NtSetInformationProcess 8 7 16")
        self.assertEqual(told[6::2], [b"24 NtReplyPort 16 r:32.36.7:", b"24 NtReplyPort 16 r:32.36.11:02000100"])

    def test_an_event_that_goes_on_has_the_symbol_of_the_receive_that_shows_it(self):
        told = own_names.Symbols(self.RAISED, transcript.read(self.CONTINUED)).trace().splitlines()
        wanted = self.RAISED.splitlines()
        wanted[1:3] = [b"$l2 = 24 NtCreatePort -", b"$l3 = 24 NtCreateProcess 32 36"]
        wanted[3] = b"24 NtSetInformationProcess $l3 7 $l2"
        wanted[4:6] = [b"$l5 = 36 raise 5 unhandled", b"24 NtReplyWaitReceivePort $l2"]
        wanted[6:8] = [b"24 NtReplyPort $l2 r:32.36.$l5:", b"$l8 = 24 NtReplyWaitReceivePort $l2"]
        wanted[8] = b"24 NtReplyPort $l2 r:32.36.$l8:02000100"
        self.assertEqual(told, wanted)

    @support.needs_program
    def test_a_program_with_other_names_passes_up_to_names_alone(self):
        other = [sys.executable, pathlib.Path(__file__).with_name("renamed.py"), program.find()]
        only = [it for pattern in ("NtReplyPort/a-reply*", "closing/an-*") for it in ("--only", pattern)]
        ran = run(*only, *other)
        self.assertEqual((ran.returncode, last(ran)), (1, "0 passed, 15 failed"))
        ran = run("--up-to-names", *only, *other)
        self.assertEqual((ran.returncode, last(ran)), (0, "15 passed, 0 failed"))

    def test_what_is_wrong_beside_the_names_is_told(self):
        lines = self.WANTED.replace(b"h=4", b"h=100").replace(b"c0000008", b"c0000022", 1)
        found = self.judged(lines)
        self.assertEqual((found.line, found.printed), (6, "6 28 NtReplyWaitReceivePort c0000022"))
        told = self.judged(lines.replace(b"wait id=1", b"c0000008")).told
        self.assertIn("line 5 of the script: 24 NtRequestWaitReplyPort 0x4 d:", told)
        self.assertIn("as it was run: 24 NtRequestWaitReplyPort 100 d:", told)

    def judged(self, printed):
        """The failure of a program that prints this, whatever it reads."""
        code = f"import sys; sys.stdout.buffer.write({printed!r})"
        return judge.of_names(self.SCRIPT, self.WANTED, [sys.executable, "-c", code], 60)

    def test_names_that_are_others_each_time_are_told(self):
        code = f"import os; print({self.WANTED.decode()!r}.replace('h=4', 'h=' + str(os.getpid() * 4)), end='')"
        with unittest.mock.patch.object(judge, "MOST_RUNS", 5):
            found = judge.of_names(self.SCRIPT, self.WANTED, [sys.executable, "-c", code], 60)
        self.assertEqual(found.told, ("its handles or identifiers are others in each of 5 runs",))

    def test_a_line_without_a_form_is_told_where_nothing_before_it_differs(self):
        lines = self.WANTED.replace(b"h=4", b"h=100")
        found = self.judged(lines.replace(b"8 28 NtReplyPort", b"8 28  NtReplyPort"))
        self.assertEqual(found.cause.means, judge.NO_TRANSCRIPT)
        self.assertTrue(found.told[0].startswith("line 7 of what it printed: its words aren't parted"), found.told)
        found = self.judged(lines.replace(b"8 28 NtReplyPort", b"8 28  NtReplyPort").replace(b"wait id=1", b"c0000008"))
        self.assertIn("wanted:  5 24 NtRequestWaitReplyPort wait id=1", found.told)

    def test_a_program_that_does_not_end_is_run_once(self):
        found = judge.of_names(self.SCRIPT, self.WANTED, ["sh", "-c", "echo 1 - boot 00000000; sleep 30"], 0.3)
        self.assertEqual(found.cause.means, "it did not end within 0.3 seconds")

    def test_a_program_that_tells_nothing_fails(self):
        for command in (["true"], ["/nonexistent"], ["sh", "-c", "echo no transcript"]):
            self.assertIsNotNone(judge.of_names(self.SCRIPT, self.WANTED, command, 60), command)
            self.assertIsNotNone(judge.of_names(b"", b"end 0 0 0\n", command, 60), command)
        ran = run("--up-to-names", "--only", SHORT, *EXAMPLE)
        self.assertEqual((ran.returncode, last(ran)), (0, "1 passed, 0 failed"))


# Answers line by line, with handles that are others in each run; it knows boot, NtCreatePort and NtClose alone.
ANSWERS = """
import random, sys
base, handles, ports = random.randrange(1000, 9000), [], 0
for number, line in enumerate(iter(sys.stdin.readline, ""), 1):
    words = line.split()
    if line.startswith("#") or not words:
        print(end="", flush=True)
    elif words[0] == "boot":
        print(number, "- boot 00000000", flush=True)
    elif words[1] == "NtCreatePort":
        handles.append(base + 4 * len(handles))
        print(number, words[0], f"NtCreatePort 00000000 h={handles[-1]}", flush=True)
    elif words[1] == "NtClose":
        good = int(words[2]) in handles
        handles = [it for it in handles if it != int(words[2])] + [0] * good
        print(number, words[0], "NtClose", "00000000" if good else "c0000008", flush=True)
    else:
        print("stop", number, 3, flush=True)
        sys.exit(2)
print("end", number, number, 2 + sum(map(bool, handles)), flush=True)
"""


class Talks(unittest.TestCase):
    """A program that answers each line before it reads the next one."""

    SCRIPT = b"boot 20 24\n24 NtCreatePort -\n24 NtCreatePort -\n24 NtClose 8\n24 NtClose 8\n24 NtClose 4"
    WANTED = (
        b"1 - boot 00000000\n2 24 NtCreatePort 00000000 h=4\n3 24 NtCreatePort 00000000 h=8\n4 24 NtClose 00000000\n"
        b"5 24 NtClose c0000008\n6 24 NtClose 00000000\nend 6 6 2\n"
    )

    def of_talk(self, *command, script=SCRIPT, wanted=WANTED, timeout=20):
        return judge.of_talk(script, wanted, list(command), timeout)

    def test_handles_may_be_others_in_each_run(self):
        self.assertIsNone(self.of_talk(sys.executable, "-c", ANSWERS))
        with unittest.mock.patch.object(judge, "MOST_RUNS", 4):
            found = judge.of_names(self.SCRIPT, self.WANTED, [sys.executable, "-c", ANSWERS], 20)
        self.assertEqual(found.told, ("its handles or identifiers are others in each of 4 runs",))

    def test_what_is_wrong_is_told_with_the_line_as_it_was_run(self):
        found = self.of_talk(sys.executable, "-c", ANSWERS.replace('"c0000008"', '"c0000022"'))
        self.assertEqual((found.line, found.printed), (5, "5 24 NtClose c0000022"))
        self.assertRegex(found.told[1], r"\Aas it was run: 24 NtClose \d{4}\Z")

    def test_a_faulty_line_ends_it(self):
        script, wanted = b"boot 20 24\n24 NtFoo\n24 NtClose 4\n", b"1 - boot 00000000\nstop 2 3\n"
        self.assertIsNone(self.of_talk(sys.executable, "-c", ANSWERS, script=script, wanted=wanted))

    def test_a_program_that_answers_at_the_end_alone_is_told(self):
        late = ANSWERS.replace('iter(sys.stdin.readline, "")', "sys.stdin.readlines()")
        with unittest.mock.patch.object(judge, "QUIET", 0.5):
            found = self.of_talk(sys.executable, "-c", late)
        self.assertIn("it told too little of line 1 before line 2 was written", found.told)

    def test_programs_that_break_down_end_it(self):
        for code, told in {
            "exit 3": "it ended with status 3, status 0 is wanted",
            "kill -9 $$": "it ended with signal 9, status 0 is wanted",
            "exec sleep 30": "it did not end within 1 seconds",
            "exec yes": "it printed more and more, and was ended",
            "exec <&-; sleep 0.1; echo 1 - boot 00000000": "printed: (nothing)",
        }.items():
            found = self.of_talk("sh", "-c", code, timeout=1 if "sleep 30" in code else 20)
            self.assertIn(told, found.told)
        self.assertIn("could not be started", self.of_talk("/nonexistent").told[0])

    def test_the_example_passes_line_by_line(self):
        ran = run("--line-by-line", "--built", "--only", "thread/*", sys.executable, "-u", *EXAMPLE[1:])
        self.assertEqual((ran.returncode, last(ran)), (1, "8 passed, 1 failed, 2 skipped"))


class Files(support.WithFolder):
    """The files with results, the suite as data, and transcripts made elsewhere."""

    def test_json_has_each_script(self):
        file = self.file("results.json", b"what stood there" * 1000)
        run("--built", "--only", "thread/*", "--json", file, *EXAMPLE)
        found = json.loads(pathlib.Path(file).read_bytes())
        self.assertEqual([found[it] for it in ("passed", "failed", "skipped")], [8, 1, 2])
        failed = [it for it in found["scripts"] if it["result"] == "failed"]
        self.assertEqual([it["script"] for it in failed], [WRONG])
        self.assertEqual((failed[0]["line"], failed[0]["wanted"]), (68, "68 - thread c0000035"))
        self.assertEqual((failed[0]["printed"], failed[0]["page"]), ("68 - thread c0000044", "SERVICES.md, Directives"))
        skipped = {it["script"]: it["needs"] for it in found["scripts"] if it["result"] == "skipped"}
        self.assertEqual(skipped["thread/threads-that-wait-are-live-threads"], ["NtReplyWaitReceivePort"])

    def test_junit_has_what_was_skipped(self):
        file = str(pathlib.Path(self.folder.name) / "new.xml")
        run("--built", "--only", "thread/*", "--junit", file, *EXAMPLE)
        top = xml.parse(file).getroot()
        self.assertEqual([top.get(it) for it in ("tests", "failures", "skipped")], ["11", "1", "2"])
        self.assertEqual(len(top.findall("testcase/skipped")), 2)

    def test_a_file_that_cannot_be_written_is_refused_before_the_run(self):
        file = pathlib.Path(self.folder.name) / "ran"
        for option in ("--json", "--junit"):
            ran = run("--only", SHORT, option, self.folder.name, "sh", "-c", f"touch {file}")
            self.assertEqual((ran.returncode, ran.stdout, file.exists()), (64, "", False))
            self.assertIn(f"{self.folder.name} can't be written: Is a directory\n", ran.stderr)

    @unittest.skipUnless(os.path.exists("/dev/full"), "this system has no /dev/full")
    def test_a_full_disk_is_told(self):
        ran = run("--only", SHORT, "--json", "/dev/full", *EXAMPLE)
        self.assertEqual((ran.returncode, ran.stdout), (1, "1 passed, 0 failed\n"))
        self.assertEqual(ran.stderr, "conformance/run: /dev/full can't be written: No space left on device\n")
        export = ("export", f"{self.folder.name}/new", "--only", SHORT)
        for words in (("run", "--only", SHORT, *EXAMPLE), ("run", "--help"), ("coverage", "--help"), export):
            with open("/dev/full", "wb") as sink:
                ran = command(*words, capture_output=False, stdout=sink, stderr=subprocess.PIPE)
            told = f"conformance/{words[0]}: the output can't be written: No space left on device\n"
            self.assertEqual((ran.returncode, ran.stderr), (1, told))

    def test_an_output_that_is_closed_is_told(self):
        for name, words in (("run", EXAMPLE), ("coverage", []), ("export", [f"{self.folder.name}/new"])):
            closed = ["sh", "-c", 'exec "$@" >&-', "sh", SUITE / name, *words]
            ran = subprocess.run(closed, capture_output=True, text=True)
            self.assertEqual((ran.returncode, ran.stderr), (1, f"conformance/{name}: the standard output is closed\n"))

    def test_the_suite_is_exported_and_judged(self):
        folder = pathlib.Path(self.folder.name) / "suite"
        ran = command("export", "--only", SHORT, "--only", WRONG, folder)
        self.assertEqual((ran.returncode, ran.stdout), (0, "written: scripts with their transcripts, 2\n"))
        script = folder / f"{WRONG}.script"
        self.assertEqual(script.read_bytes(), suite.Case(WRONG).script())
        self.assertEqual((folder / f"{SHORT}.script").read_bytes(), (SUITE / f"{SHORT}.script").read_bytes())
        only = ("--only", SHORT, "--only", WRONG)
        ran = run("--transcripts", folder, *only)
        self.assertEqual((ran.returncode, ran.stdout), (0, "2 passed, 0 failed\n"))
        ran = subprocess.run([*EXAMPLE, "replay"], input=script.read_bytes(), capture_output=True)
        script.with_suffix(".transcript").write_bytes(ran.stdout)
        ran = run("--transcripts", folder, *only)
        self.assertEqual((ran.returncode, last(ran)), (1, "1 passed, 1 failed"))
        self.assertIn("printed: 68 - thread c0000044\n", ran.stdout)
        script.with_suffix(".transcript").unlink()
        self.assertIn("its transcript can't be read: No such file", run("--transcripts", folder, *only).stdout)

    @support.needs_program
    def test_exported_traces_become_scripts_with_the_right_transcript(self):
        folder = pathlib.Path(self.folder.name) / "suite"
        only = [it for pattern in ("closing/an-*", "NtCreateThread/the-*") for it in ("--only", pattern)]
        self.assertEqual(command("export", "--names", *only, folder).returncode, 0)
        traces = sorted(folder.rglob("*.trace"))
        self.assertGreater(len(traces), 5)
        for trace in traces:
            script = support.inside("script", trace).stdout.encode("latin-1")
            printed = program.replay(program.find(), script).printed
            self.assertEqual(printed, trace.with_suffix(".transcript").read_bytes(), trace)
            self.assertIn(b"$l", trace.read_bytes())

    def test_an_export_overwrites_nothing(self):
        file = self.file("mine", b"")
        for place, told in ((self.folder.name, "isn't empty"), (file, "is no folder")):
            ran = command("export", "--only", SHORT, place)
            self.assertEqual((ran.returncode, ran.stdout), (64, ""))
            self.assertTrue(ran.stderr.endswith(f"conformance/export: {place} {told}\n"), ran.stderr)
        ran = command("export", "--only", SHORT, f"{file}/below")
        self.assertEqual(ran.returncode, 1)
        self.assertIn("can't be written: Not a directory\n", ran.stderr)
        self.assertEqual(os.listdir(self.folder.name), ["mine"])

    def test_an_export_of_nothing_fails(self):
        ran = command("export", "--only", "none", f"{self.folder.name}/new")
        self.assertEqual((ran.returncode, ran.stdout), (1, "written: scripts with their transcripts, 0\n"))


class WrongWords(support.WithFolder):
    def test_each_has_a_message(self):
        folder = self.folder.name
        wrong = {
            (): "a program is missing",
            ("--only", "boot/*"): "a program is missing",
            ("/nonexistent",): "/nonexistent is no program that can be run",
            ("--without", "NtFoo", "true"): "'NtFoo' is no call and no directive",
            ("--without", "NtClose,", "true"): "'' is no call and no directive",
            ("--transcripts", "/nonexistent"): "/nonexistent is no folder",
            ("--transcripts", folder, "true"): "--transcripts and a program can't both be given",
            ("--transcripts", folder, "--built"): "--built asks a program",
            ("--transcripts", folder, "--up-to-names"): "--up-to-names runs a program",
            ("--transcripts", folder, "--line-by-line"): "--up-to-names runs a program",
            ("--junit", f"{folder}/a", "--json", f"{folder}/./a", "true"): "--junit and --json name the same file",
        }
        for words, told in wrong.items():
            ran = run(*words)
            self.assertEqual((ran.returncode, ran.stdout), (64, ""), words)
            self.assertIn(told, ran.stderr)
        self.assertEqual(os.listdir(folder), [])

    def test_those_of_coverage_have_one_too(self):
        ran = command("coverage", "/nonexistent")
        self.assertEqual((ran.returncode, ran.stdout), (64, ""))
        self.assertTrue(ran.stderr.endswith("conformance/coverage: /nonexistent is no program that can be run\n"))
        self.assertEqual(command("coverage", "--unknown").returncode, 64)
        broken = self.file("broken", b"\x7fELF")
        os.chmod(broken, 0o755)
        ran = command("coverage", broken)
        self.assertEqual((ran.returncode, ran.stdout), (1, ""))
        self.assertIn(f"{broken} can't be started: ", ran.stderr)


class Bench(unittest.TestCase):
    """The words of what measures the program."""

    def bench(self, *words):
        return subprocess.run([support.ROOT / "bench" / "run.py", *words], capture_output=True, text=True, timeout=60)

    def test_help_is_told_and_nothing_is_run(self):
        ran = self.bench("--help")
        self.assertEqual((ran.returncode, ran.stderr), (0, ""))
        self.assertIn("usage: bench/run.py [PROGRAM]\n", ran.stdout)
        self.assertNotIn("| Script |", ran.stdout)

    def test_wrong_words_have_a_message(self):
        for words, told in {("/nonexistent",): "/nonexistent is no program that can be run", ("a", "b"): "b"}.items():
            ran = self.bench(*words)
            self.assertEqual((ran.returncode, ran.stdout), (64, ""))
            self.assertIn(told, ran.stderr)


if __name__ == "__main__":
    unittest.main()
