"""`script`: a trace with names becomes the script that the page shows, and what can't become one is told exactly."""
import unittest

import support
from ntlpc_tool import program, trace, transcript

TRACES = support.ROOT / "examples" / "traces"
# What the lines of examples/traces/own.script are told, worked by hand from docs/SERVICES.md.
OWN = (TRACES / "own.transcript").read_bytes()


class Replay:
    """Stands in for the program: the lines of a transcript that the lines of a script have made so far."""

    def __init__(self, told):
        self.told, self.runs = transcript.read(told), []

    def __call__(self, script):
        lines = script.count(b"\n")
        self.runs.append(lines)
        closing = self.told.closing
        stopped = closing and closing.word == "stop" and closing.numbers[0] <= lines
        return transcript.Transcript(
            tuple(it for it in self.told.entries if it.line <= lines), closing if stopped else None
        )


def script_of(source, told):
    """The script that lines of a trace become where these entries are told."""
    replay = Replay("".join(f"{it}\n" for it in told).encode())
    found = trace.Trace("".join(f"{it}\n" for it in source).encode(), replay)
    return [line for _, line in found.lines()]


BOOT = ["boot @server @main", "- boot 00000000"]
CREATE = ["$port = @main NtCreatePort -", "24 NtCreatePort 00000000 h=4"]


class Lines(unittest.TestCase):
    """Each of the pairs is a line of a trace, and what it is told, without its number."""

    def of(self, *pairs, further=()):
        """The last line of the script that lines of a trace become."""
        told = [f"{at} {it}" for at, (_, it) in enumerate(pairs, 1) if it]
        return script_of([it for it, _ in pairs], [*told, *further])[-1]

    def wrong(self, *pairs, further=()):
        with self.assertRaises(trace.Wrong) as caught:
            self.of(*pairs, further=further)
        return str(caught.exception)

    def test_names_get_numbers_in_their_order(self):
        source = ["boot @server @main", "thread @worker @server", "boot 0x20 36", "boot @c @c1", "@c1 NtClose 4"]
        wanted = ["boot 20 24", "thread 28 20", "boot 0x20 36", "boot 40 44", "44 NtClose 4"]
        self.assertEqual(script_of(source, []), wanted)

    def test_a_handle(self):
        self.assertEqual(self.of(BOOT, CREATE, ("@main NtListenPort $port", None)), "24 NtListenPort 4")

    def test_a_view_that_is_offered(self):
        section = ["$section = @main NtCreateSection 4096 4", "24 NtCreateSection 00000000 h=8"]
        connect = ("@main NtConnectPort \\P - w:$section:0:0x1000 -", None)
        self.assertEqual(self.of(BOOT, CREATE, section, connect), "24 NtConnectPort \\P - w:8:0:0x1000 -")
        told = "24 NtMapViewOfSection 00000000 base=00010000 size=4096"
        mapped = ["$view = @main NtMapViewOfSection $section 0 0 4", told]
        connect = ("@main NtConnectPort \\P - w:8:0:$view.size -", None)
        self.assertEqual(self.of(BOOT, CREATE, section, mapped, connect), "24 NtConnectPort \\P - w:8:0:4096 -")

    def test_an_identifier(self):
        sent = ["$sent = @main NtRequestPort $port d:61", "24 NtRequestPort 00000000 id=1"]
        self.assertEqual(
            self.of(BOOT, CREATE, sent, ("@main NtReplyPort $port r:$sent:", None)), "24 NtReplyPort 4 r:20.24.1:"
        )
        reply = ("@main NtReplyPort $port r:@server.@main.$sent:0a", None)
        self.assertEqual(self.of(BOOT, CREATE, sent, reply), "24 NtReplyPort 4 r:20.24.1:0a")

    RECEIVED = [
        "$seen = @main NtReplyWaitReceivePort $port",
        "24 NtReplyWaitReceivePort 00000000 ctx=0000000a msg=010019000300000020000000240000000500000000000000ff",
    ]

    def test_a_message_that_was_received(self):
        front = BOOT, CREATE, self.RECEIVED
        self.assertEqual(self.of(*front, ("@main NtReplyPort $port r:$seen:43", None)), "24 NtReplyPort 4 r:32.36.5:43")
        parts = ("@main NtReplyPort $port r:$seen.process.$seen.thread.$seen.id:", None)
        self.assertEqual(self.of(*front, parts), "24 NtReplyPort 4 r:32.36.5:")
        accept = ("@main NtAcceptConnectPort $seen.ctx r:0x20.36.$seen.id: accept -", None)
        self.assertEqual(self.of(*front, accept), "24 NtAcceptConnectPort 0x0000000a r:0x20.36.5: accept -")
        found = ("@main NtQueryObject $seen.thread", None)
        self.assertEqual(self.of(*front, found), "24 NtQueryObject 36")

    def test_a_message_that_comes_with_a_wake(self):
        told = [
            "1 - boot 00000000",
            "2 24 NtCreatePort 00000000 h=4",
            "3 24 NtReplyWaitReceivePort wait",
            "4 40 nothread",
        ]
        source = [BOOT[0], CREATE[0], self.RECEIVED[0], "40 NtClose 4", "@main NtReplyPort $port r:$seen:"]
        self.assertEqual(script_of(source, [*told, f"4 *{self.RECEIVED[1]}"])[-1], "24 NtReplyPort 4 r:32.36.5:")

    CONNECT = ["$link = @main NtConnectPort \\P - - -", "24 NtConnectPort wait id=9"]

    def test_a_connect_has_its_handle_when_it_wakes(self):
        told = [
            "1 - boot 00000000",
            "2 24 NtConnectPort wait id=9",
            "3 40 nothread",
            "3 *24 NtConnectPort 00000000 h=12 max=256 info=",
        ]
        source = [BOOT[0], self.CONNECT[0], "40 NtClose 4", "@main NtClose $link", "@main NtReplyPort 4 r:$link:"]
        self.assertEqual(script_of(source, told)[3:], ["24 NtClose 12", "24 NtReplyPort 4 r:20.24.9:"])
        source = [BOOT[0], self.CONNECT[0], "40 NtReplyPort 4 r:@server.@main.$link:"]
        self.assertEqual(script_of(source, told)[2], "40 NtReplyPort 4 r:20.24.9:")

    def test_what_a_call_makes_has_names(self):
        made = ["$child = @main NtCreateProcess @client @ui", "24 NtCreateProcess 00000000 h=4 thread=8"]
        more = ["$more = @main NtCreateThread $child @worker", "24 NtCreateThread 00000000 h=12"]
        own = ["@main NtCreateThread self @own", "24 NtCreateThread 00000000 h=16"]
        front = BOOT, made, more, own
        self.assertEqual(self.of(BOOT, (made[0], None)), "24 NtCreateProcess 28 32")
        self.assertEqual(self.of(BOOT, made, (more[0], None)), "24 NtCreateThread 4 36")
        self.assertEqual(self.of(*front, ("@main NtTerminateThread $child.thread 0", None)), "24 NtTerminateThread 8 0")
        for thread, client in (("ui", "28.32"), ("worker", "28.36"), ("own", "20.40")):
            sent = [f"$sent = @{thread} NtRequestPort 4 d:", f"{client[3:]} NtRequestPort 00000000 id=3"]
            reply = ("@main NtReplyPort 4 r:$sent:", None)
            self.assertEqual(self.of(*front, sent, reply), f"24 NtReplyPort 4 r:{client}.3:")
        twice = self.wrong(*front, ("@main NtCreateThread self @ui", None))
        self.assertEqual(twice, "line 5: @ui is bound twice; it is 32 since line 2")

    def test_what_has_no_names_stays_as_it_is(self):
        source = ["# $a @b", "", "  dir  \\$x@y ", "link \\a.$b \\c", "boot 4 8", "r:x"]
        self.assertEqual(script_of(source, []), source)

    def test_carriage_returns_go_and_other_bytes_stay(self):
        replay = Replay(b"")
        found = trace.Trace(b"# \xe9\xff\r\nboot @a @b\r\n", replay)
        self.assertEqual([line.encode("latin-1") for _, line in found.lines()], [b"# \xe9\xff", b"boot 20 24"])

    def test_the_program_is_run_where_a_symbol_wants_it(self):
        replay = Replay(OWN)
        trace.Trace((TRACES / "own.trace").read_bytes(), replay).lines()
        # Behind the lines above: $api in 7, $asked in 8, $channel in 9, $link in 10, $request in 12, and at the end.
        self.assertEqual(replay.runs, [6, 7, 8, 9, 11, 15])

    # What can't become a script.

    def test_unknown_names(self):
        self.assertEqual(self.wrong(("@x NtClose 4", None)), "line 1: @x is unknown: no line above makes it")
        self.assertEqual(self.wrong(BOOT, ("thread @t @p", None)), "line 2: @p is unknown: no line above makes it")
        for word in ("$x", "$x.ctx", "r:$x:41", "r:1.2.$x:"):
            told = self.wrong(BOOT, (f"@main NtReplyPort 4 {word}", None))
            self.assertEqual(told, "line 2: $x is unknown: no line above binds it")
        told = self.wrong(BOOT, ("$x = @main NtClose $x", None))
        self.assertEqual(told, "line 2: $x is unknown: no line above binds it")

    def test_names_that_are_bound_twice(self):
        self.assertEqual(
            self.wrong(BOOT, ("boot @other @main", None)), "line 2: @main is bound twice; it is 24 since line 1"
        )
        told = self.wrong(BOOT, CREATE, ("$port = @main NtCreatePort -", None))
        self.assertEqual(told, "line 3: $port is bound twice; it is bound since line 2")

    def test_a_directive_binds_nothing(self):
        told = self.wrong(("$d = dir \\A", None))
        self.assertEqual(told, "line 1: $d can't be bound to this line: only a thread's call gives something")

    def test_a_word_of_no_form(self):
        told = self.wrong(BOOT, CREATE, ("@main NtClose $port.", None))
        self.assertEqual(told, "line 3: `$port.` is neither $NAME nor $NAME.FIELD")

    def test_a_call_that_was_refused(self):
        refused = ["$port = @main NtCreatePort \\A\\B", "24 NtCreatePort c000003a"]
        told = self.wrong(BOOT, refused, ("@main NtClose $port", None))
        why = "the call of line 2, NtCreatePort, was refused with c000003a OBJECT_PATH_NOT_FOUND"
        self.assertEqual(told, f"line 3: $port has no h: {why}")

    def test_a_call_that_still_waits(self):
        told = self.wrong(BOOT, self.CONNECT, ("40 NtClose $link", None))
        self.assertEqual(told, "line 3: $link has no h: the call of line 2, NtConnectPort, still waits here")

    def test_a_call_whose_thread_died(self):
        died = ("28 NtTerminateProcess self 0", "~24 died 00000000")
        told = self.wrong(BOOT, self.CONNECT, died, ("40 NtClose $link", None))
        why = "the call of line 2, NtConnectPort, never returned, since its thread died"
        self.assertEqual(told, f"line 4: $link has no h: {why}")

    def test_a_call_that_ended_without_it(self):
        told = [
            "1 - boot 00000000",
            "2 24 NtConnectPort wait id=9",
            "3 40 nothread",
            "3 *24 NtConnectPort c0000041 info=",
        ]
        with self.assertRaises(trace.Wrong) as caught:
            script_of([BOOT[0], self.CONNECT[0], "40 NtClose 4", "@main NtClose $link"], told)
        why = "the call of line 2, NtConnectPort, ended with c0000041 PORT_CONNECTION_REFUSED"
        self.assertEqual(str(caught.exception), f"line 4: $link has no h: {why}")

    def test_a_call_that_was_not_made(self):
        busy = ["$port = @main NtCreatePort -", "24 busy"]
        told = self.wrong(BOOT, busy, ("@main NtClose $port", None))
        self.assertIn("wasn't made, since thread 24 waited in an earlier one", told)
        told = self.wrong(("$port = 99 NtCreatePort -", "99 nothread"), ("99 NtClose $port", None))
        self.assertIn("wasn't made, since there was no live thread 99", told)

    def test_a_field_that_the_call_has_not(self):
        told = self.wrong(BOOT, CREATE, ("@main NtClose $port.id", None))
        self.assertEqual(told, "line 3: $port has no id: the call of line 2, NtCreatePort, gave h")
        told = self.wrong(BOOT, CREATE, self.RECEIVED, ("@main NtClose $seen", None))
        self.assertEqual(told, "line 4: $seen is a message, bound in line 3: write r:$seen:, $seen.ctx or $seen.id")
        told = self.wrong(BOOT, CREATE, self.RECEIVED, ("@main NtClose $seen.msg", None))
        self.assertEqual(told, "line 4: $seen.msg is no number")

    def test_a_faulty_line(self):
        told = self.wrong(BOOT, ("@main NtFoo", None), further=["stop 2 3"])
        told_kind = "kind 3 (the second word is the name of no call)"
        self.assertEqual(told, f"line 2: the line `24 NtFoo` is faulty, {told_kind}")

    def test_a_file_that_is_no_text_is_told_in_plain_and_short(self):
        for data in (b"@\x00\xff$a\n" * 1000, b"\x1b[2J @a.\x07\n", b"@" + b"\x00" * 5000 + b"\n"):
            with self.assertRaises(trace.Wrong) as wrong:
                trace.Trace(data, lambda script: transcript.Transcript((), None)).lines()
            self.assertTrue(str(wrong.exception).isprintable() and len(str(wrong.exception)) < 330)


class Command(support.WithFolder):
    @support.needs_program
    def test_each_example_becomes_its_script(self):
        traces = sorted(TRACES.glob("*.trace"))
        self.assertTrue(traces)
        for path in traces:
            with self.subTest(path.name):
                ran = support.run("script", path)
                self.assertEqual((ran.returncode, ran.stdout), (0, path.with_suffix(".script").read_text()))

    @support.needs_program
    def test_each_example_has_its_transcript(self):
        for path in sorted(TRACES.glob("*.script")):
            with self.subTest(path.name):
                ran = program.replay(program.find(), path.read_bytes())
                self.assertEqual((ran.status, ran.printed), (0, path.with_suffix(".transcript").read_bytes()))

    @support.needs_program
    def test_each_script_stays_as_it_is(self):
        for path in support.EXAMPLES:
            closing = transcript.read(path.with_suffix(".transcript").read_bytes()).closing
            if closing.word == "end":
                ran = support.inside("script", path)
                self.assertEqual((ran.returncode, ran.stdout), (0, path.read_text()), path)

    @support.needs_program
    def test_a_faulty_script_is_told(self):
        ran = support.run("script", support.ROOT / "examples" / "faulty-line.script")
        self.assertEqual((ran.returncode, ran.stdout), (1, ""))
        self.assertIn("line 4: the line `24 NtReplyPort 08 d:` is faulty, kind 5 (a number out of ", ran.stderr)

    @support.needs_program
    def test_a_binary_file_is_told_in_one_line(self):
        ran = support.run("script", "-", source=bytes(range(256)) * 40)
        self.assertEqual((ran.returncode, ran.stdout), (1, ""))
        self.assertRegex(ran.stderr, r"\Antlpc-tool script: the standard input, line 1: [ -~]{1,330}\n\Z")

    @support.needs_program
    def test_lines_are_kept_as_comments(self):
        source = b"# a\nboot @a @b\n$p = @b NtCreatePort -\ndir \\D\n@b NtClose $p\n"
        ran = support.run("script", "-", "--comments", source=source)
        wanted = (
            "# a\n# boot @a @b\nboot 20 24\n# $p = @b NtCreatePort -\n24 NtCreatePort -\ndir \\D\n# @b NtClose $p\n"
            "24 NtClose 4\n"
        )
        self.assertEqual((ran.returncode, ran.stdout), (0, wanted))


if __name__ == "__main__":
    unittest.main()
