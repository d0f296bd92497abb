"""`page`: what it tells of each line, what it draws, that nothing breaks out of it, and what a browser makes of it.

What has to stand in the pages is read from the stored transcripts, or was worked by hand from the entries.
"""
import base64
import hashlib
import importlib.util
import os
import pathlib
import re
import subprocess
import sys
import unittest
import xml.etree.ElementTree as xml

import reading
import support
from ntlpc_tool import main

FIRST = support.ROOT / "examples" / "first-request.script"
# One script of each folder of the suite.
SUITE = [min(it.glob("*.script")) for it in sorted((support.ROOT / "conformance").iterdir()) if [*it.glob("*.script")]]
DOCS = (support.ROOT / "docs").as_uri()
POLICY = re.compile("<meta http-equiv=[^>]*>")
MISCHIEF = rb"""\<script>alert(1)</script>&amp;"'<!--]]>$title</style><svg/onload=alert(2)>"""


def text_of(script, *words, transcript=None):
    """The page of a script that has its transcript beside it."""
    script = pathlib.Path(script)
    ran = support.inside("page", script, "--transcript", transcript or script.with_suffix(".transcript"), *words)
    assert (ran.returncode, ran.stderr) == (0, ""), (script, ran.stderr)
    return ran.stdout


def printed(script):
    """The lines of a stored transcript."""
    return pathlib.Path(script).with_suffix(".transcript").read_text(encoding="ascii").splitlines()


def words(node):
    """The text of a node, with single spaces."""
    return " ".join(node.text().split())


class WithPages(support.WithFolder):
    """A test that writes a script and its transcript."""

    def page(self, script, transcript, *given, name="s"):
        """The tree of the page of a script."""
        path, other = self.file(name, script), self.file("t", transcript)
        return reading.tree(text_of(path, *given, transcript=other))


class Examples(unittest.TestCase):
    """Each example, and some scripts of the suite."""

    @classmethod
    def setUpClass(cls):
        cls.texts = {it: text_of(it) for it in (*support.EXAMPLES, *SUITE)}
        cls.pages = {it: reading.tree(text) for it, text in cls.texts.items()}

    def test_each_line_of_the_transcript_stands_there_once(self):
        for script, page in self.pages.items():
            self.assertEqual([it.text() for it in page.all("code", "raw")], printed(script), script)

    def test_each_line_of_the_script_stands_there_with_its_entries(self):
        for script, page in self.pages.items():
            lines = script.read_bytes().split(b"\n")
            for number, line in enumerate(lines, 1):
                entries = [it for it in printed(script) if it.split()[0] == str(number)]
                if not line.strip(b" ") or len(line) > 700 or not line.isascii() or not line.decode().isprintable():
                    continue
                node = page.one(f"line-{number}")
                self.assertEqual(next(node.all("code")).text(), line.decode(), script)
                shown = [it.text() for it in node.all("code", "raw")]
                self.assertEqual([it for it in shown if not it.startswith("stop")], entries, script)

    def test_what_entries_mean_is_told_as_by_show(self):
        for script, page in self.pages.items():
            ran = support.inside("show", script.with_suffix(".transcript"))
            told = [" ".join(re.sub(r"^line \d+", "", it).split()) for it in ran.stdout.splitlines()]
            means = []
            for node in page.all("div", "entry"):
                (part,) = node.all("div", "told")
                for it in part.inner:
                    if it.tag in ("p", "pre"):
                        means += [" ".join(row.split()) for row in it.text().splitlines()]
            self.assertEqual(means, told[: len(means)], script)
            self.assertTrue(all(re.match("no thread waits|thread .* still waits", it) for it in told[len(means) :]))

    def test_who_waits_behind_each_line(self):
        for script, page in self.pages.items():
            waiting, behind = [], {}
            for entry in printed(script)[:-1]:
                number, thread, *rest = entry.split()
                if rest[1:2] == ["wait"]:
                    waiting.append(thread)
                elif thread[0] in "*~":
                    waiting = [it for it in waiting if it != thread[1:]]
                behind[number] = waiting[:]
            for step in page.all("article", "step"):
                (node,) = step.all("div", "waits")
                shown = re.findall(r"thread (\d+) waits in", node.text())
                wanted = behind.get(step.attributes["data-key"], waiting)
                self.assertEqual(shown, wanted, (script, step.attributes["data-key"]))
                self.assertEqual("no thread waits" in node.text(), not wanted)

    def test_the_links_lead_to_headings(self):
        place = support.ROOT / "tests" / "pages.py"
        spec = importlib.util.spec_from_file_location("pages_of_the_checkout", place)
        checks = importlib.util.module_from_spec(spec)
        sys.path.insert(0, str(place.parent))
        self.addCleanup(sys.path.remove, str(place.parent))
        spec.loader.exec_module(checks)
        seen = {it.attributes["href"] for page in self.pages.values() for it in page.all("a")}
        outside = {it for it in seen if not it.startswith("#")}
        self.assertGreater(len(outside), 40)
        anchors = {}
        for link in outside:
            self.assertTrue(link.startswith(f"{DOCS}/"), link)
            name, _, anchor = link[len(DOCS) + 1 :].partition("#")
            anchors[name] = anchors.get(name) or set(checks.anchors_of(support.ROOT / "docs" / name))
            self.assertIn(anchor, anchors[name], link)

    def test_links_inside_and_labels_lead_somewhere(self):
        for script, page in self.pages.items():
            names = [it.attributes["id"] for it in page.all() if "id" in it.attributes]
            self.assertEqual(len(names), len(set(names)), script)
            given = [value for it in page.all() for key, value in it.attributes.items() if key == "aria-labelledby"]
            given += [it.attributes["for"] for it in page.all() if "for" in it.attributes]
            given += [it.attributes["href"][1:] for it in page.all("a") if it.attributes["href"].startswith("#")]
            self.assertLessEqual(set(given), set(names), script)

    def test_each_drawing_is_well_formed(self):
        for script, text in self.texts.items():
            drawings = re.findall(r"<svg.*?</svg>", text, re.S)
            self.assertGreater(len(drawings), 1, script)
            for it in drawings:
                xml.fromstring(it)

    def test_each_step_has_its_part_of_the_drawing(self):
        for script, page in self.pages.items():
            steps = [it.attributes["data-key"] for it in page.all("article", "step")]
            parts = [it.attributes["id"].removeprefix("part-") for it in page.all("g", "part")]
            self.assertEqual(parts, steps, script)
            for part in page.all("g", "part"):
                sides = ("top", "bottom", "left", "right")
                top, bottom, left, right = (float(part.attributes[f"data-{it}"]) for it in sides)
                self.assertTrue(0 <= top <= bottom and left <= right, script)

    def test_nothing_is_loaded_and_no_attribute_runs(self):
        for script, text in self.texts.items():
            page = self.pages[script]
            self.assertNotRegex(text, r"(?i)@import|url\(|https?:|src=")
            loading = {"link", "img", "iframe", "object", "embed", "base", "form", "image", "use"}
            self.assertFalse({it.tag for it in page.all()} & loading, script)
            names = {key for it in page.all() for key in it.attributes}
            self.assertFalse({it for it in names if it.startswith("on")} | names & {"style"}, script)

    def test_the_policy_allows_the_pages_own_style_and_script_alone(self):
        for page in self.pages.values():
            ((style,), (code,)) = (page.all(it) for it in ("style", "script"))
            sums = (hashlib.sha256(it.text().encode()).digest() for it in (style, code))
            sums = (base64.b64encode(it).decode() for it in sums)
            own = "style-src 'sha256-{}'; script-src 'sha256-{}'".format(*sums)
            metas = [it.attributes for it in page.all("meta")]
            (policy,) = [it["content"] for it in metas if it.get("http-equiv") == "Content-Security-Policy"]
            self.assertEqual(policy, f"default-src 'none'; {own}; base-uri 'none'; form-action 'none'")


class Told(WithPages):
    """Expected sentences are worked by hand from the entries."""

    def test_a_receive_with_its_rule_and_who_waits(self):
        step = reading.tree(text_of(FIRST)).one("line-5")
        self.assertIn("thread 28 NtReplyWaitReceivePort: 00000000 SUCCESS", words(step))
        self.assertIn('data 41 42 "AB"', words(step))
        self.assertIn("waits only where the queue is empty. SERVICES.md, NtReplyWaitReceivePort", words(step))
        links = [it.attributes["href"] for it in step.all("a")]
        self.assertIn(f"{DOCS}/SERVICES.md#ntreplywaitreceiveport-h-msg", links)
        (waits,) = step.all("div", "waits")
        told = "thread 24 waits in NtRequestWaitReplyPort, since line 4: for the reply to its request 1; "
        self.assertIn(f"{told}thread 28 was shown it in line 5", words(waits))
        (before,) = reading.tree(text_of(FIRST)).one("line-4").all("div", "waits")
        self.assertIn(f"{told}no entry shows it yet", words(before))

    def test_what_each_call_waits_for(self):
        script = b"24 NtListenPort 4\n28 NtReplyWaitReceivePort 8\n36 NtConnectPort \\P - - -\n"
        script += b"40 raise 5 handled\nturn 44\n"
        event = "0800200008000000140000002800000003000000000000000500000001000000"
        transcript = (
            "1 24 NtListenPort wait\n2 28 NtReplyWaitReceivePort wait\n3 36 NtConnectPort wait id=7\n"
            "4 40 raise wait id=2\n5 44 NtReplyWaitReceivePort wait\n"
            f"6 48 NtReplyWaitReceivePort 00000000 ctx=00000000 msg={event}\nend 5 6 9\n"
        )
        page, unseen = self.page(script, transcript.encode()), "no entry shows"
        wanted = [
            "thread 24 waits in NtListenPort, since line 1: for a connection request on its handle 4",
            "thread 28 waits in NtReplyWaitReceivePort, since line 2: for a message on its handle 8",
            f"thread 36 waits in NtConnectPort, since line 3: for the answer to its connect 7 to \\P; {unseen} it yet",
            f"thread 40 waits in raise, since line 4: for what becomes of its exception; {unseen} its event 2 yet",
            "thread 44 waits in NtReplyWaitReceivePort, since line 5: for a message",
        ]
        self.assertEqual([it.text() for it in next(page.one("line-5").all("div", "waits")).all("li")], wanted)
        last = [it.text() for it in next(page.one("end").all("div", "waits")).all("li")]
        shown = "thread 40 waits in raise, since line 4: for what becomes of its exception; "
        self.assertEqual(last[3], f"{shown}thread 48 was shown its event 3 in line 6")

    def test_why_a_call_is_refused_and_a_thread_that_is_none_or_busy(self):
        script = b"24 NtClose 4\n28 NtClose 4\n32 NtClose 4\n"
        page = self.page(script, b"1 24 NtClose c0000008\n2 28 busy\n3 32 nothread\nend 3 3 2\n")
        self.assertIn("NtClose is refused with c0000008 where no handle of the caller's process has the value.",
                      words(page.one("line-1")))
        self.assertIn("its line is answered `busy`", words(page.one("line-2")))
        self.assertIn("no live thread is answered `nothread`", words(page.one("line-3")))

    def test_a_wake_for_which_there_is_no_rule(self):
        told = b"1 24 NtCreatePort 00000000 h=4\n1 *28 NtListenPort c0000037\nend 1 2 4\n"
        page = self.page(b"24 NtCreatePort -\n", told)
        self.assertIn("Wakes follow the caller's entry", words(page.one("line-1")))
        self.assertNotIn("wakes nobody", words(page))

    def test_the_faulty_line_and_those_behind_it(self):
        page = reading.tree(text_of(support.ROOT / "examples" / "faulty-line.script"))
        self.assertEqual([it.attributes["id"] for it in page.all("article", "step")], ["line-1", "line-4"])
        self.assertIn("stop: line 4 is faulty, kind 5: a number out of form or range", words(page.one("line-4")))
        links = [it.attributes["href"] for it in page.one("line-4").all("a")]
        self.assertIn(f"{DOCS}/FAULTS.md#kind-5-a-number-out-of-form-or-range", links)
        self.assertEqual(words(page.one("line-5")), "5thread 28 20no entry")

    def test_a_transcript_that_breaks_off(self):
        page = self.page(b"boot 20 24\n24 NtClose 4\n", b"1 - boot 00000000\n")
        self.assertIn("the transcript has no last line", words(page.one("end")))
        self.assertEqual(len(list(page.all("code", "raw"))), 1)

    def test_a_line_that_the_script_does_not_have(self):
        page = self.page(b"boot 20 24\n", b"1 - boot 00000000\n7 24 NtClose c0000008\nend 7 2 2\n")
        self.assertIn("(the script has no such line)", words(page.one("line-7")))

    def test_an_empty_script(self):
        page = self.page(b"", b"end 0 0 0\n")
        self.assertEqual([it.attributes["id"] for it in page.all("article", "step")], ["end"])
        self.assertIn("0 lines, 0 entries, 0 threads, 0 processes", words(page))


class Drawn(WithPages):
    """Which forms have to stand where is worked by hand from the entries."""

    def forms(self, page):
        """The forms of the arrows, by part, but for the parts without one."""
        parts = ((it.attributes["id"], [arrow.attributes["data-form"] for arrow in it.all("g", "arrow")])
                 for it in page.all("g", "part"))
        return {name.removeprefix("part-"): found for name, found in parts if found}

    def of(self, name):
        return reading.tree(text_of(support.ROOT / "examples" / f"{name}.script"))

    def test_a_request_and_its_reply(self):
        page = self.of("first-request")
        self.assertEqual(self.forms(page), {"5": ["request"], "6": ["reply"]})
        self.assertEqual([words(it) for it in page.all("text", "name")], ["process 20", "thread 24", "thread 28"])
        (arrow,) = page.one("part-5").all("line")
        lanes = [it.attributes["x1"] for it in page.all("line", "lane")]
        self.assertEqual((arrow.attributes["x1"], len(lanes)), (lanes[0], 2))
        (bar, _) = (it.attributes for it in page.all("rect", "wait"))
        (reply,) = page.one("part-6").all("line")
        self.assertEqual(float(bar["y"]) + float(bar["height"]), float(reply.attributes["y1"]))

    def test_datagrams(self):
        self.assertEqual(self.forms(self.of("datagrams")), {it: ["datagram"] for it in ("9", "10", "16", "17")})

    def test_connects_and_a_server_on_a_thread(self):
        page = self.of("a-server-on-a-thread")
        connects = {"7": ["connection request"], "8": ["connection answer"], "9": ["connection answer"]}
        self.assertEqual(self.forms(page), {**connects, "11": ["request"], "12": ["reply"], "13": ["end"]})
        turns = {it.attributes["id"]: words(it) for it in page.all("g", "part") if [*it.all("polygon", "turn")]}
        self.assertEqual(list(turns), [f"part-{it}" for it in (6, 8, 9, 10, 12, 14, 15)])
        self.assertIn("12 turn: the server replies to thread 36 and receives", turns["part-12"])

    def test_exceptions_deaths_and_a_refused_connect(self):
        page = self.of("a-debugger-that-ends")
        found = self.forms(page)
        self.assertEqual([found[it] for it in ("22", "23", "25")], [["event"], ["event", "event answer"], ["end"]])
        crosses = {it.attributes["id"]: len([*it.all("path", "cross")]) for it in page.all("g", "part")}
        crosses = {it: count for it, count in crosses.items() if count}
        self.assertEqual(crosses, {"part-23": 2, "part-25": 1, "part-27": 1})
        self.assertIn(["failure"], self.forms(self.of("refused-connect")).values())

    def test_each_form_has_another_shape_and_a_sample(self):
        from ntlpc_tool.page import strokes

        self.assertEqual(len({(line, head) for line, head, _ in strokes.FORMS.values()}), len(strokes.FORMS))
        legend = [words(it) for it in next(self.of("datagrams").all("details", "legend")).all("li")]
        self.assertEqual(legend, ["datagram", "a call that isn't drawn otherwise", "a directive, or the end",
                                  "a call that is refused, or a line without effect", "a thread waits"])

    def test_a_message_to_oneself_keeps_its_form(self):
        shown = "000018000300000014000000180000000100000000000000"
        page = self.page(b"24 NtReplyWaitReceivePort 4\n",
                         f"1 24 NtReplyWaitReceivePort 00000000 ctx=00000000 msg={shown}\nend 1 1 3\n".encode())
        self.assertEqual(self.forms(page), {"1": ["datagram"]})

    def test_forty_threads_of_ten_processes(self):
        threads = [(process, process + 4 * at) for process in range(100, 1100, 100) for at in range(1, 5)]
        made = [f"boot {it} {thread}" if thread == it + 4 else f"thread {thread} {it}" for it, thread in threads]
        lines = [*made, *(f"{thread} NtClose 4" for _, thread in threads)]
        told = [f"{at} - {line.split()[0]} 00000000" for at, line in enumerate(made, 1)]
        told += [f"{at} {thread} NtClose c0000008" for at, (_, thread) in enumerate(threads, 41)]
        script, transcript = ("".join(f"{it}\n" for it in some).encode() for some in (lines, [*told, "end 80 80 50"]))
        page = self.page(script, transcript)
        head = next(page.all("svg", "head"))
        names = [words(it) for it in head.all("text", "thread")]
        self.assertEqual(names, [f"thread {thread}" for _, thread in threads])
        self.assertEqual(sum(it.startswith("process") for it in map(words, head.all("text", "name"))), 10)
        places = [float(it.attributes["x1"]) for it in page.all("line", "lane")]
        self.assertEqual(places, [float(it.attributes["x"]) for it in head.all("text", "thread")])
        self.assertGreaterEqual(min(right - left for left, right in zip(places, places[1:])), 100)
        body = next(page.all("svg", "body"))
        self.assertEqual(body.attributes["width"], head.attributes["width"])


class Escaping(WithPages):
    """Names and bytes of a script that look like markup."""

    TRANSCRIPT = b"2 - boot 00000000\n3 24 NtCreatePort 00000000 h=4\n4 24 NtListenPort 00000000 msg=%s\nend 4 3 3\n"

    def both(self, name, comment, data, *given, file="s"):
        """The page of a script with such a name, comment and data, and that of one with harmless ones."""
        found = []
        for path, words_, text in ((name, comment, data), (b"\\P", b"x", b"AB")):
            sizes = (len(text), 24 + len(text))
            header = bytes.fromhex("%02x00%02x000a00000020000000240000000100000000000000" % sizes)
            script = b"# %s\nboot 20 24\n24 NtCreatePort %s\n24 NtListenPort 4\n" % (words_, path)
            told = self.TRANSCRIPT % (header + text).hex().encode()
            found.append(self.page(script, told, *given, name=file))
        return found

    def test_nothing_breaks_out(self):
        page, harmless = self.both(MISCHIEF, MISCHIEF, MISCHIEF)
        self.assertEqual(page.skeleton(), harmless.skeleton())
        self.assertEqual(next(page.one("line-3").all("code")).text(), f"24 NtCreatePort {MISCHIEF.decode()}")
        self.assertIn(MISCHIEF.decode()[:20], page.one("part-3").text())
        for _ in page.all("script"):
            self.assertNotIn("alert", _.text())

    def test_a_file_of_such_a_name(self):
        name = """<img src=x onerror='alert(1)'>&"].script"""
        page, harmless = self.both(b"\\P", b"x", b"AB", file=name)
        self.assertEqual(page.skeleton(), harmless.skeleton())
        self.assertEqual((words(next(page.all("h1"))), words(next(page.all("title")))), (name, f"{name}, step by step"))

    def test_bytes_that_are_no_text(self):
        page, harmless = self.both(b"\\P", b"\x00\x1b\xff\xfe\x85 \xe2\x80\xae \xef\xbf\xbf \xc2\x85 \x0c\r", b"AB")
        self.assertEqual(page.skeleton(), harmless.skeleton())
        self.assertTrue(words(page).isprintable())

    def test_docs_of_other_addresses(self):
        bases = {
            "../docs/": "../docs/",
            "https://x.example/a b": "https://x.example/a%20b/",
            'x"><b>': "x%22%3E%3Cb%3E/",
            "x&lt;y": "x&lt;y/",
            " javascript:x": "%20javascript:x/",
            "/": "/",
            "": "",
        }
        for base, link in bases.items():
            page = reading.tree(text_of(FIRST, "--docs", base))
            links = [it.attributes["href"] for it in page.one("line-3").all("a")]
            self.assertIn(f"{link}SERVICES.md#ntcreateport-name-dacl", links)


class Words(support.WithFolder):
    def refused(self, *given, source=b""):
        """What is said where the words are wrong."""
        ran = support.run("page", *given, source=source)
        self.assertEqual((ran.returncode, ran.stdout), (2, ""), given)
        return ran.stderr

    def test_wrong_words(self):
        self.assertIn("SCRIPT", self.refused())
        self.assertIn("--unknown", self.refused(FIRST, "--unknown"))
        self.assertIn("the standard input can be read once", self.refused("-", "--transcript", "-"))
        for scheme in ("javascript", "data", "JavaScript"):
            self.assertIn(f"not of {scheme}:\n", self.refused(FIRST, "--docs", f"{scheme}:alert(1)"))

    def test_files_that_are_missing_or_wrong(self):
        self.assertIn("/nonexistent can't be read", self.refused("/nonexistent"))
        self.assertIn("/nonexistent can't be read", self.refused(FIRST, "--transcript", "/nonexistent"))
        self.assertIn("line 1 of the transcript", self.refused(FIRST, "--transcript", FIRST))
        binary = self.file("binary", bytes(range(256)) * 9)
        told = self.refused(binary, "--transcript", FIRST.with_suffix(".transcript"))
        self.assertIn("is not the script of this transcript", told)

    def test_the_program_is_run(self):
        told = self.program(f"cat '{FIRST.with_suffix('.transcript')}'\n".encode())
        ran = support.run("page", FIRST, "--program", told)
        self.assertEqual((ran.returncode, ran.stdout), (0, text_of(FIRST)))
        ran = support.run("page", "-", "--program", told, source=FIRST.read_bytes())
        self.assertEqual(words(next(reading.tree(ran.stdout).all("h1"))), "the standard input")

    def test_a_program_that_fails_is_told(self):
        told = self.refused(FIRST, "--program", self.program(b"exit 5\n"))
        self.assertIn("ended with status 5: memory ran out", told)
        told = self.refused(FIRST, "--program", self.program(b"echo junk\n"))
        self.assertIn("printed no transcript: line 1 of the transcript", told)
        self.assertIn("names /nonexistent", self.refused(FIRST, "--program", "/nonexistent"))

    @support.needs_program
    def test_each_example_is_run(self):
        for script in support.EXAMPLES:
            page = reading.tree(support.inside("page", script).stdout)
            self.assertEqual([it.text() for it in page.all("code", "raw")], printed(script), script)

    def started(self, *shell):
        """The command in a shell that does something to its output."""
        tool = [sys.executable, support.TOOLS / "ntlpc-tool", "page", FIRST]
        command = ["sh", "-c", *shell, "sh", *tool, "--transcript", FIRST.with_suffix(".transcript")]
        return subprocess.run(command, capture_output=True, text=True, timeout=60)

    def test_an_output_that_is_closed(self):
        ran = self.started('exec "$@" >&-')
        self.assertEqual((ran.returncode, ran.stderr), (2, "ntlpc-tool: the standard output is closed\n"))
        ran = self.started('{ "$@"; echo $? >&2; } | true')
        self.assertEqual(ran.stderr, f"{main.READER_GONE}\n")

    @unittest.skipUnless(os.path.exists("/dev/full"), "this system has no /dev/full")
    def test_a_disk_that_is_full(self):
        ran = self.started('exec "$@" > /dev/full')
        self.assertEqual(ran.returncode, 2)
        self.assertRegex(ran.stderr, r"\Antlpc-tool: the output can't be written: .+\n\Z")

    def test_the_page_is_utf8_whatever_the_locale_is(self):
        script = self.file("s", "# \u00e4\nboot 20 24\n".encode())
        told = self.file("t", b"2 - boot 00000000\nend 2 1 2\n")
        ran = support.run("page", script, "--transcript", told, PYTHONUTF8="0", PYTHONIOENCODING="ascii", LC_ALL="C")
        self.assertEqual(ran.returncode, 0)
        self.assertIn("# \u00e4", ran.stdout)


class Browser(support.WithBrowser):
    """What a browser makes of the page of an example, whose line 1 is a comment, and whose first entry is of line 2."""

    SCRIPT = support.ROOT / "examples" / "datagrams.script"

    def current(self, fragment):
        """The step that is shown: its id, its number on the slider, and the part of the drawing that is marked."""
        dom = self.loaded(text_of(self.SCRIPT), fragment)
        shown = [it.attributes["id"] for it in dom.all() if it.attributes.get("aria-current") == "step"]
        self.assertEqual([it.attributes["id"] for it in dom.all("article", "current")], shown)
        self.assertNotIn("hidden", dom.one("controls").attributes)
        self.assertIn("stepping", next(dom.all("html")).attributes["class"])
        (part,) = dom.all("g", "current")
        mark = dom.one("mark").attributes
        self.assertEqual(float(mark["y"]), float(part.attributes["data-top"]) - 1)
        return shown, words(dom.one("place")), part.attributes["id"]

    def test_behind_loading_the_first_step_is_shown(self):
        self.assertEqual(self.current(""), (["line-2"], "step 1 of 17: line 2", "part-2"))

    def test_a_fragment_names_the_step(self):
        self.assertEqual(self.current("#line-9"), (["line-9"], "step 7 of 17: line 9", "part-9"))

    def test_a_comment_is_followed_by_the_next_step(self):
        self.assertEqual(self.current("#line-11"), (["line-12"], "step 9 of 17: line 12", "part-12"))

    # What is done to the page, and the step that has to be shown then.
    DEEDS = (
        ("press('ArrowRight')", "line-3"),
        ("press('ArrowRight', {ctrlKey: true})", "line-3"),
        ("press('ArrowLeft')", "line-2"),
        ("press('ArrowLeft')", "line-2"),
        ("press('End')", "end"),
        ("click('back')", "line-21"),
        ("click('next')", "end"),
        ("click('next')", "end"),
        ("click('first')", "line-2"),
        ("click('last')", "end"),
        ("press('Home')", "line-2"),
        ("slide(7)", "line-9"),
        ("document.querySelector('#part-16 text').dispatchEvent(new MouseEvent('click', {bubbles: true}))", "line-16"),
    )
    DOING = """
        const at = (id) => document.getElementById(id);
        const event = (key, more) => new KeyboardEvent('keydown', {key, bubbles: true, ...more});
        const press = (key, more) => document.body.dispatchEvent(event(key, more));
        const click = (id) => at(id).click();
        const slide = (to) => { at('slider').value = to; at('slider').dispatchEvent(new Event('input')); };
        const shown = [];
        const then = () => shown.push(document.querySelector('[aria-current]').id + location.hash);
    """

    def test_keys_buttons_the_slider_and_the_drawing(self):
        deeds = "".join(f"{deed}; then();\n" for deed, _ in self.DEEDS)
        script = f"<script>{self.DOING}{deeds}document.title = shown.join(' ');</script></body>"
        # The page's policy lets nothing else run, so it has to go for this.
        text = POLICY.sub("", text_of(self.SCRIPT)).replace("</body>", script)
        wanted = " ".join(f"{it}#{it}" for _, it in self.DEEDS)
        self.assertEqual(next(self.loaded(text).all("title")).text(), wanted)


if __name__ == "__main__":
    unittest.main()
