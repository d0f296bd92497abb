"""The word `why`. The faults, their kinds and their places were worked by hand from docs/SCRIPTS.md, "Faulty lines"."""
import re
import unittest

import support
from ntlpc_tool import absent, explain, faults, forms, pages, placing, program
from ntlpc_tool.words import why

LINES = support.ROOT / "conformance" / "lines"
PAGE = support.ROOT / "docs" / "FAULTS.md"

# A faulty line, its kind, the bytes at fault, and what has to be told of it; ` .. ` stands for what comes between.
FAULTY = [
    (b"boot\t20 24", 1, b"\t", "it is a tab .. with a space there the line is well formed"),
    (b"boot 20 24\r", 1, b"\r", "the line ends with a carriage return (CRLF)"),
    (b"boot 20\r 24", 1, b"\r", "it is a carriage return .. with a space there"),
    (b"dir \xc2\xa0\\A", 1, b"\xc2\xa0", "NO-BREAK SPACE (U+00A0), 2 bytes of UTF-8"),
    (b"24 NtCreatePort \xe2\x80\x93", 1, b"\xe2\x80\x93", "EN DASH (U+2013), 3 bytes of UTF-8 .. with - there"),
    (b"dir \\\xff", 1, b"\xff", "byte 255, no ASCII"),
    (b"dir \\A\0", 1, b"\0", "it is a zero byte"),
    (b"dir \\A\x7f", 1, b"\x7f", "it is byte 127"),
    (b"dir \\A\x1b", 1, b"\x1b", "it is the control byte 27"),
    (b"dir \\\xc3\x84\xc3\x96", 1, b"\xc3\x84", "LATIN CAPITAL LETTER A WITH DIAERESIS"),
    (b"reboot 1 2", 2, b"reboot", "expected here: a directive (boot, thread, token, dir, link, resident, turn) .. with boot there"),
    (b"Boot 1 2", 2, b"Boot", "the letters' case counts: with boot there the line is well formed"),
    (b"thraed 28 20", 2, b"thraed", "with thread there the line is well formed"),
    (b" # x", 2, b"#", "a comment begins with its # as the line's first byte"),
    (b"NtCreatePort -", 2, b"NtCreatePort", "NtCreatePort is a call: the number of the thread that makes it"),
    (b"tick 5", 2, b"tick", "the directive tick isn't built yet"),
    (b"resident 24 win16 4", 2, b"win16", "expected here: a kind of server: win32"),
    (b"token my-name S-1-5-18", 2, b"my-name", "- is no letter, no digit and no _; with my_name there the line is"),
    (b"boot 20 24 " + b"a" * 33, 2, b"a" * 33, "it has 33 characters; a token's name has at most 32"),
    (b"-24 NtListenPort 4", 2, b"-24", "neither a sign nor a point"),
    (b"24 NtConnectPort \\S q:2 - -", 2, b"q:2", "behind q: stand two parts with a colon between them, not 1"),
    (b"24 NtConnectPort \\S q:2:D - -", 2, b"q:2:D", "or d, for dynamic tracking; with q:2:d there the line is"),
    (b"24 NtConnectPort \\S q:9:x - -", 2, b"q:9:x", "behind the level stands s, for static tracking, or d"),
    (b"24 NtConnectPort \\S Q:2:d - -", 2, b"Q:2:d", "with q:2:d there the line is well formed"),
    (b"24 NtConnectPort \\S q:4:d - -", 5, b"4", "expected here: a level: a number from 0 to 3 .. it is too large"),
    (b"24 NtConnectPort \\S q:02:d - -", 5, b"02", "it has a leading zero; with 2 there the line is well formed"),
    (b"24 NtCreatePort \\A ACL:", 2, b"ACL:", "with acl: there the line is well formed"),
    (b"24 NtCreatePort \\A Port", 2, b"Port", "a name can't have a space"),
    (b"24 NtCreatePort \\A acl:A/1/S-1-1-0,", 2, b"", "an entry is missing: commas stand between entries alone"),
    (b"24 NtCreatePort \\A acl:A/1/S-1-1-0,D/1", 2, b"D/1", "an entry has three parts with a slash between them"),
    (b"24 NtCreatePort \\A acl:a/1/S-1-1-0", 2, b"a/1/S-1-1-0", "with A/1/S-1-1-0 there the line is well formed"),
    (b"24 NtCreatePort \\A acl:A/x/S-1-1-0,B", 2, b"B", "A/MASK/SID or D/MASK/SID, not 1"),
    (b"24 NtCreatePort \\A acl:A/1/S-1-1-0,D/08/S-1-1-0", 5, b"08", "with 8 there the line is well formed"),
    (b"24 NtCreatePort \\A acl:" + b"A/1/S-1-1-0," * 16 + b"D/1/S-1-1-0", 2, b"D/1/S-1-1-0", "at most 16 entries"),
    (b"24 NtSetInformationThread 5 0", 2, b"0", "expected here: the word null; with null there the line is well"),
    (b"24 NtConnectPort \\S - w:4:0 -", 2, b"w:4:0", "a view: - for none .. with a colon before each, not 2"),
    (b"24 NtConnectPort \\S - W:4:0:9 -", 2, b"W:4:0:9", "with w:4:0:9 there the line is well formed"),
    (b"24 NtAcceptConnectPort 7 d: refuse x", 2, b"x", "a view: - for none, or w:H:OFFSET:SIZE .. with - there"),
    (b"24 NtConnectPort \\S - w:4:0:09 -", 5, b"09", "it has a leading zero; with 9 there the line is well formed"),
    (b"24 NtConnectPort \\S - w:4::9 -", 5, b"", "the number is missing"),
    (b"24 NtConnectPort \\S 0 - -", 2, b"0", "with - there the line is well formed"),
    (b"24 NtAcceptConnectPort 7 d: acept -", 2, b"acept", "with accept there the line is well formed"),
    (b"24 NtAcceptConnectPort 7 d: Refuse -", 2, b"Refuse", "the letters' case counts: with refuse there"),
    (b"24 NtFoo", 3, b"NtFoo", "expected here: a call (NtCreatePort, NtConnectPort"),
    (b"24 NtRepliPort 4 d:", 3, b"NtRepliPort", "with NtReplyPort there the line is well formed"),
    (b"24 ntclose 4", 3, b"ntclose", "the letters' case counts: with NtClose there the line is well formed"),
    (b"24 ZwClose 4", 3, b"ZwClose", "the calls' names begin with Nt: with NtClose there the line is well formed"),
    (b"24 NtOpenThread 4", 3, b"NtOpenThread", "NtOpenThread isn't built yet"),
    (b"24 NtOpenThreadToken 4", 4, b"4", "the form is TID NtOpenThreadToken; 1 word too many"),
    (b"24 NtQueryInformationToken 4", 4, b"", "1 word missing at the end: CLASS"),
    (b"24 NtCreateSection 4096", 4, b"", "the form is TID NtCreateSection SIZE PROT; 1 word missing at the end: PROT"),
    (b"24 NtMapViewOfSection 4 0 0 r", 5, b"r", "expected here: a protection: a number, 2 to be read alone or 4"),
    (b"24 NtWriteVirtualMemory 0 4", 6, b"4", "the digit 4 has no other beside it: two digits are a byte"),
    (b"24 NtWriteVirtualMemory 0 hello", 6, b"h", "with 68656c6c6f there the line is well formed"),
    (b"24 NtWriteVirtualMemory 0 41 42", 4, b"42", "the digits of bytes have no space between them: 4142"),
    (b"24 NtReadRequestData 4 d: - 1", 5, b"-", "expected here: an entry of a range table: a number"),
    (b"24 NtReadRequestData 4 d: 0", 4, b"", "1 word missing at the end: LEN"),
    (b"24 NtWriteRequestData 4 r:1.2.3: 0 414", 6, b"4", "the digit 4 has no other beside it"),
    (b"24 NtWriteRequestData 4 0 0 41", 7, b"0", "expected here: a message: m:HEX, d:HEX or r:P.T.M:HEX"),
    (b"24 NtCreateProces 32 36", 3, b"NtCreateProces", "with NtCreateProcess there the line is well formed"),
    (b"24 NtCreateProcess 32", 4, b"", "the form is TID NtCreateProcess PID TID; 1 word missing at the end: TID"),
    (b"24 NtCreateProcess 0 36", 5, b"0", "0 is no process and no thread"),
    (b"24 NtCreateProcess self 36", 5, b"self", "the first handle of NtCreateThread, NtTerminateThread,"),
    (b"24 NtCreateThread 4 self", 5, b"self", "the first handle of NtCreateThread, NtTerminateThread,"),
    (b"24 NtSetInformationProcess 4 7 self", 5, b"self", "NtTerminateProcess and NtSetInformationProcess alone"),
    (b"24 NtSetInformationProcess 4 7", 4, b"", "H|self CLASS PORT; 1 word missing at the end: PORT"),
    (b"24 NtSetInformationProcess 4 7 -", 5, b"-", "expected here: a handle to a port: a number from 0 to 4294967295"),
    (b"24 raise 5", 4, b"", "the form is TID raise CODE handled|unhandled; 1 word missing at the end"),
    (b"24 raise c0000005 handled", 5, b"c0000005", "with 0xc0000005 there the line is well formed"),
    (b"24 raise 5 Handled", 2, b"Handled", "the letters' case counts: with handled there the line is well formed"),
    (b"24 raise 5 maybe", 2, b"maybe", "expected here: handled or unhandled"),
    (b"24 rase 5 handled", 3, b"rase", "with raise there the line is well formed"),
    (b"raise 5 handled", 2, b"raise", "raise is a call: the number of the thread that makes it stands before it"),
    (b"24 NtCreateThread Self 28", 5, b"Self", "a handle: a number from 0 to 4294967295, or self"),
    (b"24 NtReplyWaitReplyPort 4 d:", 3, b"NtReplyWaitReplyPort", "NtReplyWaitReplyPort isn't built yet"),
    (b"24 boot 1 2", 3, b"boot", "boot is a directive: no thread's number stands before it"),
    (b"24", 4, b"", "the call is missing behind the thread's number"),
    (b"boot 20", 4, b"", "the form is boot PID TID [TOKEN]; 1 word missing at the end: TID"),
    (b"boot", 4, b"", "the form is boot PID TID [TOKEN]; 2 words missing at the end: PID TID"),
    (b"24 NtConnectPort \\S -", 4, b"", "2 words missing at the end: VIEW INFO"),
    (b"24 NtReplyWaitReceivePort", 4, b"", "1 word missing at the end: H"),
    (b"24 NtReplyWaitReceivePort 4 d: d:", 4, b"d:", "the form is TID NtReplyWaitReceivePort H [MSG]; 1 word too many"),
    (b"24  NtListenPort  4  5 6 ", 4, b"5 6", "the form is TID NtListenPort H; 2 words too many"),
    (b"24 NtClose 4 # the port", 4, b"# the port", "a comment has a line of its own"),
    (b"24 NtRequestPort 4 d:41 42 43", 4, b"42 43", "no space between them: d:414243"),
    (b"dir \\My Directory", 4, b"Directory", "a name can't have a space"),
    (b"boot 20 24 guest users", 4, b"users", "the form is boot PID TID [TOKEN]; 1 word too many"),
    (b"24 NtCreatePort \\A acl: A/1/S-1-1-0", 4, b"A/1/S-1-1-0", "NtCreatePort NAME [DACL]; 1 word too many"),
    (b"token guest", 4, b"", "the form is token TOKEN USER [GROUP] ..; 1 word missing at the end: USER"),
    (b"token guest S-1-5-18" + b" S-1-1-0" * 17, 4, b"S-1-1-0", "1 word too many"),
    (b"0", 5, b"0", "expected here: a directive"),
    (b"0 NtClose 4", 5, b"0", "0 is no process and no thread"),
    (b"24 NtListenPort 08", 5, b"08", "it has a leading zero; with 8 there the line is well formed"),
    (b"24 NtListenPort 0X18", 5, b"0X18", "the x of 0x is a small one; with 0x18 there the line is well formed"),
    (b"24 NtListenPort -4", 5, b"-4", "there are no negative numbers"),
    (b"24 NtListenPort +4", 5, b"+4", "a number has no sign; with 4 there the line is well formed"),
    (b"24 NtListenPort 4294967296", 5, b"4294967296", "expected here: a handle: a number from 0 to 4294967295"),
    (b"24 NtListenPort 4294967296", 5, b"4294967296", "it is too large"),
    (b"24 NtListenPort 0x123456789", 5, b"0x123456789", "behind 0x stand more than 8 digits"),
    (b"24 NtListenPort 1c", 5, b"1c", "hexadecimal digits have 0x before them; with 0x1c there the line is"),
    (b"24 NtListenPort self", 5, b"self", "NtTerminateProcess and NtSetInformationProcess alone"),
    (b"24 NtTerminateThread same 0", 5, b"same", "a handle: a number from 0 to 4294967295, or self"),
    (b"24 NtTerminateProcess self c0000005", 5, b"c0000005", "with 0xc0000005 there the line is well formed"),
    (b"24 NtTerminateProcess self", 4, b"", "TID NtTerminateProcess H|self CODE; 1 word missing at the end: CODE"),
    (b"24 NtListenPort h=4", 5, b"h=4", "it isn't made of digits alone"),
    (b"boot 2147483648 24", 5, b"2147483648", "a process: a number from 1 to 2147483647"),
    (b"thread 28 0", 5, b"0", "a process: a number from 1 to 2147483647"),
    (b"24 NtDuplicateObject 4 -", 5, b"-", "rights: a number from 0 to 4294967295, or same"),
    (b"24 NtReplyPort 4 r:a.b.c:zz", 5, b"a", "hexadecimal digits have 0x before them"),
    (b"24 NtReplyPort 4 r:20.024.1:41", 5, b"024", "with 24 there the line is well formed"),
    (b"24 NtReplyPort 4 r:20.24.:41", 5, b"", "the number is missing"),
    (b"24 NtReplyPort 08 r:20.024.1:4", 5, b"08", "with 8 there this fault is gone, and the next one is of kind 5"),
    (b"24 NtRequestPort 4 d:4", 6, b"4", "the digit 4 has no other beside it .. with 04 there the line is well formed"),
    (b"24 NtRequestPort 4 d:41424g44", 6, b"g", "g is no hexadecimal digit"),
    (b"24 NtRequestPort 4 d:hello", 6, b"h", "h is no hexadecimal digit .. with d:68656c6c6f there the line is"),
    (b"24 NtRequestPort 4 d:0x41", 6, b"x", "HEX has no 0x before it"),
    (b"24 NtRequestPort 4 m:41:42", 6, b":", ": is no hexadecimal digit"),
    (b"24 NtReplyPort 4 r:1.2.3:41:42", 6, b":", ": is no hexadecimal digit"),
    (b"24 NtConnectPort \\S - - d:414", 6, b"4", "the digit 4 has no other beside it"),
    (b"24 NtAcceptConnectPort 7 r:1.2.3:4z refuse -", 6, b"z", "expected here: pairs of hexadecimal digits"),
    (b"24 NtRequestPort 4 x:41", 7, b"x:41", "expected here: a message: m:HEX, d:HEX or r:P.T.M:HEX"),
    (b"24 NtRequestPort 4 D:41", 7, b"D:41", "with d:41 there the line is well formed"),
    (b"24 NtRequestPort 4 4142", 7, b"4142", "with d:4142 there the line is well formed"),
    (b"24 NtReplyPort 4 r:20.24.1", 7, b"r:20.24.1", "a colon is missing; with r:20.24.1: there the line is"),
    (b"24 NtReplyPort 4 r:20.24:41", 7, b"r:20.24:41", "three numbers parted by two dots, not 2"),
    (b"24 NtConnectPort \\S - - r:1.2.3:", 7, b"r:1.2.3:", "an INFO is no message: r: doesn't stand there"),
    (b"token t S-1", 8, b"S-1", "expected here: a SID .. a SID is S-1 and further numbers in decimal"),
    (b"token t S-1-5", 8, b"S-1-5", "behind the authority stands no number"),
    (b"token t s-1-5-18", 8, b"s-1-5-18", "with S-1-5-18 there the line is well formed"),
    (b"token t S-1-5-018 S-1-1-0", 8, b"S-1-5-018", "a leading zero; with S-1-5-18 there the line is well formed"),
    (b"token t S-1-5-18 S-1-1-4294967296", 8, b"S-1-1-4294967296", "a number is too large"),
    (b"token t S-1-5" + b"-1" * 16, 8, b"S-1-5" + b"-1" * 16, "behind the authority stand 16 numbers; there may be 15"),
    (b"24 NtCreatePort \\A acl:A/1/S-1-1-0,D/1/S-1,D/x/S", 8, b"S-1", "a SID is S-1 and further numbers"),
    (b"#" * 16_385, 9, b"#", "the line has 16385 bytes; a line has at most 16384"),
]


def named(first):
    """The line and the kind that the first line of `why` names."""
    return tuple(int(it) for it in re.match(r"line (\d+) is faulty, kind (\d+): ", first).groups())


def part_of(line, place):
    """The bytes in a place."""
    return line[place.begin : place.end]


@support.needs_program
class Why(unittest.TestCase):
    @classmethod
    def setUpClass(cls):
        cls.name = program.find()
        # What the program told of a line is kept, for many of these scripts have lines in common.
        cls.probe = placing.Probe(cls.name)

    def explained(self, script, number, kind):
        """The explanation of a fault."""
        return explain.Explanation(self.probe, script, number, kind)

    def test_each_fault_is_placed_and_explained(self):
        for line, kind, part, words in FAULTY:
            with self.subTest(line[:60]):
                ran = program.replay(self.name, b"# x\n" + line + b"\n")
                self.assertEqual(ran.printed, b"stop 2 %d\n" % kind)
                found = self.explained(b"# x\n" + line + b"\n", 2, kind)
                self.assertEqual(part_of(line, found.place), part)
                told = "; ".join(found.sentences())
                self.assertRegex(told, ".*".join(map(re.escape, words.split(" .. "))))

    def test_each_kind_of_the_page_has_its_lines(self):
        self.assertEqual({kind for _, kind, _, _ in FAULTY} | {10}, set(faults.KINDS))

    def test_the_pages_examples_are_named(self):
        tried = 0
        for _, head, rows in pages.tables(pages.text_of("SCRIPTS.md")):
            if head != ["Kind", "The fault", "For example"]:
                continue
            for kind, _, examples in rows:
                for text in re.findall("`([^`]*)`", examples):
                    is_word = re.match("[a-z]:", text)
                    whole = (b"24 NtReplyPort 4 " if is_word else b"") + text.encode()
                    ran = program.replay(self.name, whole)
                    told = list(why.faulty(self.name, whole, *map(int, ran.printed.split()[1:])))
                    self.assertEqual(named(told[0]), (1, int(kind)), text)
                    tried += 1
        self.assertGreater(tried, 12)

    def test_each_faulty_script_of_the_suite_is_placed(self):
        tried = 0
        for path in sorted(LINES.glob("*.script")):
            last = path.with_suffix(".transcript").read_bytes().splitlines()[-1].split()
            if last[0] != b"stop":
                continue
            number, kind = int(last[1]), int(last[2])
            found = self.explained(path.read_bytes(), number, kind)
            with self.subTest(path.name):
                self.assertIsNotNone(found.place)
                self.assertTrue(found.sentences())
                self.assertTrue(list(why.pointed(found.line, found.place)))
            tried += 1
        self.assertGreater(tried, 200)

    def test_lawful_words_are_lawful(self):
        for name in (*forms.DIRECTIVES, *forms.CALLS):
            line = " ".join(forms.WORDS[it][1] if it in forms.WORDS else it for it in forms.named(name))
            self.assertNotIn(b"stop", program.replay(self.name, line.encode()).printed, line)

    def test_what_is_absent_is_refused(self):
        for word in absent.CALLS:
            self.assertEqual(program.replay(self.name, b"24 %s" % word.encode()).printed, b"stop 1 3\n", word)
        for word in absent.DIRECTIVES:
            self.assertEqual(program.replay(self.name, word.encode()).printed, b"stop 1 2\n", word)


@support.needs_program
class Runs(support.WithFolder):
    def why(self, script):
        return support.run("why", "-", source=script)

    def test_a_faulty_line(self):
        ran = support.run("why", support.ROOT / "examples" / "faulty-line.script")
        wanted = [
            "line 4 is faulty, kind 5: a number out of form or range",
            "",
            "    24 NtReplyPort 08 d:",
            "                   ^^",
            "column 16, word 3",
            "",
            "expected here: a handle: a number from 0 to 4294967295",
            "a number is decimal without leading zeros, or a small 0x and 1 to 8 hexadecimal digits",
            "it has a leading zero",
            "with 8 there the line is well formed",
        ]
        self.assertEqual((ran.returncode, ran.stdout.splitlines(), ran.stderr), (1, wanted, ""))

    def test_each_example(self):
        for script in support.EXAMPLES:
            closing = script.with_suffix(".transcript").read_bytes().splitlines()[-1].split()
            ran = support.run("why", script)
            self.assertEqual(ran.returncode, closing[0] == b"stop", script)
            number = int(closing[1])
            self.assertIn(f"line {number} is faulty" if ran.returncode else f"lines {number}, entries", ran.stdout)

    def test_lines_of_windows(self):
        told = self.why(b"boot 20 24\r\nthread 28 20\r\n# x\n").stdout
        self.assertIn("line 1 is faulty, kind 1", told)
        self.assertIn("(CRLF), as 2 of the script's 3 lines do", told)
        self.assertIn("    boot 20 24\\x0d\n              ^^^^\ncolumn 11", told)

    def test_marks_and_utf_16(self):
        text = "boot 20 24\n"
        self.assertIn("byte order mark of UTF-8", self.why(text.encode("utf-8-sig")).stdout)
        low, high = text.encode("utf-16-le"), text.encode("utf-16-be")
        encodings = {b"\xff\xfe" + low: "UTF-16", b"\xfe\xff" + high: "UTF-16", low: "UTF-16LE", high: "UTF-16BE"}
        for data, encoding in encodings.items():
            ran = self.why(data)
            self.assertEqual(named(ran.stdout), (1, 1))
            self.assertIn("UTF-16 text", ran.stdout)
            self.assertIn(f"iconv -f {encoding} -t", ran.stdout)

    def test_line_ends_that_are_none(self):
        text = b"boot 20 24\rthread 28 20\r"
        for script in (text, text * 700):
            self.assertIn("tr '\\r' '\\n' < SCRIPT", self.why(script).stdout)

    def test_a_line_too_many(self):
        ran = self.why(b"#\n" * 1_000_000 + b"boot 20 24\n")
        self.assertEqual(named(ran.stdout), (1_000_001, 10))
        self.assertIn("the script has 1000001 lines", ran.stdout)

    def test_a_long_line_is_cut(self):
        ran = self.why(b"boot 20 24" + b" " * 16_384)
        self.assertEqual(named(ran.stdout), (1, 9))
        self.assertIn("column 16385", ran.stdout)
        self.assertLessEqual(max(map(len, ran.stdout.splitlines())), 120)

    def test_a_fault_far_in_a_line(self):
        ran = self.why(b"24 NtRequestPort 4 d:" + b"61" * 500 + b"6g" + b"61" * 500)
        text, marks = ran.stdout.splitlines()[2:4]
        self.assertEqual(text[marks.index("^")], "g")
        self.assertIn("column 1023, word 4", ran.stdout)

    def test_a_well_formed_script_has_no_fault(self):
        ran = self.why(b"boot 20 24\n")
        self.assertEqual((ran.returncode, ran.stdout), (0, "the script is well formed: lines 1, entries 1\n"))

    def test_lines_without_effect_are_told(self):
        script = b"boot 20 24\n24 NtCreatePort -\n24 NtListenPort 4\n"
        # An unnamed port can't be listened on: the thread doesn't wait yet.
        script += b"24 NtReplyWaitReceivePort 4\n24 NtClose 4\n20 NtClose 4\n28 NtClose 4\nthread 28 20\n99 NtClose 4\n"
        told = self.why(script).stdout.splitlines()
        self.assertEqual(
            told,
            [
                "the script is well formed: lines 9, entries 9",
                "line 5 has no effect: thread 24 is busy: it waits in NtReplyWaitReceivePort since line 4",
                "line 6 has no effect: there is no thread 20; 20 is a process, whose first thread is 24",
                "line 7 has no effect: there is no thread 28 yet; line 8 makes it",
                "line 9 has no effect: there is no thread 99",
            ],
        )


    def test_a_thread_that_died_is_told(self):
        script = b"boot 20 24\nthread 28 20\n24 NtTerminateThread self 1\n24 NtCreatePort -\n"
        told = self.why(script).stdout.splitlines()
        died = "line 4 has no effect: there is no thread 24 any longer; it died in line 3"
        self.assertEqual(told, ["the script is well formed: lines 4, entries 4", died])


class Endings(support.WithFolder):
    def test_other_endings_are_told_in_words(self):
        wanted = {3: "the input failed", 4: "the output failed", 5: "memory ran out", 64: "no word `replay`"}
        for status, words in wanted.items():
            fake = self.file("fake", b"#!/bin/sh\nexit %d\n" % status)
            support.pathlib.Path(fake).chmod(0o755)
            ran = support.run("why", "-", "--program", fake, source=b"boot 20 24\n")
            self.assertEqual(ran.returncode, 2)
            self.assertIn(f"the program ended with status {status}: ", ran.stdout)
            self.assertIn(words, ran.stdout)

    def test_a_program_that_prints_no_transcript(self):
        fake = self.file("fake", b"#!/bin/sh\necho hello\n")
        support.pathlib.Path(fake).chmod(0o755)
        ran = support.run("why", "-", "--program", fake, source=b"boot 20 24\n")
        self.assertEqual((ran.returncode, ran.stdout), (2, ""))
        self.assertIn("printed no transcript: line 1", ran.stderr)

    def test_the_statuses_are_those_of_the_readme(self):
        for _, head, rows in pages.tables((support.ROOT / "README.md").read_text(encoding="utf-8")):
            if head == ["Status", "When"]:
                self.assertEqual([int(row[0]) for row in rows], list(program.ENDINGS))
                return
        self.fail("the README has no table of statuses")


class Forms(unittest.TestCase):
    def test_each_word_of_a_form_is_known(self):
        used = {word for form in (*forms.DIRECTIVES.values(), *forms.CALLS.values()) for word in form}
        self.assertEqual(used, set(forms.WORDS))

    def test_what_is_built_is_not_absent(self):
        self.assertFalse(absent.CALLS & set(forms.CALLS))
        self.assertFalse(absent.DIRECTIVES & set(forms.DIRECTIVES))


@support.needs_program
class Page(unittest.TestCase):
    """docs/FAULTS.md: below each heading `Kind N` stand whole scripts whose last line has a fault of that kind."""

    @unittest.skipUnless(PAGE.is_file(), "docs/FAULTS.md isn't there")
    def test_each_script_has_the_kind_of_its_heading(self):
        tried = 0
        for kind, script in scripts_of(PAGE.read_text(encoding="utf-8")):
            name = program.find()
            ran = program.replay(name, script)
            with self.subTest(script[-80:]):
                self.assertEqual(ran.status, 2)
                numbers = [int(it) for it in ran.printed.splitlines()[-1].split()[1:]]
                told = list(why.faulty(name, script, *numbers))
                self.assertEqual(named(told[0]), (len(script.rstrip(b"\n").split(b"\n")), kind))
                self.assertGreater(len(told), 5)
            tried += 1
        self.assertGreater(tried, 6)


def scripts_of(text):
    """The scripts of docs/FAULTS.md, each with the number in the heading above it."""
    kind = None
    parts = re.split(r"^(## .*|```.*)$", text, flags=re.M)
    for at in range(1, len(parts) - 1, 2):
        if parts[at].startswith("## "):
            found = re.match(r"## Kind (\d+):", parts[at])
            kind = int(found[1]) if found else None
        elif kind is not None and parts[at] in ("```script", "```script-escaped"):
            script = parts[at + 1].strip("\n").encode()
            if parts[at].endswith("escaped"):
                script = script.decode("unicode_escape").encode("latin-1")
            yield kind, script


if __name__ == "__main__":
    unittest.main()
