"""What all words of `ntlpc-tool` have in common: help, version, exit statuses, and inputs and outputs that fail."""
import gzip
import os
import pathlib
import shutil
import subprocess
import sys
import unittest
import unittest.mock

import support
from ntlpc_tool import forms, inputs, main, pages, program

TRANSCRIPT = support.ROOT / "examples" / "first-request.transcript"


class Words(support.WithFolder):
    def test_help_lists_each_word_with_its_first_line(self):
        ran = support.run("--help")
        self.assertEqual(ran.returncode, 0)
        told = " ".join(ran.stdout.split())
        for name, module in main.all_words().items():
            self.assertIn(f"{name} {' '.join(module.__doc__.split(chr(10))[0].split())}", told)

    def test_help_of_a_word_has_its_docstring(self):
        for name, module in main.all_words().items():
            ran = support.run(name, "--help")
            self.assertEqual(ran.returncode, 0)
            self.assertIn(module.__doc__.strip(), ran.stdout)

    def test_the_version_is_that_of_the_checkout(self):
        wanted = (support.ROOT / "VERSION").read_text().strip()
        self.assertEqual(support.run("--version").stdout, f"ntlpc-tool {wanted}\n")

    def test_wrong_words(self):
        for words in ((), ("unknown",), ("coverage",), ("coverage", "--unknown", str(TRANSCRIPT))):
            self.assertEqual(support.run(*words).returncode, 2, words)

    def test_a_file_that_cannot_be_read_has_one_line(self):
        for path in (self.folder.name, "/nonexistent/file"):
            ran = support.run("coverage", path)
            self.assertEqual((ran.returncode, ran.stdout), (2, ""))
            self.assertRegex(ran.stderr, rf"\Antlpc-tool coverage: {path} can't be read: .+\n\Z")

    def test_a_malformed_transcript_has_one_line(self):
        ran = support.run("coverage", "-", source=b"1 - boot 00000000\nboot\n")
        self.assertEqual((ran.returncode, ran.stdout), (2, ""))
        self.assertRegex(ran.stderr, r"\Antlpc-tool coverage: the standard input: line 2 of the transcript: .+\n\Z")

    def test_a_reader_that_has_gone_ends_it_quietly(self):
        tool = [sys.executable, support.TOOLS / "ntlpc-tool", "coverage", TRANSCRIPT]
        with subprocess.Popen(tool, stdout=subprocess.PIPE, stderr=subprocess.PIPE) as child:
            child.stdout.close()
            said = child.stderr.read()
        self.assertEqual((child.returncode, said), (main.READER_GONE, b""))

    def test_an_input_or_output_that_is_closed_has_one_line(self):
        for closed, words in (("<&-", "the standard input is closed"), (">&-", "the standard output is closed")):
            command = f'exec "$@" {closed}'
            tool = [sys.executable, support.TOOLS / "ntlpc-tool", "coverage", "-"]
            ran = subprocess.run(["sh", "-c", command, "sh", *tool], capture_output=True, text=True, timeout=60)
            self.assertEqual(ran.returncode, 2)
            self.assertRegex(ran.stderr, rf"\Antlpc-tool.*: {words}\n\Z")

    @unittest.skipUnless(os.path.exists("/dev/full"), "this system has no /dev/full")
    def test_a_disk_that_is_full_has_one_line(self):
        for words in (("json", TRANSCRIPT), ("--help",), ("json", "--help"), ("--version",)):
            with open("/dev/full", "wb") as sink:
                tool = [sys.executable, support.TOOLS / "ntlpc-tool", *words]
                ran = subprocess.run(tool, stdout=sink, stderr=subprocess.PIPE, text=True, timeout=60)
            self.assertEqual(ran.returncode, 2, words)
            self.assertRegex(ran.stderr, r"\Antlpc-tool: the output can't be written: .+\n\Z")


class Installed(support.WithFolder):
    """The tools without a checkout: the package, the command and the version in one folder, the pages in another."""

    def setUp(self):
        super().setUp()
        top = pathlib.Path(self.folder.name)
        self.share, self.pages, path = top / "share" / "ntlpc", top / "share" / "doc" / "ntlpc", top / "bin"
        shutil.copytree(support.TOOLS / "ntlpc_tool", self.share / "ntlpc_tool")
        shutil.copy(support.TOOLS / "ntlpc-tool", self.share)
        shutil.copy(support.ROOT / "VERSION", self.share)
        shutil.copytree(support.ROOT / "docs", self.pages)
        path.mkdir()
        self.command = path / "ntlpc-tool"
        self.command.symlink_to(self.share / "ntlpc-tool")

    def run_it(self, *words):
        """Runs the installed command."""
        environment = {it: value for it, value in os.environ.items() if it != program.VARIABLE}
        environment["PATH"] = str(self.command.parent)
        tool = [sys.executable, self.command, *words]
        return subprocess.run(tool, capture_output=True, text=True, env=environment, timeout=60)

    def test_the_version_is_known(self):
        self.assertRegex(self.run_it("--version").stdout, r"\Antlpc-tool [0-9.]+\n\Z")

    def test_the_pages_are_found(self):
        wanted = support.run("coverage", TRANSCRIPT)
        self.assertEqual(self.run_it("coverage", TRANSCRIPT).stdout, wanted.stdout)
        for page in self.pages.glob("*.md"):
            page.with_suffix(".md.gz").write_bytes(gzip.compress(page.read_bytes()))
            page.unlink()
        self.assertEqual(self.run_it("coverage", TRANSCRIPT).stdout, wanted.stdout)
        shutil.rmtree(self.pages)
        ran = self.run_it("coverage", TRANSCRIPT)
        self.assertEqual(ran.returncode, 2)
        self.assertRegex(ran.stderr, r"\Antlpc-tool coverage: the page SERVICES.md is missing; .+\n\Z")

    def test_the_program_on_the_path_is_run(self):
        script = self.file("script", b"boot 20 24\n")
        ran = self.run_it("why", script)
        self.assertEqual(ran.returncode, 2)
        self.assertRegex(ran.stderr, r"\Antlpc-tool why: there is no program: .+\n\Z")
        fake = self.command.parent / "ntlpc"
        fake.write_bytes(b"#!/bin/sh\necho 1 - boot 00000000\necho end 1 1 2\n")
        fake.chmod(0o755)
        self.assertEqual(self.run_it("why", script).stdout, "the script is well formed: lines 1, entries 1\n")


class Programs(support.WithFolder):
    def test_one_that_is_none_is_told(self):
        with self.assertRaisesRegex(inputs.Misuse, "--program names /nonexistent, which is no program"):
            program.find("/nonexistent")

    def test_the_environment_comes_behind_the_option(self):
        fake = self.file("fake", b"#!/bin/sh\necho end 0 0 0\nexit 3\n")
        with unittest.mock.patch.dict("os.environ", {program.VARIABLE: "/nonexistent"}):
            with self.assertRaisesRegex(inputs.Misuse, "NTLPC names /nonexistent"):
                program.find()
            self.assertEqual(program.find("sh")[-3:], "/sh")
        with self.assertRaisesRegex(inputs.Misuse, "no program that can be run"):
            program.find(fake)

    def test_how_a_run_ends_is_told(self):
        fake = self.file("fake", b"#!/bin/sh\ncat\nexit 3\n")
        os.chmod(fake, 0o755)
        ran = program.replay(fake, b"boot 20 24\n")
        self.assertEqual((ran.status, ran.printed), (3, b"boot 20 24\n"))
        self.assertIn("the input failed", ran.ending())
        self.assertIn("signal 9", program.Ran(-9, b"", b"").ending())
        self.assertIn("a status that the program doesn't have", program.Ran(7, b"", b"").ending())


class Forms(unittest.TestCase):
    def test_they_are_those_of_the_page(self):
        named = {}
        for heading, head, rows in pages.tables(pages.text_of("SCRIPTS.md")):
            if heading == "Lines" and head == ["Line", "Words"]:
                for row in rows:
                    words = row[0].strip("`").split()
                    key = words[0] if words[0] in forms.DIRECTIVES else words[1]
                    named[key] = row[0].strip("`")
        # What the page tells in words: a further word, and that refuse, same or self may stand in a place.
        plain = {
            "boot": "boot PID TID [TOKEN]",
            "token": "token TOKEN USER [GROUP] ..",
            "NtCreatePort": "TID NtCreatePort NAME [DACL]",
            "NtReplyWaitReceivePort": "TID NtReplyWaitReceivePort H [MSG]",
            "NtAcceptConnectPort": "TID NtAcceptConnectPort CTX MSG accept|refuse VIEW",
            "NtDuplicateObject": "TID NtDuplicateObject H ACCESS|same",
            "NtCreateThread": "TID NtCreateThread H|self TID",
            "NtTerminateThread": "TID NtTerminateThread H|self CODE",
            "NtTerminateProcess": "TID NtTerminateProcess H|self CODE",
            "NtSetInformationProcess": "TID NtSetInformationProcess H|self CLASS PORT",
            "raise": "TID raise CODE handled|unhandled",
        }
        self.assertEqual(set(named), {*forms.DIRECTIVES, *forms.CALLS})
        for name in named:
            self.assertEqual(forms.form_of(name), plain.get(name, named[name]))


if __name__ == "__main__":
    unittest.main()
