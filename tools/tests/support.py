"""What the unit tests of the tools share."""
import contextlib
import io
import os
import pathlib
import shutil
import subprocess
import sys
import tempfile
import unittest

sys.dont_write_bytecode = True
TOOLS = pathlib.Path(__file__).resolve().parent.parent
sys.path.insert(0, str(TOOLS))
import reading
from ntlpc_tool import main, program

ROOT = TOOLS.parent
EXAMPLES = sorted((ROOT / "examples").rglob("*.script"))
BROWSER = next(filter(None, map(shutil.which, ("chromium", "chromium-browser", "google-chrome"))), None)


def run(*words, source=b"", **environment):
    """Runs `ntlpc-tool` with these words over an input; the result has `returncode`, `stdout` and `stderr` as text."""
    ran = subprocess.run(
        [sys.executable, TOOLS / "ntlpc-tool", *words],
        input=source,
        capture_output=True,
        env={**os.environ, "PYTHONUTF8": "1", **environment},
        timeout=60,
    )
    ran.stdout, ran.stderr = ran.stdout.decode(), ran.stderr.decode()
    return ran


def inside(*words):
    """As `run`, in this process: for tests that run a tool many times."""
    told = [io.TextIOWrapper(io.BytesIO(), encoding="utf-8", write_through=True) for _ in range(2)]
    with contextlib.redirect_stdout(told[0]), contextlib.redirect_stderr(told[1]):
        status = main.main([str(it) for it in words])
    return subprocess.CompletedProcess(words, status, *(it.buffer.getvalue().decode() for it in told))


def needs_program(test):
    """Marks a test that needs the program `ntlpc`; tests/companions.py sees to it that there is one."""
    return unittest.skipUnless(program.is_there(), "there is no program")(test)


class WithFolder(unittest.TestCase):
    """A test that writes files into a folder of its own."""

    def setUp(self):
        self.folder = tempfile.TemporaryDirectory()
        self.addCleanup(self.folder.cleanup)

    def file(self, name, content):
        """Writes a file, and returns its path."""
        path = pathlib.Path(self.folder.name) / name
        path.write_bytes(content)
        return str(path)

    def program(self, code):
        """A program that does what shell code says; its word is `$1` there."""
        path = self.file("fake", b"#!/bin/sh\ncat > /dev/null\n" + code)
        os.chmod(path, 0o755)
        return path


@unittest.skipUnless(BROWSER, "chromium isn't installed")
class WithBrowser(WithFolder):
    """A test of what a browser makes of a page."""

    def loaded(self, text, fragment=""):
        """The tree that a browser makes of a page."""
        page = pathlib.Path(self.file("page.html", text.encode()))
        flags = ["--headless", "--no-sandbox", "--disable-gpu", f"--user-data-dir={self.folder.name}/profile",
                 "--virtual-time-budget=1000", "--enable-logging=stderr", "--v=0", "--dump-dom"]
        ran = subprocess.run([BROWSER, *flags, page.as_uri() + fragment], capture_output=True, text=True, timeout=120)
        self.assertNotIn("Content Security Policy", ran.stderr)
        self.assertNotIn("Uncaught", ran.stderr)
        return reading.tree(ran.stdout)
