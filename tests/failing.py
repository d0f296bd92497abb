"""Runs a program with a library in front of its C library that makes chosen calls fail: tests/failing.c."""
import contextlib
import os
import pathlib
import shutil
import struct
import subprocess
import sys
import tempfile

import running
from tally import tally

SOURCE = pathlib.Path(__file__).resolve().parent / "failing.c"
COUNTS = struct.Struct("=3Q")
SECONDS = 60
# More bytes than any run prints here that is right.
MUCH = 1 << 24


class Run:
    """How a run ended: its status (below 0: the signal that ended it), what it printed, its standard error, and how
    many allocations, reads and writes it made. One that came to no end by itself has the status None, and in place of
    its standard error what was wrong."""

    def __init__(self, status, printed, said, counts):
        self.status, self.printed, self.said = status, printed, said
        self.allocations, self.reads, self.writes = counts


class Failing:
    """The library, and a program that is run with it."""

    def __init__(self, folder, command):
        self.library, self.counts = os.path.join(folder, "failing.so"), os.path.join(folder, "counts")
        self.command = command
        build = [compiler(), "-shared", "-fPIC", "-O1", "-o", self.library, str(SOURCE)]
        subprocess.run(build, check=True, timeout=SECONDS)

    def run(self, *words, source=b"", piped=False, **given):
        """Runs the program with these words over a source, a file or a pipe; `given` is the library's environment, as
        FAIL_READ=2."""
        with open(self.counts, "wb") as file:
            file.write(bytes(COUNTS.size))
        told = {name: str(value) for name, value in given.items()}
        env = {**os.environ, **told, "LD_PRELOAD": self.library, "FAILING_COUNTS": self.counts}
        # A file gives as many bytes as are asked for; a pipe gives what has come.
        with tempfile.TemporaryFile() as script:
            script.write(source)
            script.seek(0)
            stream = source if piped else script
            try:
                ended = running.run([*self.command, *words], stream, most=MUCH, env=env)
            except running.Wrong as why:
                ended = None, b"", str(why).encode()
        with open(self.counts, "rb") as file:
            return Run(*ended, COUNTS.unpack(file.read(COUNTS.size)))

    def replay(self, source, **given):
        return self.run("replay", source=source, **given)


def compiler():
    """The C compiler, or None where there is none."""
    return shutil.which(os.environ.get("CC", "cc"))


@contextlib.contextmanager
def failing(command):
    """The library and a program, for as long as a test takes."""
    with tempfile.TemporaryDirectory() as folder:
        yield Failing(folder, command)


def tried(name, checks, words):
    """Makes the checks of a test over the program that its words name, and answers the test's status. `name` is the
    test, and `checks` gives each check with its name and what it found wrong."""
    if len(words) != 1 or not shutil.which(words[0]):
        print(f"usage: {name} PROGRAM", file=sys.stderr)
        return 64
    if not compiler():
        print("left out: there is no C compiler here")
        return tally(())
    with failing(words) as program:
        return tally(checks(program))
