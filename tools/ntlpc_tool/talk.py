"""A conversation with a program, which answers each line of a script before it reads the next one."""
import contextlib
import os
import queue
import re
import signal
import subprocess
import tempfile
import threading
import time

from ntlpc_tool import ending

MUCH = 1 << 20
NUMBER = re.compile(rb"(?:stop )?(\d{1,9}) ")


class Talk(ending.Ending):
    """A run of a program, line by line. It is ended where it takes too long in all, or prints far more than is wanted.

    `printed`, `said`, `status`, `late` and `talks` tell of it what they tell of a run over a whole script.
    """

    def __init__(self, command, most, timeout):
        self.most, self.end = most, time.monotonic() + timeout
        self.printed, self.said, self.over = bytearray(), b"", False
        self.errors = tempfile.TemporaryFile()
        how = {"stdin": subprocess.PIPE, "stdout": subprocess.PIPE, "stderr": self.errors, "start_new_session": True}
        try:
            self.child = subprocess.Popen(command, **how)
        except OSError:
            self.errors.close()
            raise
        self.lines = queue.SimpleQueue()
        self.reader = threading.Thread(target=self._read, daemon=True)
        self.reader.start()

    def __enter__(self):
        return self

    def __exit__(self, *why):
        """Ends the program where it still runs, and what it started."""
        with contextlib.suppress(OSError):
            self.child.stdin.close()
        if self.child.poll() is None:
            with contextlib.suppress(ProcessLookupError):
                os.killpg(self.child.pid, signal.SIGKILL)
        self.child.wait()
        self.reader.join(1)
        self.child.stdout.close()
        self.errors.close()

    def _read(self):
        with contextlib.suppress(ValueError, OSError):
            for line in self.child.stdout:
                self.lines.put(line)
        self.lines.put(None)

    def say(self, data):
        """Writes to the program; one that has ended reads nothing."""
        with contextlib.suppress(OSError):
            self.child.stdin.write(data)
            self.child.stdin.flush()

    def hear(self, number, count, seconds):
        """Reads until `count` lines have come that belong to a line of the script; whether they came in time."""
        while count > 0 and not self.over:
            line = self._next(seconds)
            if line is None:
                return self.over
            found = NUMBER.match(line)
            count -= bool(found) and int(found[1]) == number
        return True

    def _next(self, seconds):
        """The next line that the program prints; None where none came in time, or it has ended."""
        wait = min(seconds, self.end - time.monotonic())
        try:
            line = self.lines.get(timeout=max(wait, 0.001))
        except queue.Empty:
            self.late = self.end <= time.monotonic()
            return None
        if line is None:
            self.over = True
            return None
        self.printed += line
        self.talks = len(self.printed) > self.most
        self.over = self.talks
        return line

    def finish(self):
        """Tells the program that the script ends here, reads the rest, and keeps how it ended."""
        with contextlib.suppress(OSError):
            self.child.stdin.close()
        while not self.over and not self.late:
            self._next(self.end - time.monotonic())
        if not self.late and not self.talks:
            try:
                self.status = self.child.wait(max(self.end - time.monotonic(), 0.001))
            except subprocess.TimeoutExpired:
                self.late = True
        self.errors.seek(0)
        self.said = self.errors.read(MUCH)
