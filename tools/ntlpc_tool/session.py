"""A program that runs script behind script in one process: a session, as docs/CONFORMANCE.md has it.

For each script it is written the line `script BYTES`, and so many bytes. It answers with the transcript, and behind
that with the line `done`.
"""
import contextlib
import dataclasses
import os
import queue
import signal
import subprocess
import tempfile
import threading
from typing import Optional

from ntlpc_tool import ending

MUCH, PIECE = 1 << 20, 1 << 16
HEAD, DONE = b"script %d\n", b"done\n"
# How long a program may take to end, once it was told that no script follows.
GRACE = 5


@dataclasses.dataclass(frozen=True)
class Answer(ending.Ending):
    """What a session told for one script. The program goes on where `status` is None."""

    printed: bytes
    said: bytes
    status: Optional[int] = None
    late: bool = False
    talks: bool = False

    def broke_down(self):
        return self.late or self.talks or self.status is not None

    def wrong(self, status, timeout):
        if self.late:
            return f"it did not say `done` within {timeout:g} seconds, and was ended"
        if self.status is None or self.talks:
            return super().wrong(None, timeout)
        return f"it ended with {self.status_in_words()} before it said `done`"


class Session:
    """One process of the program. `over` tells that it has ended, or was ended."""

    def __init__(self, command):
        self.rest, self.late, self.over = bytearray(), False, False
        self.errors = tempfile.TemporaryFile()
        how = {"stdin": subprocess.PIPE, "stdout": subprocess.PIPE, "stderr": self.errors, "start_new_session": True}
        try:
            self.child = subprocess.Popen(command, bufsize=0, **how)
        except OSError:
            self.errors.close()
            raise

    def run(self, script, most, timeout):
        """Has a script run. A program that takes too long, or prints more than `most` bytes, is ended."""
        before = os.fstat(self.errors.fileno()).st_size
        watch = threading.Timer(timeout, self._end_late)
        writer = threading.Thread(target=self._write, args=(HEAD % len(script) + script,), daemon=True)
        watch.start()
        writer.start()
        printed, talks = self._read(most)
        if talks:
            self.kill()
        # One that answered early has the rest of the script to read.
        writer.join()
        status = self.child.wait() if self.over else None
        watch.cancel()
        self.over = self.over or self.late
        said = os.pread(self.errors.fileno(), MUCH, before)
        if self.over:
            self.end()
        return Answer(printed, said, status, self.late, talks)

    def _write(self, data):
        """Writes to the program; one that has ended reads nothing."""
        data = memoryview(data)
        with contextlib.suppress(OSError):
            while data:
                data = data[self.child.stdin.write(data) :]

    def _read(self, most):
        """What the program prints up to `done`, or to its end, and whether it prints too much. What stands behind
        `done` is left for the next script."""
        told, seen = self.rest, 0
        while True:
            at = told.find(DONE, max(0, seen - len(DONE)))
            if at >= 0:
                self.rest = told[at + len(DONE) :]
                return bytes(told[:at]), False
            if len(told) > most:
                return bytes(told), True
            seen = len(told)
            piece = os.read(self.child.stdout.fileno(), PIECE)
            if not piece:
                self.over = True
                return bytes(told), False
            told += piece

    def kill(self):
        """Ends the program and what it started."""
        self.over = True
        with contextlib.suppress(ProcessLookupError):
            os.killpg(self.child.pid, signal.SIGKILL)

    def _end_late(self):
        self.late = True
        self.kill()

    def end(self):
        """Tells the program that no script follows, and ends it where it goes on nevertheless."""
        with contextlib.suppress(OSError):
            self.child.stdin.close()
        try:
            self.child.wait(0 if self.late else GRACE)
        except subprocess.TimeoutExpired:
            self.kill()
            self.child.wait()
        self.child.stdout.close()
        self.errors.close()


class Sessions:
    """As many sessions of a program as run at a time. A program that has ended is started anew for the next script."""

    def __init__(self):
        self.idle = queue.LifoQueue()

    def run(self, command, script, most, timeout):
        """Has a script run by a session that is idle, or by a new one."""
        try:
            session = self.idle.get_nowait()
        except queue.Empty:
            session = Session(command)
        answer = session.run(script, most, timeout)
        if not session.over:
            self.idle.put(session)
        return answer

    def end(self):
        """Ends all of them."""
        with contextlib.suppress(queue.Empty):
            while True:
                self.idle.get_nowait().end()
