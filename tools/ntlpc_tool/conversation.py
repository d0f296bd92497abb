"""A conversation with the program, for test benches: a line is asked, and its entries are there before the next one.

    from ntlpc_tool.conversation import Conversation

    with Conversation() as oracle:
        oracle.step("boot 20 24")
        port, = oracle.step("24 NtCreatePort -")
        print(port.status, port.field("h"))

docs/CONVERSATION.md tells how it works, and how to hold one from a shell or from C.
"""
import queue
import subprocess
import threading

from ntlpc_tool import program, transcript

# A number of a thread that no script is likely to make.
NOBODY = 2_147_483_647
SECONDS = 10
# How long an ended program's output may still be held open, by what that program started.
GRACE = 1


class Broken(Exception):
    """The conversation can't go on: the program ended, was silent for too long, or printed what no transcript has."""


class Stopped(Broken):
    """A line is faulty, and the program ended there. `closing` is its last line: `stop`, the line's number, its fault."""

    def __init__(self, closing):
        super().__init__(f"the line is faulty: the program ended with `{closing.raw}`")
        self.closing = closing


class Conversation:
    """One run of the program, which is asked a line at a time.

    Behind each line it is asked for a call of a thread that nobody made, `nobody`. That is answered by one entry
    `nothread`, which marks the end of the turn and isn't handed out. So the program counts two lines for each turn.
    """

    def __init__(self, given=None, nobody=NOBODY, seconds=SECONDS):
        """Starts the program: the one given, else the one that the other tools find. It may be silent for so long."""
        self._nobody = nobody
        self._seconds = seconds
        self._told = queue.Queue()
        self._child = subprocess.Popen(
            [program.find(given), "replay"], stdin=subprocess.PIPE, stdout=subprocess.PIPE, bufsize=0
        )
        self._listener = threading.Thread(target=self._listen, daemon=True)
        self._listener.start()

    def __enter__(self):
        return self

    def __exit__(self, *_):
        self.kill()

    def step(self, line):
        """Asks a line, and gives its entries as ntlpc_tool.transcript reads them: none for a comment or a blank line."""
        if "\n" in line:
            raise ValueError("a line has no byte 10 of its own")
        self._send(f"{line}\n{self._nobody} NtClose 0\n")
        entries = []
        while True:
            told = self._next()
            if isinstance(told, transcript.Closing):
                raise Stopped(told)
            if told.thread == self._nobody and told.kind == "nothread":
                return tuple(entries)
            entries.append(told)

    def close(self):
        """Ends the script, and gives the last line, with the counts of lines, entries and objects."""
        self._child.stdin.close()
        told = self._next()
        if not isinstance(told, transcript.Closing):
            raise Broken(f"`{told.raw}` came where the last line was wanted")
        self._child.wait(self._seconds)
        return told

    def kill(self):
        """Ends the program at once, where it still runs."""
        self._child.kill()
        self._child.wait()
        self._child.stdin.close()
        # Whoever opens something next may get the number of this output, so nobody may listen on it any more then.
        self._listener.join(GRACE)
        if not self._listener.is_alive():
            self._child.stdout.close()

    def _listen(self):
        """Hands on what the program prints, line by line, and None behind it."""
        try:
            with open(self._child.stdout.fileno(), "rb", closefd=False) as printed:
                for line in printed:
                    self._told.put(line)
        except (OSError, ValueError):
            pass
        self._told.put(None)

    def _send(self, text):
        try:
            self._child.stdin.write(text.encode("utf-8"))
        except (BrokenPipeError, ValueError):
            raise Broken(self._ended()) from None

    def _next(self):
        """The next line of the transcript, an entry or the last line."""
        try:
            line = self._told.get(timeout=self._seconds)
        except queue.Empty:
            raise Broken(f"the program was silent for {self._seconds} seconds") from None
        if line is None:
            self._told.put(None)
            raise Broken(self._ended())
        try:
            read = transcript.read(line)
        except transcript.Malformed as wrong:
            raise Broken(f"it printed {line!r}: {wrong.reason}") from None
        return read.closing or read.entries[0]

    def _ended(self):
        try:
            status = self._child.wait(self._seconds)
        except subprocess.TimeoutExpired:
            return "the program closed its output"
        return f"the program ended: {program.Ran(status, b'', b'').ending()}"
