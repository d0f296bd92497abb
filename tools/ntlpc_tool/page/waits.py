"""Who waits behind a line of a script, and on what, as far as the transcript tells it up to there."""
import bisect
import collections

from ntlpc_tool import message, sequence, transcript, turns

# What each call that sends nothing waits for.
LISTENS = {"NtListenPort": "a connection request", "NtReplyWaitReceivePort": "a message"}


class Waits:
    """The waits behind each line of a transcript, whose script is beside it."""

    def __init__(self, found, script):
        self.script = script
        self.by_line = transcript.waits_by_line(found)
        self.lines = list(self.by_line)
        # By sender the messages for which it waits, each with the entry that shows it to who receives it, and the lines
        # of these entries.
        self.shown, self.shown_at = collections.defaultdict(list), collections.defaultdict(list)
        for entry in found.entries:
            shown = entry.message()
            if shown and shown.type in sequence.WAITED_FOR:
                self.shown[shown.thread].append((entry, shown))
                self.shown_at[shown.thread].append(entry.line)

    def behind(self, line):
        """The sentences on who waits behind a line, in the order of the waits; None stands for the transcript's end."""
        at = bisect.bisect_right(self.lines, line) if line is not None else len(self.lines)
        waits = self.by_line[self.lines[at - 1]] if at else []
        return [f"thread {it.thread} waits in {it.call}, since line {it.line}: {self._what(it, line)}" for it in waits]

    def _what(self, wait, line):
        """What a thread waits for."""
        words = self.script.words(wait.line)
        if wait.call in LISTENS:
            on = f" on its handle {words[2]}" if len(words) > 2 and not turns.thread_of(words) else ""
            return f"for {LISTENS[wait.call]}{on}"
        number, entry, shown = wait.field("id") or "without a number", *self._received(wait, line)
        if wait.call == "raise":
            told = f"thread {entry.thread} was shown its event {shown.message_id} in line {entry.line}" if entry else ""
            return f"for what becomes of its exception; {told or f'no entry shows its event {number} yet'}"
        told = f"thread {entry.thread} was shown it in line {entry.line}" if entry else "no entry shows it yet"
        if wait.call == "NtConnectPort":
            to = f" to {words[2]}" if len(words) > 2 else ""
            return f"for the answer to its connect {number}{to}; {told}"
        return f"for the reply to its request {number}; {told}"

    def _received(self, wait, line):
        """The entry that shows what a thread waits for, and the message there. Of an exception it is the last event."""
        sent, lines = int(wait.field("id") or 0), self.shown_at[wait.thread]
        begin = bisect.bisect_left(lines, wait.line)
        end = len(lines) if line is None else bisect.bisect_right(lines, line)
        for entry, shown in reversed(self.shown[wait.thread][begin:end]):
            if shown.message_id >= sent if shown.type in message.EVENTS else shown.message_id == sent:
                return entry, shown
        return None, None
