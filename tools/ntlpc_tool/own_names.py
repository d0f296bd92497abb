"""A script for a program that gives other handles and identifiers than the profile: the same calls with its values.

Where the right transcript tells that a line gave a handle or an identifier, later lines that use it get what the
program gave there. What is no name in the script stays none: such a value is changed only where the program gave it to
another thing. `of_got` takes a transcript of the program and gives the script that goes with it. The program is run
over that script again, until its transcript and the script fit.
"""
import struct

from ntlpc_tool import forms, message, script_lines, statuses

HANDLES = ("h", "thread")
# The words of a line's form that are handles.
HANDLE_WORDS = ("H", "H|self", "PORT")
# Where in a message's header the thread and the identifier of its client stand.
CLIENT = struct.Struct("<II")
CLIENT_AT = 12
# The calls whose message names a wait by its client.
ANSWERS = (
    "NtAcceptConnectPort", "NtReplyPort", "NtReplyWaitReceivePort", "NtReadRequestData", "NtWriteRequestData",
    "NtImpersonateClientOfPort",
)  # fmt: skip
MOST = 0xFFFFFFFC


class Space:
    """The names of one process's handles, or of one thread's identifiers: which name of the program's stands for which
    of the script's, now and before."""

    def __init__(self):
        self.now, self.before = {}, {}

    def give(self, wanted, got):
        self.now[wanted] = got

    def end(self, wanted):
        if wanted in self.now:
            self.before[wanted] = self.now.pop(wanted)

    def of(self, wanted):
        """The program's name; for what names nothing now, a value that names nothing for the program either."""
        if wanted in self.now:
            return self.now[wanted]
        taken, value = set(self.now.values()), self.before.get(wanted, wanted)
        while value in taken:
            value = MOST if value > MOST - 4 else value + 4
            if value == MOST:
                value = next(it for it in range(MOST, 0, -4) if it not in taken)
        return value


class Names:
    """What the lines of a script name, as its right transcript tells."""

    def __init__(self, script, wanted):
        self.script = script_lines.Script(script)
        self.lines = script.split(b"\n")
        self.process_of = self.script.processes(wanted)
        self.entries = {}
        self.handles, self.identifiers = {}, {}
        for entry in wanted.entries:
            self.entries.setdefault(entry.line, []).append(entry)

    def of_got(self, got):
        """The script with the names that a transcript of the program tells; the profile's where it tells none."""
        self.handles, self.identifiers = {}, {}
        lines = list(self.lines)
        told = {}
        for entry in got.entries:
            told.setdefault(entry.line, []).append(entry)
        for line in sorted(self.entries):
            lines[line - 1] = self.line(line)
            self.learn(line, told.get(line, ()))
        return b"\n".join(lines)

    def line(self, number):
        """A line of the script with the program's names, as far as the lines before it are learned."""
        return self._translated(number) if number in self.entries else self.lines[number - 1]

    def learn(self, number, got):
        """Keeps what the program told of a line, entries in any order."""
        told = {(it.thread, it.kind == "wake"): it for it in got}
        for entry in self.entries.get(number, ()):
            self._learn(entry, told.get((entry.thread, entry.kind == "wake")))

    def _space(self, spaces, owner):
        return spaces.setdefault(owner, Space())

    def _learn(self, wanted, got):
        """Keeps what an entry gives, and frees the handle that it closed."""
        handles = self._space(self.handles, self.process_of.get(wanted.thread))
        self._learn_event(wanted, got)
        for name, value in wanted.fields:
            other = got.field(name) if got else None
            given = int(other if other and other.isdigit() else value) if name in (*HANDLES, "id") else None
            if name in HANDLES:
                handles.give(int(value), given)
            elif name == "id":
                self._space(self.identifiers, wanted.thread).give(int(value), given)
        self._free(wanted, handles)

    def _learn_event(self, wanted, got):
        """Keeps the identifier of an event that an entry shows: of those that a raise draws behind its first one,
        nothing else tells."""
        here, there = wanted.message(), got.message() if got else None
        if here and here.type in message.EVENTS:
            space = self._space(self.identifiers, here.thread)
            if there and (there.process, there.thread) == (here.process, here.thread):
                space.give(here.message_id, there.message_id)
            else:
                space.now.setdefault(here.message_id, here.message_id)

    def _free(self, wanted, handles):
        """Frees the handle that a line closed."""
        if (wanted.call, wanted.status) == ("NtClose", statuses.SUCCESS):
            handles.end(script_lines.number(self.script.words(wanted.line)[2]))

    def _translated(self, line):
        """A line with the program's names."""
        words = self.script.words(line)
        form = forms.of_words(words)
        if not words or words[0] in forms.DIRECTIVES or len(words) > len(form):
            return self.lines[line - 1]
        process = self.process_of.get(script_lines.number(words[0]))
        told = [self._word(word, kind, words[1], process) for word, kind in zip(words, form)]
        return self.lines[line - 1] if told == words else " ".join(told).encode()

    def _word(self, word, kind, call, process):
        """A word with the program's name."""
        if kind in HANDLE_WORDS and word != "self":
            value = script_lines.number(word)
            other = self._space(self.handles, process).of(value)
            return word if other == value else str(other)
        if kind in ("MSG", "[MSG]") and call in ANSWERS:
            return self._message(word)
        return self._view(word, process) if kind == "VIEW" else word

    def _view(self, word, process):
        """A view that is offered, with the program's name for its section's handle."""
        handle, part = _handle_of_view(word)
        return word if handle is None else f"w:{self._word(handle, 'H', None, process)}:{part}"

    def _message(self, word):
        """A message that names a wait, with the program's identifier."""
        if word.startswith("r:"):
            client, _, data = word[2:].partition(":")
            process, thread, identifier = client.split(".")
            value = script_lines.number(identifier)
            other = self._space(self.identifiers, script_lines.number(thread)).of(value)
            return word if other == value else f"r:{process}.{thread}.{other}:{data}"
        data = bytearray.fromhex(word[2:]) if word.startswith("m:") else b""
        if len(data) < message.HEADER_SIZE:
            return word
        thread, value = CLIENT.unpack_from(data, CLIENT_AT)
        other = self._space(self.identifiers, thread).of(value)
        if other == value:
            return word
        CLIENT.pack_into(data, CLIENT_AT, thread, other)
        return f"m:{data.hex()}"


class Symbols(Names):
    """A script with symbols in place of the names that lines of it give, as `ntlpc-tool script` reads them: `$l5` is
    what the call of line 5 gave. A message of the form `m:` has its identifier spelled out."""

    def __init__(self, script, wanted):
        super().__init__(script, wanted)
        self.calls, self.used = {}, set()

    def trace(self):
        """The script with symbols."""
        lines = list(self.lines)
        for line, entries in sorted(self.entries.items()):
            lines[line - 1] = self._translated(line)
            for entry in entries:
                self._learn(entry, None)
        for line in self.used:
            lines[line - 1] = b"$l%d = %s" % (line, lines[line - 1])
        return b"\n".join(lines)

    def _learn(self, wanted, got):
        if wanted.kind != "wake":
            self.calls[wanted.thread] = wanted.line
        line = self.calls.get(wanted.thread)
        shown = wanted.message()
        if shown and shown.type in message.EVENTS:
            self._space(self.identifiers, shown.thread).now.setdefault(shown.message_id, (line, ""))
        handles = self._space(self.handles, self.process_of.get(wanted.thread))
        for name, value in wanted.fields:
            if name in HANDLES:
                handles.give(int(value), (line, "" if name == "h" else ".thread"))
            elif name == "id":
                self._space(self.identifiers, wanted.thread).give(int(value), (line, ""))
        self._free(wanted, handles)

    def _symbol(self, space, value, word):
        """The symbol for a value, or the word where it names nothing."""
        if value not in space.now:
            return word
        line, part = space.now[value]
        self.used.add(line)
        return f"$l{line}{part}"

    def _word(self, word, kind, call, process):
        if kind in HANDLE_WORDS and word != "self":
            return self._symbol(self._space(self.handles, process), script_lines.number(word), word)
        if kind in ("MSG", "[MSG]") and call in ANSWERS and word.startswith("r:"):
            client, _, data = word[2:].partition(":")
            process, thread, identifier = client.split(".")
            space = self._space(self.identifiers, script_lines.number(thread))
            return f"r:{process}.{thread}.{self._symbol(space, script_lines.number(identifier), identifier)}:{data}"
        return self._view(word, process) if kind == "VIEW" else word


def _handle_of_view(word):
    """The handle of a view that is offered, and what stands behind it; None where there is no view."""
    front, _, rest = word.partition(":")
    handle, _, part = rest.partition(":")
    return (handle, part) if front == "w" else (None, None)
