"""How a trace with symbols becomes a script: line by line, with what the program tells of the lines before.

words/script.py tells what a trace is. A symbol's value stands in the transcript of the lines above it. So the program
is run over these where a symbol is used that no earlier run has told.
"""
import re
import string

from ntlpc_tool import faults, inputs, message, script_lines, statuses, transcript

BINDING = re.compile(r" *\$([A-Za-z_][A-Za-z0-9_]*) += +(.*)")
NAME = re.compile(r"@([A-Za-z_][A-Za-z0-9_]*)")
SYMBOL = re.compile(r"\$([A-Za-z_][A-Za-z0-9_]*)(?:\.([a-z]+))?")
WHOLE_REPLY = re.compile(r"r:\$([A-Za-z_][A-Za-z0-9_]*):(.*)")
PART = r"(\$[A-Za-z_][A-Za-z0-9_]*(?:\.[a-z]+)?|[^:.$]*)"
VIEW = re.compile(rf"w:{PART}:{PART}:{PART}")
REPLY = re.compile(rf"r:{PART}\.{PART}\.{PART}:(.*)")
FIRST_NUMBER, NUMBERS_APART = 20, 4
MOST_TOLD = 300
# What a symbol alone stands for, where that isn't the handle that its call gave.
IDENTIFIED = ("NtRequestPort", "NtRequestWaitReplyPort", "raise")
RECEIVES = ("NtListenPort", "NtReplyWaitReceivePort")
SPELLED_AS_HEX = ("ctx", "access", "base", "target", "vbase")
# A word of a trace in which a name or a symbol stands.
WITH_NAMES = re.compile(r"[@$]|r:[@$]|w:.*\$|.*\.[@$]")
OF_MESSAGE = {"process": "process", "thread": "thread", "id": "message_id"}


class Wrong(Exception):
    """Why a trace doesn't become a script: the number of its line, and what is wrong there. A trace may be any file, so
    what stands there is told as it can be printed, and cut."""

    def __init__(self, line, reason):
        plain = "".join(it if it.isprintable() and it.isascii() else f"\\x{ord(it):02x}" for it in reason)
        super().__init__(f"line {line}: {inputs.cut(plain, MOST_TOLD)}")
        self.line = line


class Symbol:
    """What a line with `$NAME =` binds: the line, its call, its thread's number, and that thread's process."""

    def __init__(self, line, call, thread, process):
        self.line, self.call, self.thread, self.process = line, call, thread, process


class Trace:
    """A trace, which becomes a script with the help of `replay`, which runs a script and gives its transcript."""

    def __init__(self, data, replay):
        self.source = [it.rstrip(b"\r").decode("latin-1") for it in inputs.lines_of(data)]
        self.replay = replay
        self.script = []
        self.symbols, self.numbers, self.process_of = {}, {}, {}
        self.bound_at = {}
        self.line = 0
        self._told_lines, self._told = 0, None
        self._free = self._unused_numbers()

    def lines(self):
        """Each line of the trace with the line of the script that it becomes."""
        for self.line, text in enumerate(self.source, 1):
            self.script.append(self._translated(text))
        self._run()
        return list(zip(self.source, self.script))

    def _unused_numbers(self):
        """The numbers for names, one after the other, without those that the trace's directives spell themselves."""
        spelled = {
            script_lines.number(word) for text in self.source if not text.startswith("#") for word in text.split()
        }
        number = FIRST_NUMBER
        while True:
            if number not in spelled:
                yield number
            number += NUMBERS_APART

    def _wrong(self, reason):
        return Wrong(self.line, reason)

    # A line.

    def _translated(self, text):
        """The script's line for a line of the trace."""
        words = [] if text.startswith("#") else text.split(" ")
        if not any(map(WITH_NAMES.match, words)):
            self._learn([it for it in words if it])
            return text
        found = BINDING.fullmatch(text)
        name, text = found.groups() if found else (None, text)
        words = [it for it in text.split(" ") if it]
        self._name(words)
        told = [self._word(it) for it in words]
        if name is not None:
            self._bind(name, told)
        self._learn(told)
        return " ".join(told)

    def _learn(self, words):
        """Keeps the process of a thread that a directive makes."""
        places = script_lines.DIRECTIVES_OF_THREADS.get(words[0]) if len(words) in (3, 4) else None
        if places:
            process, thread = (script_lines.number(words[it]) for it in places)
            self.process_of.setdefault(thread, process)

    def _name(self, words):
        """Gives the names that a directive or a call makes their numbers."""
        for word in script_lines.made_by(words):
            found = NAME.fullmatch(word)
            if found and word in self.numbers:
                raise self._wrong(f"{word} is bound twice; it is {self.numbers[word]} since line {self.bound_at[word]}")
            if found:
                self.numbers[word], self.bound_at[word] = next(self._free), self.line

    def _bind(self, name, words):
        """Binds a symbol to what the line's call gives."""
        if name in self.symbols:
            raise self._wrong(f"${name} is bound twice; it is bound since line {self.symbols[name].line}")
        if len(words) < 2 or words[0][0] not in string.digits:
            raise self._wrong(f"${name} can't be bound to this line: only a thread's call gives something")
        thread = script_lines.number(words[0])
        self.symbols[name] = Symbol(self.line, words[1], thread, self.process_of.get(thread))

    # A word.

    def _word(self, word):
        """A word with numbers in place of names and symbols."""
        whole, parts = WHOLE_REPLY.fullmatch(word), REPLY.fullmatch(word)
        if whole:
            return f"r:{self._sender(whole[1])}:{whole[2]}"
        if parts:
            process, thread, identifier, rest = parts.groups()
            return f"r:{self._word(process)}.{self._word(thread)}.{self._identifier(identifier)}:{rest}"
        view = VIEW.fullmatch(word)
        if view:
            return ":".join(["w", *(self._word(it) for it in view.groups())])
        if word.startswith("@"):
            if word not in self.numbers:
                raise self._wrong(f"{word} is unknown: no line above makes it")
            return str(self.numbers[word])
        return self._value(word) if word.startswith("$") else word

    def _symbol(self, name):
        if name not in self.symbols:
            raise self._wrong(f"${name} is unknown: no line above binds it")
        return self.symbols[name]

    def _value(self, word):
        """The number that `$NAME` or `$NAME.FIELD` stands for."""
        found = SYMBOL.fullmatch(word)
        if not found:
            raise self._wrong(f"`{word}` is neither $NAME nor $NAME.FIELD")
        name, field = found.groups()
        symbol = self._symbol(name)
        if field is None and symbol.call in RECEIVES:
            raise self._wrong(
                f"${name} is a message, bound in line {symbol.line}: write r:${name}:, ${name}.ctx or ${name}.id"
            )
        return self._field(name, symbol, field or ("id" if symbol.call in IDENTIFIED else "h"))

    def _identifier(self, word):
        """The identifier that stands third in `r:P.T.M:`."""
        found = SYMBOL.fullmatch(word)
        return self._field(found[1], self._symbol(found[1]), "id") if found and not found[2] else self._word(word)

    def _sender(self, name):
        """The `P.T.M` of the message that a call received, or of the one that it sent."""
        symbol = self._symbol(name)
        if symbol.call not in RECEIVES:
            identifier = self._field(name, symbol, "id")
            return f"{self._process(symbol)}.{symbol.thread}.{identifier}"
        shown = message.Message.read(bytes.fromhex(self._raw(name, symbol, "msg")))
        return f"{shown.process}.{shown.thread}.{shown.message_id}"

    def _field(self, name, symbol, field):
        """A field of what a call gave, as a script spells it."""
        if field in OF_MESSAGE and symbol.call in RECEIVES:
            shown = message.Message.read(bytes.fromhex(self._raw(name, symbol, "msg")))
            return str(getattr(shown, OF_MESSAGE[field]))
        value = self._raw(name, symbol, field)
        if field in SPELLED_AS_HEX:
            return f"0x{value}"
        if not value.isdigit():
            raise self._wrong(f"${name}.{field} is no number")
        return value

    # What the program tells.

    def _process(self, symbol):
        """The process of a symbol's thread. That of a thread which a call made is told by what the program printed."""
        if symbol.process is not None:
            return symbol.process
        script = script_lines.Script("\n".join(self.script).encode("latin-1"))
        return script.processes(self._told).get(symbol.thread)

    def _raw(self, name, symbol, field):
        """A field of the answer or the wait of a symbol's call, or of the wake that ended it."""
        told = self._entries(symbol)
        if self._told_lines < self.line - 1 and all(it.field(field) is None for it in told):
            self._run()
            told = self._entries(symbol)
        for entry in told:
            if entry.field(field) is not None:
                return entry.field(field)
        raise self._wrong(f"${name} has no {field}: {self._why(symbol, told)}")

    def _entries(self, symbol):
        """The own entry of a symbol's line, and the wake that ended its wait, as far as they are known."""
        entries = self._told.entries if self._told else ()
        own = next((it for it in entries if it.line == symbol.line and it.kind != "wake"), None)
        if own is None or own.kind != "wait":
            return [own] if own else []
        at = entries.index(own)
        woken = next((it for it in entries[at:] if it.kind == "wake" and it.thread == own.thread), None)
        return [own, woken] if woken else [own]

    def _why(self, symbol, told):
        """Why a call gave no such field."""
        where = f"the call of line {symbol.line}, {symbol.call},"
        last = told[-1]
        if last.kind == "busy":
            return f"{where} wasn't made, since thread {last.thread} waited in an earlier one"
        if last.kind == "nothread":
            return f"{where} wasn't made, since there was no live thread {last.thread}"
        if last.kind == "died":
            return f"{where} ended the thread"
        if last.kind == "wait":
            died = any((it.kind, it.thread) == ("died", last.thread) for it in self._told.entries)
            return f"{where} never returned, since its thread died" if died else f"{where} still waits here"
        if last.status != statuses.SUCCESS:
            was = "ended" if last.kind == "wake" else "was refused"
            return f"{where} {was} with {statuses.with_name(last.status)}"
        return f"{where} gave {', '.join(it for it, _ in last.fields) or 'no field'}"

    def _run(self):
        """Runs the program over the lines that the script has so far."""
        text = "".join(f"{it}\n" for it in self.script).encode("latin-1")
        self._told, self._told_lines = self.replay(text), len(self.script)
        closing = self._told.closing
        if closing and closing.word == "stop":
            line, kind = closing.numbers
            text = inputs.cut(self.script[line - 1], 120)
            raise Wrong(line, f"the line `{text}` is faulty, kind {kind} ({faults.name_of(kind)})")
