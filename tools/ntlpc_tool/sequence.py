"""A transcript as a picture of who sends what to whom: participants, arrows and notes, without a language of its own.

A message's receiver is the thread whose entry shows it, its sender the one that its header names. What a transcript
doesn't show isn't drawn: a message that nobody is shown has a note, `not received`, with its sender.
"""
import dataclasses
from typing import Optional, Tuple

from ntlpc_tool import describe, facts, message, script_lines, statuses, transcript, turns

SENDERS = ("NtRequestPort", "NtRequestWaitReplyPort", "NtConnectPort", "raise")
SENT = {
    "NtRequestPort": "datagram",
    "NtRequestWaitReplyPort": "request",
    "NtConnectPort": "connection request",
    "raise": "event",
}
# The messages whose sender waits, and what a raise returns.
WAITED_FOR = (message.REQUEST, message.CONNECTION_REQUEST, *message.EVENTS)
RAISES_RETURN = {statuses.SUCCESS: "handled by its frame handlers", statuses.CONTINUED: "continued"}
ENDS = (message.PORT_CLOSED, message.CLIENT_DIED)
# What an arrow is, by the type of the message that it shows; that of another type is a MESSAGE.
FORMS = {
    message.REQUEST: "request",
    message.DATAGRAM: "datagram",
    message.CONNECTION_REQUEST: "connection request",
    message.EXCEPTION: "event",
    message.DEBUG_EVENT: "event",
    message.PORT_CLOSED: "end",
    message.CLIENT_DIED: "end",
}
MESSAGE = "message"
# What else an arrow is: the answers for which a thread waits, and a wait that failed.
REPLY, CONNECTION_ANSWER, EVENT_ANSWER, FAILURE = "reply", "connection answer", "event answer", "failure"
KINDS = {REPLY: "answer", CONNECTION_ANSWER: "answer", EVENT_ANSWER: "answer", FAILURE: "end"}
MOST_DATA = 24


@dataclasses.dataclass(frozen=True)
class Participant:
    """A thread, and its process as far as that is known."""

    thread: int
    process: Optional[int]


@dataclasses.dataclass(frozen=True)
class Note:
    """Lines of text at a thread, or over all threads where it is of none. `kind` is call, refused, died or all."""

    thread: Optional[int]
    kind: str
    lines: Tuple[str, ...]


@dataclasses.dataclass(frozen=True)
class Arrow:
    """From one thread to another. `form` tells what it is: one of FORMS, MESSAGE, or one of KINDS."""

    source: int
    target: int
    form: str
    text: str

    @property
    def kind(self):
        """`send`, `answer` (what a thread waits for) or `end` (a wait that failed)."""
        return KINDS.get(self.form, "send")


@dataclasses.dataclass(frozen=True)
class Waits:
    """A thread begins to wait, with a text; where the text is empty, an arrow before it tells why."""

    thread: int
    text: str


@dataclasses.dataclass(frozen=True)
class Wakes:
    """A thread's wait ends, by the arrow before it."""

    thread: int


@dataclasses.dataclass(frozen=True)
class Stays:
    """A thread's wait never ends."""

    thread: int
    text: str


class Picture:
    """The participants, and what happens among them in its order; `script` may tell the words of each line. `parts` has
    for each line with an entry which of the events are its own; behind these stand those of the end."""

    def __init__(self, found, script=None):
        self.script = script
        self.processes = _processes(found, script)
        self.participants = [Participant(it, self.processes.get(it)) for it in _threads(found, self.processes)]
        self.events, self.parts = [], {}
        self._waiting = set()
        self._asking = {}
        self._received = _received(found)
        self._draw(found)

    def _draw(self, found):
        steps = {}
        for entry in found.entries:
            steps.setdefault(entry.line, []).append(entry)
        for line, step in steps.items():
            self._shown_at_once = _received(transcript.Transcript(tuple(step), None))
            self._answered = any(it.kind == "wake" and it.call in (facts.ASKS, "raise") for it in step)
            own, begin = self._own(step), len(self.events)
            for entry in step:
                _ENTRIES[entry.kind](self, entry, own)
            self.parts[line] = self.events[begin:]
        for entry in transcript.still_waiting(found):
            self.events.append(Stays(entry.thread, f"still waits in {entry.call}, since line {entry.line}"))
        if found.closing:
            self._note(None, "all", _closing_text(found.closing))

    def _own(self, step):
        """The entry of the line's own thread; where the line ends threads, that of the one that the script names, else
        of the first that dies. None where there is none."""
        owns = [it for it in step if it.kind != "wake"]
        words = self.script.words(step[0].line) if self.script else []
        caller = (turns.thread_of(words) or script_lines.number(words[0])) if words else None
        return next((it for it in owns if caller and it.thread == caller), owns[0] if owns else None)

    # Parts of events.

    def _note(self, thread, kind, *lines):
        self.events.append(Note(thread, kind, lines))

    def _arrow(self, source, target, form, text):
        self.events.append(Arrow(source, target, form, text))

    def _begin(self, thread, text):
        if thread not in self._waiting:
            self._waiting.add(thread)
            self.events.append(Waits(thread, text))

    def _end(self, thread):
        if thread in self._waiting:
            self._waiting.remove(thread)
            self.events.append(Wakes(thread))

    def _words(self, entry):
        """The line's call and words, or the call alone where the script isn't there."""
        words = self.script.words(entry.line) if self.script else []
        if entry.thread is not None and turns.thread_of(words):
            return f"{entry.call} by the server"
        words = words[1:] if entry.thread is not None else words
        return " ".join(map(_short, words)) if words and words[0] == entry.call else entry.call

    # Entries, each with its step's own entry.

    def _directive(self, entry, _):
        if entry.status != statuses.SUCCESS:
            self._note(None, "refused", f"{entry.line} {self._words(entry)}", statuses.with_name(entry.status))
        elif entry.call not in script_lines.DIRECTIVES_OF_THREADS:
            self._note(None, "all", f"{entry.line} {self._words(entry)}")

    def _busy(self, entry, _):
        self._note(entry.thread, "refused", f"{entry.line} busy: it waits and makes no call")

    def _died(self, entry, own):
        """A thread dies; at the one whose call it was, the call is told too."""
        words = self.script.words(entry.line) if self.script and entry is own else []
        told = f"died, code {statuses.code_with_name(entry.status)}"
        call = [f"{entry.line} {' '.join(map(_short, words[1:]))}"] if words else []
        self._note(entry.thread, "died", *(call + [told] if call else [f"{entry.line} {told}"]))
        self._end(entry.thread)

    def _nothread(self, entry, _):
        self._note(None, "refused", f"{entry.line} no live thread {entry.thread}")

    def _answer(self, entry, _):
        if entry.status != statuses.SUCCESS:
            self._note(entry.thread, "refused", f"{entry.line} {self._words(entry)}", statuses.with_name(entry.status))
        elif entry.message():
            self._delivered(entry)
        elif entry.call in SENDERS and entry.field("id") is not None:
            self._sent(entry)
        elif entry.call == "NtAcceptConnectPort":
            self._accepted(entry)
        elif entry.call == "NtReplyPort" and not self._answered:
            self._note(entry.thread, "call", f"{entry.line} {self._words(entry)}", "the exception goes on")
        elif entry.call not in ("NtReplyPort", "NtCompleteConnectPort"):
            told = " ".join(f"{name}={value}" for name, value in entry.fields if value != "port")
            self._note(entry.thread, "call", f"{entry.line} {self._words(entry)}{': ' * bool(told)}{told}")

    def _wait(self, entry, _):
        if entry.call not in SENDERS:
            self._begin(entry.thread, f"{entry.line} {entry.call} waits")
        elif _sent_by(entry) not in self._shown_at_once:
            self._begin(entry.thread, f"{self._sent_text(entry)}, and waits")

    def _wake(self, entry, own):
        if entry.call == "NtConnectPort":
            self._connected(entry, own)
        elif entry.call == "raise" and entry.status in RAISES_RETURN:
            self._from_own(own, entry, EVENT_ANSWER, f"{entry.line} {RAISES_RETURN[entry.status]}")
        elif entry.status != statuses.SUCCESS:
            self._ended(entry, own)
        elif not entry.message():
            self._from_own(own, entry, REPLY, f"{entry.line} {entry.call} returns")
        elif entry.call == facts.ASKS:
            self._from_own(own, entry, REPLY, f"{entry.line} {_message_text(entry.message())}")
        else:
            self._delivered(entry)
        self._end(entry.thread)

    def _sent(self, entry):
        """A message was sent. Where its receiver is shown it at once, its arrow is enough."""
        if _sent_by(entry) not in self._shown_at_once:
            self._note(entry.thread, "call", self._sent_text(entry))

    def _sent_text(self, entry):
        """That a message was sent, and whether anybody is shown it."""
        lost = "" if _sent_by(entry) in self._received else ", not received"
        return f"{entry.line} {SENT[entry.call]} {entry.field('id')} sent{lost}"

    def _delivered(self, entry):
        """A message is shown to the thread that receives it."""
        shown = entry.message()
        context = int(entry.field("ctx") or "0", 16)
        told = f" context {context}" * bool(context)
        if shown.type == message.CONNECTION_REQUEST:
            self._asking[entry.thread] = shown.thread
        form = FORMS.get(shown.type, MESSAGE)
        self._arrow(shown.thread, entry.thread, form, f"{entry.line} {_message_text(shown)}{told}")
        if entry.kind == "wake" and shown.type in WAITED_FOR:
            self._begin(shown.thread, "")

    def _accepted(self, entry):
        """A connect was accepted; one that was refused has a wake that tells it."""
        if entry.field("h") is None:
            return
        client = self._named_client(entry)
        text = f"{entry.line} accept: h={entry.field('h')}"
        if client in self.processes:
            self._arrow(entry.thread, client, CONNECTION_ANSWER, text)
        else:
            self._note(entry.thread, "call", text)

    def _named_client(self, entry):
        """The thread that the message of an accept names, where the script tells it."""
        words = self.script.words(entry.line) if self.script else []
        if turns.thread_of(words):
            return self._asking.get(entry.thread)
        parts = words[3][2:].split(":")[0].split(".") if len(words) > 3 and words[3].startswith("r:") else []
        return script_lines.number(parts[1]) if len(parts) == 3 else None

    def _connected(self, entry, own):
        """A connect returns: it was completed or refused, or a closing ended it."""
        if entry.status == statuses.SUCCESS:
            told = f"{entry.line} connected: h={entry.field('h')} {_info_text(entry)}".rstrip()
            self._from_own(own, entry, CONNECTION_ANSWER, told)
        elif own and own.call == "NtAcceptConnectPort":
            self._from_own(own, entry, FAILURE, f"{entry.line} refused {_info_text(entry)}".rstrip())
        else:
            self._ended(entry, own)

    def _ended(self, entry, own):
        """A wait ends with a failure."""
        self._from_own(own, entry, FAILURE, f"{entry.line} {entry.call} ends: {statuses.with_name(entry.status)}")

    def _from_own(self, own, entry, form, text):
        """An arrow from the thread of the line to the one that wakes."""
        if own and own.thread is not None:
            self._arrow(own.thread, entry.thread, form, text)
        else:
            self._arrow(entry.thread, entry.thread, form, text)


_ENTRIES = {
    "answer": Picture._answer,
    "wait": Picture._wait,
    "wake": Picture._wake,
    "died": Picture._died,
    "busy": Picture._busy,
    "nothread": Picture._nothread,
    "directive": Picture._directive,
}


def _sent_by(entry):
    """The sender and the identifier of what an entry tells was sent."""
    return entry.thread, int(entry.field("id") or 0)


def _received(found):
    """The messages that were shown to who receives them, each by its sender and identifier; ends aside."""
    return {(it.thread, it.message_id) for it in facts.received(found) if it.type not in ENDS}


def _processes(found, script):
    """The process of each thread that is told of, None where neither the script nor a message tells it."""
    known = facts.processes((found,), script)
    for entry in found.entries:
        if entry.thread is not None and entry.kind != "nothread":
            known.setdefault(entry.thread, None)
    return known


def _threads(found, processes):
    """The threads that do something, process by process in the order of their first entry."""
    active = dict.fromkeys(it.thread for it in found.entries if it.thread is not None and it.kind != "nothread")
    active = [*active, *(it for it in processes if it not in active)]
    first = {}
    for thread in active:
        first.setdefault(processes[thread] if processes[thread] is not None else f"thread {thread}", len(first))
    return sorted(active, key=lambda it: first[processes[it] if processes[it] is not None else f"thread {it}"])


def _short(word):
    """A word, cut where it is long."""
    return word if len(word) <= 2 * MOST_DATA else f"{word[: 2 * MOST_DATA]}.."


def _bytes_text(data):
    """Bytes in short: their text in quotation marks where they are text, else their digits."""
    text = describe.text_of(data)
    if text is not None:
        return f'"{text if len(text) <= MOST_DATA else text[:MOST_DATA] + ".."}"'
    return _short(data.hex())


def _message_text(shown):
    """A message's type, client, identifier and data in short. The data of an end only name the port or the thread, and
    those of an event are a code and a chance."""
    kind = shown.type_name() or f"type {shown.type}"
    if shown.raised():
        return "{} {}.{}.{} {}, chance {}".format(kind, shown.process, shown.thread, shown.message_id, *shown.raised())
    data = "" if shown.type in ENDS else _bytes_text(shown.data) if shown.data else "without data"
    return f"{kind} {shown.process}.{shown.thread}.{shown.message_id} {data}".rstrip()


def _info_text(entry):
    """The info of a connect in short."""
    return _bytes_text(bytes.fromhex(entry.field("info") or "")) if entry.field("info") else ""


def _closing_text(closing):
    """What the last line tells."""
    if closing.word == "stop":
        return "line {}: fault {}, the script stops".format(*closing.numbers)
    told = (describe.counted(*it) for it in zip(closing.numbers, ("line", "entry", "object")))
    return f"end: {', '.join(told)} left"
