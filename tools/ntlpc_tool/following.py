"""What a conversation has told so far: who lives, who waits, what each handle names, and what can be answered.

It follows the entries and decides nothing: where a line did something else than is thought here, the entries tell. What
is not told, as which port a link leads to, is guessed at, and a guess that is wrong makes a line that is refused.
"""
import dataclasses
from typing import Optional

from ntlpc_tool import script_lines, statuses

REQUEST, CONNECT = 1, 10
PORTS = ("unnamed", "connection", "client", "server")
RESIDENT, TURN, RECEIVE = "resident", "turn", "NtReplyWaitReceivePort"


@dataclasses.dataclass(eq=False)
class Port:
    """A port: its kind, the name of a connection port, the port that it is joined to, the connection port that it is
    of, whether its connection is completed, and how many messages stand in its queue."""

    kind: str
    name: Optional[str] = None
    other: Optional["Port"] = None
    home: Optional["Port"] = None
    complete: bool = False
    queued: int = 0

    def target(self):
        """The port whose queue a message that is sent on this one enters; None where there is none."""
        return {"client": self.home, "server": self.other}.get(self.kind, self)

    def source(self):
        """The port whose queue this one receives from."""
        return self.home if self.kind == "server" and self.home else self


@dataclasses.dataclass(frozen=True)
class Handle:
    """What a handle names: the kind of its object, the object (a Port, or a number), and whether it grants its use."""

    kind: str
    thing: object
    grants: bool = True


@dataclasses.dataclass(frozen=True)
class Received:
    """A request or a connect that was received and isn't answered: who received it, on which port, and its head."""

    process: int
    port: Optional[Port]
    client: tuple

    def head(self):
        """The head as a script spells it."""
        return ".".join(map(str, self.client))


class World:
    """All that was told. `threads` has the process of each live thread, `waits` the words of each that waits,
    `handles` those of each live process by value, `names` the connection ports by their path, `asked` what each thread
    asked for that waits, `on` the port on which, and `registered` the ports of each thread."""

    def __init__(self):
        self.threads, self.waits, self.handles = {}, {}, {}
        self.names, self.dead, self.folders = {}, [], []
        self.requests, self.connects, self.asked, self.clients = [], [], {}, {}
        self.on, self.registered, self.servers = {}, {}, {}

    def idle(self):
        """The threads that can make a call."""
        return [it for it in self.threads if it not in self.waits]

    def held(self, thread, kinds, grants=True):
        """The handles of a thread's process to things of some kinds, as pairs of the value and the Handle."""
        owned = self.handles.get(self.threads.get(thread), {})
        return [(value, it) for value, it in owned.items() if it.kind in kinds and (it.grants or not grants)]

    def named_by(self, thread, value):
        """The Handle that a thread's process has at a value, where there is one."""
        return self.handles.get(self.threads.get(thread), {}).get(value)

    def fits(self, found):
        """The ports through which a reply to a request fits."""
        port = self.on.get(found.client[1])
        return [it for it in (port.target(), port.other) if it] if port else [found.port]

    def tell(self, line, entries):
        """Takes what a line told."""
        words = self._said(line.split())
        # What is sent and wakes somebody who takes it, stands in no queue.
        self.taken = sum(it.kind == "wake" and it.field("msg") is not None for it in entries)
        for entry in entries:
            if entry.kind == "died":
                self._died(entry.thread)
            elif entry.kind == "directive" and entry.status == statuses.SUCCESS:
                self._directive(words)
            elif entry.kind == "wait":
                self._waits(words, entry)
            elif entry.kind == "wake":
                self._wakes(self.waits.pop(entry.thread, words), entry)
            elif entry.kind == "answer" and entry.status == statuses.SUCCESS and entry.call == words[1]:
                self._answers(words, entry)

    def _said(self, words):
        """A turn as a receive on the handle that its server serves; what it calls else isn't followed."""
        return [words[1], RECEIVE, self.servers.get(words[1], "0")] if words[:1] == [TURN] else words

    def _directive(self, words):
        """A process, a thread, or a folder of the name space was made."""
        if words[0] in script_lines.DIRECTIVES_OF_THREADS:
            process, thread = (int(words[it]) for it in script_lines.DIRECTIVES_OF_THREADS[words[0]])
            self.threads[thread] = process
            self.handles.setdefault(process, {})
        elif words[0] == RESIDENT:
            self.servers[words[1]] = words[3]
        elif words[0] in ("dir", "link"):
            self.folders.append(words[1])

    def _waits(self, words, entry):
        """A thread began to wait."""
        self.waits[entry.thread] = words
        client = (self.threads.get(entry.thread), entry.thread, int(entry.field("id") or 0))
        if entry.call in ("NtConnectPort", "NtRequestWaitReplyPort"):
            self.asked[entry.thread] = client
        if entry.call == "NtConnectPort":
            self.clients[client] = Port("client", home=self.names.get(words[2]))
            self._enters(self.names.get(words[2]))
            return
        named = self.named_by(entry.thread, script_lines.number(words[2]))
        if named and entry.call == "NtRequestWaitReplyPort":
            self.on[entry.thread] = named.thing
            self._enters(named.thing.target())
        elif named and entry.call == "NtReplyWaitReceivePort":
            named.thing.source().queued = 0

    def _enters(self, queue):
        """A message entered a queue, unless somebody took it at once."""
        if self.taken:
            self.taken -= 1
        elif queue:
            queue.queued += 1

    def _wakes(self, words, entry):
        """A wait ended, so nothing of it can be answered any more."""
        client = self.asked.pop(entry.thread, None)
        self._forget(client)
        if entry.call == "NtConnectPort" and entry.status == statuses.SUCCESS:
            port = self.clients.get(client) or Port("client")
            self._own(entry, "h", Handle("client", port))
        elif entry.status == statuses.SUCCESS:
            self._received(words, entry)

    def _forget(self, client):
        self.requests = [it for it in self.requests if it.client != client]
        self.connects = [it for it in self.connects if it.client != client]

    def _own(self, entry, field, handle):
        """The caller's process got a handle."""
        value = entry.field(field)
        if value is not None:
            self.handles.setdefault(self.threads.get(entry.thread), {})[int(value)] = handle

    def _answers(self, words, entry):
        """A call was answered at once, and not refused."""
        process = self.threads.get(entry.thread)
        mine = self.handles.get(process, {})
        named = mine.get(script_lines.number(words[2])) if len(words) > 2 else None
        if entry.call == "NtCreatePort":
            self._port(words[2], entry)
        elif entry.call == "NtAcceptConnectPort":
            self._accepted(words, entry)
        elif entry.call == "NtCompleteConnectPort" and named:
            named.thing.complete = True
        elif entry.call == "NtClose":
            self._closed(mine, script_lines.number(words[2]))
        elif entry.call == "NtDuplicateObject" and named:
            grants = named.grants if words[3] == "same" else bool(script_lines.number(words[3]) & 1)
            self._own(entry, "h", dataclasses.replace(named, grants=grants))
        elif entry.call in ("NtCreateProcess", "NtCreateThread"):
            self._born(words, entry, process, named)
        elif entry.call == "NtRequestPort" and named:
            self._enters(named.thing.target())
        elif entry.call == "NtRegisterThreadTerminatePort" and named:
            self.registered.setdefault(entry.thread, []).append(named.thing)
        else:
            self._received(words, entry)

    def _port(self, name, entry):
        port = Port("unnamed") if name == "-" else Port("connection", name)
        if name != "-":
            self.names[name] = port
        self._own(entry, "h", Handle(port.kind, port))

    def _born(self, words, entry, process, named):
        """A call made a process or a thread."""
        if entry.call == "NtCreateProcess":
            process, thread = int(words[2]), int(words[3])
            self._own(entry, "h", Handle("process", process))
            self._own(entry, "thread", Handle("thread", thread))
        else:
            process, thread = (named.thing if named else process), int(words[3])
            self._own(entry, "h", Handle("thread", thread))
        self.threads[thread] = process
        self.handles.setdefault(process, {})

    def _accepted(self, words, entry):
        """A connect was accepted, and a server port made, or refused."""
        client = head_of(words[3])
        self.connects = [it for it in self.connects if it.client != client]
        if words[4] == "accept":
            port = self.clients.get(client) or Port("client")
            port.other = Port("server", other=port, home=port.home)
            self._own(entry, "h", Handle("server", port.other))

    def _received(self, words, entry):
        """A listen or a receive has taken a message."""
        shown = entry.message()
        if entry.call not in ("NtListenPort", "NtReplyWaitReceivePort") or not shown:
            return
        process = self.threads.get(entry.thread)
        named = self.named_by(entry.thread, script_lines.number(words[2]))
        if named and entry.kind == "answer":
            named.thing.source().queued = max(0, named.thing.source().queued - 1)
        found = Received(process, named and named.thing, (shown.process, shown.thread, shown.message_id))
        if shown.type in (REQUEST, CONNECT):
            (self.requests if shown.type == REQUEST else self.connects).append(found)

    def _closed(self, mine, value):
        handle = mine.pop(value, None)
        if not handle or any(it.thing is handle.thing for it in mine.values()):
            return
        if handle.kind == "connection":
            self.names = {name: port for name, port in self.names.items() if port is not handle.thing}
        elif handle.kind == "client" and handle.thing.home:
            self._enters(handle.thing.home)

    def _died(self, thread):
        process = self.threads.pop(thread, None)
        self.waits.pop(thread, None)
        self._forget(self.asked.pop(thread, None))
        self.dead.append((process, thread))
        for port in self.registered.pop(thread, ()):
            self._enters(port.target())
        if process not in self.threads.values():
            mine = self.handles.pop(process, {})
            for value in list(mine):
                self._closed(mine, value)
            self.requests = [it for it in self.requests if it.process != process]
            self.connects = [it for it in self.connects if it.process != process]


def head_of(word):
    """The process, thread and identifier that a message of the form `r:P.T.M:HEX` names; None for another form."""
    parts = word[2:].partition(":")[0].split(".")
    return tuple(map(script_lines.number, parts)) if word.startswith("r:") and len(parts) == 3 else None
