"""The first half of the plain implementation that plain.py has: processes, threads, handles, names and queues."""
import struct

from plain_rules import (
    ALL, CID, COLLISION, CONNECT, DENIED, DIED, HANDLE, NAME, OK, PATH, QUOTA, REQUEST, TYPE, It, No, parts_of,
)  # fmt: skip


class Machine:
    """All that stands, and the entries of the line that is run."""

    def __init__(self, wrong=None):
        self.wrong = wrong
        self.processes, self.threads, self.ports, self.waits, self.out = {}, {}, [], [], []
        self.root = {}

    # Lines.

    def run(self, words):
        """The entries of a line."""
        self.out = []
        if not words[0].isdigit():
            try:
                getattr(self, words[0])(*words[1:])
                self.out.insert(0, f"- {words[0]} {OK}")
            except No as no:
                self.out = [f"- {words[0]} {no}"]
            return self.out
        thread = self.threads.get(int(words[0]))
        if not thread or not thread.live:
            return [f"{int(words[0])} nothread"]
        if thread.wait:
            return [f"{thread.number} busy"]
        return self.call(thread, words[1], words[2:])

    def call(self, thread, name, words):
        """The entries of a call: its own, and those that it made behind."""
        self.call_of = name
        try:
            told = getattr(self, name)(thread, *words)
        except No as no:
            told = f"{no}"
            if self.wrong == "refused-draws" and name in ("NtRequestPort", "NtRequestWaitReplyPort"):
                self.draw(thread)
        if told is not None:
            own = f"{thread.number} {name} {told}".rstrip(" ") if told else f"{thread.number} {name} {OK}"
            late = self.wrong == "wake-first" and name == "NtReplyPort"
            self.out.insert(len(self.out) if late else 0, own)
        self.sweep()
        return self.out

    def sweep(self):
        """Takes away what nothing names."""
        while True:
            left = [it for it in self.ports if self.rows(it)]
            gone, self.ports = len(left) < len(self.ports), left
            if not gone or self.wrong == "sweep-once":
                return

    def objects(self):
        named = {id(it.thing) for process in self.processes.values() for it in process.handles.values()}
        alive = lambda it: any(other.live for other in it.threads)
        count = sum(it.live or id(it) in named for it in self.threads.values())
        return count + len(self.ports) + sum(alive(it) or id(it) in named for it in self.processes.values())

    # Handles.

    def handles_of(self, thing):
        return sum(it.thing is thing for process in self.processes.values() for it in process.handles.values())

    def rows(self, port):
        """How many rows count for a port."""
        count = self.handles_of(port)
        count += sum((it.other is port) + (it.home is port) for it in self.ports)
        once = REQUEST if self.wrong == "request-once" else None
        count += sum(it.sent is port and it.kind != once for other in self.ports for it in other.queue)
        count += sum(it.port is port for it in self.waits)
        return count + sum(port in it.registered for it in self.threads.values() if it.live)

    def handle(self, thread, value, kind):
        """What a handle names; a refusal where it isn't right."""
        found = thread.process.handles.get(int(value, 0))
        if not found:
            raise No(HANDLE)
        if kind and not found.access & 1 and self.wrong == "access-first":
            raise No(DENIED)
        if kind and (found.thing.kind if found.thing.kind in ("process", "thread") else "port") != kind:
            raise No(TYPE)
        if kind and not found.access & 1:
            raise No(DENIED)
        return found.thing if kind else found

    def quota(self, process, more=1):
        waiting = sum(it.kind == "connect" and it.thread.process is process for it in self.waits)
        waiting = 0 if self.wrong == "connects-unreserved" else waiting
        if len(process.handles) + waiting + more > 256:
            raise No(QUOTA)

    def give(self, process, thing, access):
        """A new handle."""
        value = 4
        while value in process.handles or self.wrong == "no-reuse" and value <= process.greatest:
            value += 4
        process.handles[value], process.greatest = It("handle", thing=thing, access=access), value
        return value

    def draw(self, thread):
        of = thread.process if self.wrong == "process-ids" else thread
        of.drawn = (of.drawn % 65_535 if self.wrong == "short-identifiers" else of.drawn) + 1
        return of.drawn

    def NtDuplicateObject(self, thread, value, access):
        found = self.handle(thread, value, None)
        wanted = found.access if access == "same" else int(access, 0)
        if wanted & ~found.access and self.wrong != "all-rights":
            raise No(DENIED)
        self.quota(thread.process)
        return f"{OK} h={self.give(thread.process, found.thing, wanted)}"

    def NtQueryObject(self, thread, value):
        found = self.handle(thread, value, None)
        thing, count = found.thing, self.handles_of(found.thing)
        kind = thing.kind if thing.kind in ("process", "thread") else "port"
        live = lambda: len(self.living(thing)) if kind == "process" else thing.live
        rows = self.rows(thing) if kind == "port" else count + live()
        return f"{OK} type={kind} access={found.access:08x} handles={count} pointers={rows}"

    # Names.

    def find(self, path):
        """The folder and the name that a path leads to, and what stands there."""
        hops, most = 0, 255 if self.wrong == "255-bytes" else 256
        while True:
            parts = parts_of(path.lower() if self.wrong == "case-blind" else path, most)
            node = self.root
            if not parts:
                return None, None, node
            for at, part in enumerate(parts):
                child, rest = node.get(part), parts[at + 1 :]
                if isinstance(child, str) and (rest or self.wrong != "last-link-stays"):
                    hops += 1
                    path = "\\" + "\\".join([*parts_of(child), *rest])
                    if hops > (33 if self.wrong == "33-links" else 32) or len(path) > most:
                        raise No(NAME)
                    break
                if not rest:
                    return node, part, child
                if not isinstance(child, dict):
                    raise No(PATH)
                node = child

    def place(self, path, thing):
        """Puts a thing at a path."""
        node, part, child = self.find(path)
        if child is not None:
            raise No(COLLISION)
        node[part] = thing
        return node, part

    def dir(self, path):
        self.place(path, {})

    def link(self, path, target):
        parts_of(target)
        self.place(path, target)

    # Processes and threads.

    def boot(self, pid, tid):
        if int(pid) in self.processes or self.is_used(tid):
            raise No(COLLISION)
        self.add_thread(self.add_process(int(pid), None), int(tid), (0, int(tid)))

    def thread(self, tid, pid):
        process = self.processes.get(int(pid))
        if not process or not self.living(process):
            raise No(CID)
        self.test_thread(process, tid)
        self.add_thread(process, int(tid), (0, int(tid)))

    def is_used(self, tid):
        """Whether the number of a thread is used."""
        found = self.threads.get(int(tid))
        return found and (found.live or self.wrong != "numbers-again")

    def test_thread(self, process, tid):
        if self.is_used(tid):
            raise No(COLLISION)
        if len(self.living(process)) == 64:
            raise No(QUOTA)

    def living(self, process):
        return [it for it in process.threads if it.live]

    def add_process(self, pid, maker):
        found = It("process", number=pid, handles={}, threads=[], maker=maker, drawn=0, greatest=0)
        self.processes[pid] = found
        return found

    def add_thread(self, process, tid, birth):
        found = It("thread", number=tid, process=process, live=True, wait=None, drawn=0, made=0, registered=[])
        found.birth = birth
        self.threads[tid] = found
        process.threads.append(found)
        return found

    def made(self, thread):
        """What is made next by a thread, as its birth."""
        thread.made += 1
        return thread.number, thread.made

    def NtCreateProcess(self, thread, pid, tid):
        if int(pid) in self.processes or self.is_used(tid):
            raise No(COLLISION)
        mine, ended = thread.process, self.wrong == "ended-children-count"
        if sum(it.maker is mine and (ended or bool(self.living(it))) for it in self.processes.values()) == 64:
            raise No(QUOTA)
        self.quota(mine, 2)
        self.made(thread)
        process = self.add_process(int(pid), mine)
        first = self.add_thread(process, int(tid), self.made(thread))
        return f"{OK} h={self.give(mine, process, 1)} thread={self.give(mine, first, 1)}"

    def NtCreateThread(self, thread, value, tid):
        process = thread.process if value == "self" else self.handle(thread, value, "process")
        if not self.living(process):
            raise No(CID)
        self.test_thread(process, tid)
        self.quota(thread.process)
        return f"{OK} h={self.give(thread.process, self.add_thread(process, int(tid), self.made(thread)), 1)}"

    def NtTerminateThread(self, thread, value, code):
        found = thread if value == "self" else self.handle(thread, value, "thread")
        if not found.live:
            raise No(CID)
        self.end([found], int(code, 0))
        return None if found is thread else OK

    def NtTerminateProcess(self, thread, value, code):
        process = thread.process if value == "self" else self.handle(thread, value, "process")
        if not self.living(process):
            raise No(CID)
        self.end(self.living(process), int(code, 0))
        return None if process is thread.process else OK

    def end(self, threads, code):
        """Ends threads of one process."""
        if self.wrong == "died-by-number":
            threads = sorted(threads, key=lambda it: it.number)
        for group in [[it] for it in threads] if self.wrong == "one-by-one" else [threads]:
            for it in group:
                self.die(it, code)
            for it in group:
                self.tell_end(it)
        process = threads[0].process
        if not self.living(process):
            for value in list(process.handles) if self.wrong == "handles-by-age" else sorted(process.handles):
                self.close(process, value)

    def die(self, thread, code):
        """A thread dies, and its wait goes."""
        thread.live = False
        self.out.append(f"~{thread.number} died {code:08x}")
        wait = thread.wait
        if wait:
            self.drop(wait)
            if wait.kind == "connect" and wait.accepted and self.wrong != "cut-by-close-alone":
                self.cut(wait.port)

    def tell_end(self, thread):
        """Tells a thread's end on the ports that it registered."""
        told, thread.registered = thread.registered, []
        birth = (0, thread.number) if self.wrong == "births-of-directives" else thread.birth
        if self.wrong == "last-registered-first":
            told.reverse()
        for port in told if self.wrong != "no-client-died" else ():
            if port.open and self.way(port):
                self.enter(self.message(port, DIED, thread, 0, struct.pack("<II", *birth)), self.way(port))

    # Messages.

    def way(self, port):
        """The port whose queue a message that is sent on a port enters; None where there is none."""
        if port.kind == "client":
            return port.home if port.other and port.home.open else None
        if port.kind == "server":
            return port.other if port.other and port.other.open else None
        return port

    def message(self, port, kind, thread, number, data, sizes=None):
        """A message as it is sent on a port; `sizes` are DataSize, MessageSize and VirtualRangesOffset."""
        size, whole, ranges = sizes or (len(data), len(data) + 24, 0)
        head = struct.pack("<HHHHIIII", size, whole, kind, ranges, thread.process.number, thread.number, number, 0)
        without = {"no-context": kind, "died-without-context": DIED}.get(self.wrong, CONNECT)
        context = port.context if port.kind == "client" and kind not in (CONNECT, without) else 0
        return It(kind, sent=port, context=context, bytes=head + data, thread=thread, wait=None)

    def enter(self, sent, queue):
        """A message enters a queue, or is taken at once."""
        order = reversed(self.waits) if self.wrong == "newest-waiter" else self.waits
        for wait in list(order):
            takes = wait.kind == "receive" or wait.kind == "listen" and sent.kind == CONNECT
            takes |= wait.kind == "listen" and self.wrong == "listen-takes-all"
            if wait.queue is queue and takes:
                return self.wake(wait, OK + self.shown(sent, wait.kind))
        return queue.queue.append(sent)

    def shown(self, sent, kind):
        """The fields of a message that is taken."""
        if sent.wait:
            sent.wait.received = True
        context = f" ctx={sent.context:08x}" if kind == "receive" else ""
        return f"{context} msg={sent.bytes.hex()}"
