"""A plain implementation of the profile, from the pages, with rules to be broken; without views, tokens, events.

    python3 tools/tests/plain.py [--wrong NAME] replay < SCRIPT

It goes by the pages, and is for trying `hunt` alone: it reads well-formed scripts, and is slow. WRONGS of
plain_rules.py tells what each NAME breaks. This half has the ports and their calls.
"""
import struct
import sys

sys.dont_write_bytecode = True
from plain_machine import Machine
from plain_rules import (
    ABSENT, ALL, CID, CLOSED, COLLISION, CONNECT, DATAGRAM, GONE, KIND, LONG, LOST, MISMATCH, OK, PARAMETER, QUOTA,
    REFUSED, REPLY, REQUEST, TYPE, WRONGS, It, No, table,
)  # fmt: skip


class Plain(Machine):
    """The machine with all calls but those on sections, views, memory and exceptions."""

    def add_port(self, kind, thread, **parts):
        found = It(kind, queue=[], other=None, home=None, open=kind != "client", context=0, place=None, complete=False)
        found.__dict__.update(parts, maker=thread)
        found.birth = None if kind == "client" and self.wrong == "one-name-space-of-births" else self.made(thread)
        found.birth = found.birth or (thread.number, thread.made + 1)
        self.ports.append(found)
        return found

    # Waits.

    def begin(self, kind, thread, port, queue, **parts):
        """A thread begins to wait."""
        wait = It(kind, thread=thread, port=port, queue=queue, call=self.call_of, received=False, accepted=False)
        wait.__dict__.update(parts)
        thread.wait = wait
        self.waits.append(wait)
        return wait

    def wake(self, wait, told):
        self.drop(wait)
        self.out.append(f"*{wait.thread.number} {wait.call} {told}")

    def drop(self, wait):
        """A wait ends; what is queued of it is taken out."""
        self.waits.remove(wait)
        wait.thread.wait = None
        for port in self.ports:
            port.queue = [it for it in port.queue if it.wait is not wait]

    def cut(self, port):
        if port.other:
            port.other.other = None
            port.other = None

    # Closing.

    def close(self, process, value):
        port = process.handles.pop(value).thing
        by_handle = self.wrong == "close-by-handle"
        if port.kind in ("process", "thread") or not by_handle and self.handles_of(port) or not port.open:
            return
        port.open = False
        if port.place and self.wrong != "name-stays":
            node, part = port.place
            del node[part]
        waits = [it for it in self.waits if it.kind in ("receive", "listen")]
        for wait in sorted(waits, key=lambda it: it.thread.number * (self.wrong == "wakes-by-number")):
            if port in (wait.port, wait.queue) and self.wrong != "waiters-stay":
                self.wake(wait, GONE)
        for wait in [it for it in self.waits if it.kind == "request" and it.port is port]:
            self.wake(wait, GONE)
        self.empty(port)
        self.close_pair(port)
        if port.kind == "client" and port.home.open and self.wrong != "no-port-closed":
            data = struct.pack("<II", *port.birth)
            self.enter(self.message(port, CLOSED, port.maker, port.number, data), port.home)

    def empty(self, port):
        """Ends what stands in the queue of a port that closes, and the connects that wait for it."""
        asked = [it.wait for it in port.queue if it.kind == REQUEST]
        connects = [it for it in self.waits if it.kind == "connect" and it.port.home is port and not it.accepted]
        port.queue = [it for it in port.queue if it.kind == DATAGRAM and self.wrong == "queue-stays"]
        order = [(asked, LOST), (connects, f"{REFUSED} info=")]
        for waits, told in reversed(order) if self.wrong == "connects-first" else order:
            for wait in waits:
                self.wake(wait, told)

    def close_pair(self, port):
        """Cuts the pair of a port that closes, and ends what waits on the other end."""
        other = port.other
        if not other:
            return
        self.cut(port)
        for wait in [it for it in self.waits if it.kind == "connect" and it.port is other]:
            self.wake(wait, f"{REFUSED} info=")
        for wait in [it for it in self.waits if it.kind == "request" and it.port is other]:
            if self.wrong != "other-end-stays":
                self.wake(wait, LOST)
        for wait in [it for it in self.waits if it.kind == "receive" and it.queue is other]:
            self.wake(wait, GONE)

    # Connections.

    def NtCreatePort(self, thread, name):
        if name == "-":
            self.quota(thread.process)
            port = self.add_port("unnamed", thread)
        else:
            if self.wrong == "room-first":
                self.quota(thread.process)
            node, part, child = self.find(name)
            if child is not None:
                raise No(COLLISION)
            self.quota(thread.process)
            node[part] = port = self.add_port("connection", thread, place=(node, part))
        return f"{OK} h={self.give(thread.process, port, ALL)}"

    def NtConnectPort(self, thread, name, _, __, info):
        data = bytes.fromhex(info[2:])
        if len(data) > 232:
            raise No(LONG)
        home = self.find(name)[2]
        if home is None or isinstance(home, (dict, str)):
            raise No(ABSENT if home is None else TYPE)
        self.quota(thread.process)
        number = self.draw(thread)
        port = self.add_port("client", thread, home=home, number=number)
        wait = self.begin("connect", thread, port, None, number=number, info=b"")
        sent = self.message(port, CONNECT, thread, number, data)
        sent.wait = wait
        self.enter(sent, home)
        return f"wait id={number}"

    def NtListenPort(self, thread, value):
        port = self.handle(thread, value, "port")
        if port.kind != "connection":
            raise No(KIND)
        return self.take(thread, "listen", port, port)

    def take(self, thread, kind, port, queue):
        """Takes a message of a queue, or begins to wait for one."""
        all_kinds = kind == "receive" or self.wrong == "listen-takes-all"
        found = [it for it in queue.queue if all_kinds or it.kind == CONNECT]
        if not found:
            self.begin(kind, thread, port, queue)
            return "wait"
        sent = found[-1 if self.wrong == "newest-first" else 0]
        queue.queue.remove(sent)
        return OK + self.shown(sent, kind)

    def NtAcceptConnectPort(self, thread, context, text, word, _):
        sizes, client, data = self.read(text)
        wait = self.client(client)
        if not wait or wait.kind != "connect" or wait.number != client[2]:
            raise No(MISMATCH)
        if wait.accepted and self.wrong != "accepted-again":
            raise No(MISMATCH)
        if not wait.received and self.wrong != "accept-unreceived":
            raise No(MISMATCH)
        mine = [it.thing for it in thread.process.handles.values()]
        if wait.port.home not in mine and self.wrong != "accept-elsewhere":
            raise No(MISMATCH)
        if word == "refuse":
            self.cut(wait.port)
            self.wake(wait, f"{REFUSED} info={data.hex()}")
            return OK
        self.quota(thread.process)
        port = self.add_port("server", thread, home=wait.port.home, other=wait.port)
        wait.port.other, wait.port.context, wait.accepted = port, int(context, 0), True
        wait.info = b"" if self.wrong == "info-lost" else data
        return f"{OK} h={self.give(thread.process, port, ALL)}"

    def NtCompleteConnectPort(self, thread, value):
        port = self.handle(thread, value, "port")
        if port.kind != "server":
            raise No(KIND)
        if port.complete:
            raise No(PARAMETER)
        if not port.other:
            raise No(GONE)
        wait = next((it for it in self.waits if it.kind == "connect" and it.port is port.other), None)
        if not wait:
            raise No(GONE)
        port.complete = port.other.open = True
        given = self.give(wait.thread.process, port.other, ALL)
        self.wake(wait, f"{OK} h={given} max=256 info={wait.info.hex()}")
        return OK

    # Messages.

    def read(self, text):
        """The sizes, the client and the data of a message; a refusal where its shape isn't lawful or it is too long."""
        head, _, digits = text[2:].rpartition(":")
        data = bytes.fromhex(digits)
        if text[0] in "dr":
            sizes = len(data), len(data) + 24, 0
            client = [int(it, 0) for it in head.split(".")] if head else (0, 0, 0)
        else:
            if len(data) < 24:
                raise No(PARAMETER)
            size, whole, _, ranges, *client, _ = struct.unpack_from("<HHHHIIII", data)
            sizes, data = (size, whole, ranges), data[24:]
            counted = self.wrong != "table-uncounted"
            if size != len(data) or whole < size + 24 or ranges and not table(ranges, data, counted):
                raise No(PARAMETER)
        if sizes[1] > 256:
            raise No(LONG)
        return sizes, client, data

    def client(self, client):
        """The wait of the thread that a message names."""
        thread = self.threads.get(client[1])
        if not thread or not thread.live or thread.process.number != client[0]:
            raise No(CID)
        return thread.wait

    def send(self, thread, value, text, kind):
        port = self.handle(thread, value, "port")
        if self.wrong == "message-last" and not self.way(port):
            raise No(GONE)
        sizes, _, data = self.read(text)
        queue = self.way(port)
        if not queue:
            raise No(GONE)
        queued = [it for other in self.ports for it in other.queue if it.kind == DATAGRAM]
        at_queue = self.wrong == "counted-at-queue"
        count = sum(it in queue.queue if at_queue else it.sent is port for it in queued)
        if kind == DATAGRAM and count >= (31 if self.wrong == "31-datagrams" else 32):
            raise No(QUOTA)
        number = self.draw(thread)
        return port, queue, number, self.message(port, kind, thread, number, data, sizes)

    def NtRequestPort(self, thread, value, text):
        _, queue, number, sent = self.send(thread, value, text, DATAGRAM)
        self.enter(sent, queue)
        return f"{OK} id={number}"

    def NtRequestWaitReplyPort(self, thread, value, text):
        port, queue, number, sent = self.send(thread, value, text, REQUEST)
        sent.wait = self.begin("request", thread, port, None, number=number, entered=queue)
        self.enter(sent, queue)
        return f"wait id={number}"

    def fitting(self, port, given):
        """The request that a reply through a port fits."""
        wait = self.client(given[1])
        if not wait or wait.kind != "request" or wait.number != given[1][2]:
            raise No(MISMATCH)
        fits = port is wait.entered or wait.port.other is port or self.wrong == "id-alone"
        if not fits or not (wait.received or self.wrong == "unreceived"):
            raise No(MISMATCH)
        return wait

    def answer(self, wait, given):
        """Shows a reply to the thread that asked."""
        (size, whole, ranges), client, data = given
        kind = REQUEST if self.wrong == "reply-type" else REPLY
        head = struct.pack("<HHHHIIII", size, whole, kind, ranges, *client, 0)
        self.wake(wait, f"{OK} msg={(head + data).hex()}")

    def NtReplyPort(self, thread, value, text):
        port, given = self.handle(thread, value, "port"), self.read(text)
        self.answer(self.fitting(port, given), given)
        return OK

    def NtReplyWaitReceivePort(self, thread, value, text=None):
        port = self.handle(thread, value, "port")
        given = self.read(text) if text else None
        queue = port.home if port.kind == "server" else port
        if given and self.wrong == "reply-first":
            self.answer(self.fitting(port, given), given)
            given = None
        waiting = port.queue and self.wrong != "cut-loses-queue"
        if not queue.open or port.kind == "client" and not port.other and not waiting:
            raise No(GONE)
        if given:
            self.answer(self.fitting(port, given), given)
        return self.take(thread, "receive", port, queue)

    def NtRegisterThreadTerminatePort(self, thread, value):
        port = self.handle(thread, value, "port")
        if port not in thread.registered or self.wrong == "register-twice":
            counted = [it for it in thread.registered if it.open or self.wrong != "closed-uncounted"]
            if len(counted) == 16:
                raise No(QUOTA)
            thread.registered.append(port)
        return OK

    # Handles.

    def NtClose(self, thread, value):
        self.handle(thread, value, None)
        self.close(thread.process, int(value, 0))
        return OK


def main(words):
    wrong = words[1] if words[0] == "--wrong" else None
    if wrong and wrong not in WRONGS:
        return 64
    machine = Plain(wrong)
    number = entries = 0
    for number, line in enumerate(sys.stdin, 1):
        told = machine.run(line.split()) if line.split() and line[0] != "#" else []
        entries += len(told)
        sys.stdout.writelines(f"{number} {it}\n" for it in told)
    print("end", number, entries, machine.objects())
    return 0


if __name__ == "__main__":
    sys.exit(main(sys.argv[1:]))
