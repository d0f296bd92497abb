"""Large worlds: scripts with many rows, with much told in one line, or with many lines, and what is told for them. Each
has ample memory, so none may end for want of it. What is told is worked out here by docs/SERVICES.md, line by line."""


import struct

REQUEST, REPLY, DATAGRAM, CONNECTION_REQUEST = 1, 2, 3, 10
# The code of an exception, as scripts spell it and as an end shows it.
CODE, CODE_SHOWN = "0xc0000005", "c0000005"
QUOTA_EXCEEDED = 0xC0000044


def message(kind, pid, tid, identifier, data=b"", view=0):
    """A message as it is shown: docs/SCRIPTS.md has the header. A connection request tells the size of the view that is
    offered."""
    header = struct.pack("<HHHHIIII", len(data), 24 + len(data), kind, 0, pid, tid, identifier, view)
    return (header + data).hex()


def base(number):
    """The base of a process's view of that number, from 1, where all views have at most 64 KiB: docs/SERVICES.md."""
    return f"{0x10000 * number:08x}"


class World:
    """A script that grows line by line, with what is told for it."""

    def __init__(self, name):
        self.name, self.lines, self.told = name, [], []

    def line(self, text, *entries):
        """A further line, and the entries that it has, without their number."""
        self.lines.append(f"{text}\n")
        self.told += [f"{len(self.lines)} {entry}\n" for entry in entries]

    def directive(self, text):
        """A directive that succeeds."""
        self.line(text, f"- {text.split()[0]} 00000000")

    def call(self, text, fields="", *others):
        """A call that succeeds, with its fields and the entries of other threads."""
        thread, name = text.split()[:2]
        self.line(text, f"{thread} {name} 00000000{fields}", *others)

    def waits(self, text, fields=""):
        """A call that waits."""
        thread, name = text.split()[:2]
        self.line(text, f"{thread} {name} wait{fields}")

    def refused(self, text, status):
        """A call that is refused."""
        thread, name = text.split()[:2]
        self.line(text, f"{thread} {name} {status}")

    def dies(self, text, code, threads, *others):
        """A call that ends threads, its own among them, and has no answer; then come other entries."""
        self.line(text, *(f"~{tid} died {code}" for tid in threads), *others)

    def ended(self, objects):
        """The script and its transcript, at whose end so many objects are left."""
        last = f"end {len(self.lines)} {len(self.told)} {objects}\n"
        return self.name, "".join(self.lines).encode(), "".join([*self.told, last]).encode()


def processes(count):
    """Processes of a thread each."""
    world = World(f"{count:,} processes")
    for number in range(1, count + 1):
        world.directive(f"boot {number} {number}")
    return world.ended(2 * count)


def threads(processes, each):
    """Threads, as many as a process may have; all but the first wait on its port, and all end in one line."""
    world = World(f"{processes * each:,} threads, most of which wait")
    for pid in range(1, processes + 1):
        first = pid * each
        world.directive(f"boot {pid} {first}")
        world.call(f"{first} NtCreatePort -", " h=4")
        for tid in range(first + 1, first + each):
            world.directive(f"thread {tid} {pid}")
            world.waits(f"{tid} NtReplyWaitReceivePort 4")
    for pid in range(1, processes + 1):
        world.dies(f"{pid * each} NtTerminateProcess self 7", "00000007", range(pid * each, (pid + 1) * each))
    return world.ended(0)


def ports(processes, each=256):
    """Ports, as many as a process may have handles, and a duplicate that is refused."""
    world = World(f"{processes * each:,} ports")
    for pid in range(1, processes + 1):
        world.directive(f"boot {pid} {pid}")
        for number in range(1, each + 1):
            world.call(f"{pid} NtCreatePort -", f" h={4 * number}")
    world.refused("1 NtDuplicateObject 4 same", "c0000044")
    return world.ended(processes * (2 + each))


def datagrams(count):
    """32 datagrams of each of some ports, with as many data as fit; then those of the last are received."""
    world, data, each = World(f"{32 * count:,} datagrams in queues"), b"Z" * 232, 200
    for pid in range(1, -(-count // each) + 1):
        world.directive(f"boot {pid} {pid}")
        for port in range(1, min(each, count - each * (pid - 1)) + 1):
            world.call(f"{pid} NtCreatePort -", f" h={4 * port}")
            for number in range(32):
                world.call(f"{pid} NtRequestPort {4 * port} d:{data.hex()}", f" id={32 * (port - 1) + number + 1}")
    for number in range(32):
        shown = message(DATAGRAM, pid, pid, 32 * (port - 1) + number + 1, data)
        world.call(f"{pid} NtReplyWaitReceivePort {4 * port}", f" ctx=00000000 msg={shown}")
    return world.ended(2 * pid + count)


def names(count):
    """Directories, and a link to each; a port by way of the last."""
    world = World(f"{2 * count:,} names")
    for number in range(count):
        world.directive(f"dir \\directory-{number}")
        world.directive(f"link \\link-{number} \\directory-{number}")
    world.directive("boot 20 24")
    world.call(f"24 NtCreatePort \\link-{count - 1}\\port", " h=4")
    world.refused(f"24 NtCreatePort \\directory-{count - 1}\\port", "c0000035")
    return world.ended(3)


def registrations(processes, threads):
    """16 ports that each thread registers; when the process ends, each is told of, and nobody receives it."""
    world = World(f"{16 * processes * threads:,} registrations")
    for pid in range(1, processes + 1):
        first = pid * 64
        world.directive(f"boot {pid} {first}")
        for port in range(1, 17):
            world.call(f"{first} NtCreatePort -", f" h={4 * port}")
        for tid in range(first, first + threads):
            if tid > first:
                world.directive(f"thread {tid} {pid}")
            for port in range(1, 17):
                world.call(f"{tid} NtRegisterThreadTerminatePort {4 * port}")
    for pid in range(1, processes + 1):
        world.dies(f"{pid * 64} NtTerminateProcess self 0", "00000000", range(pid * 64, pid * 64 + threads))
    return world.ended(0)


def children(depth, each):
    """Processes that processes made, with a handle to each and to its thread."""
    world, last = World(f"{1 + depth * each:,} processes that calls made"), 1
    world.directive("boot 1 1")
    for _ in range(depth):
        maker = last
        for number in range(1, each + 1):
            last += 1
            world.call(f"{maker} NtCreateProcess {last} {last}", f" h={8 * number - 4} thread={8 * number}")
    return world.ended(2 * last)


def made_threads(processes, each=64):
    """Threads that calls made, with a handle to each, as many as a process may have, and one more that is refused."""
    world = World(f"{processes * each:,} threads that calls made")
    for pid in range(1, processes + 1):
        first = pid * each
        world.directive(f"boot {pid} {first}")
        for number in range(1, each):
            world.call(f"{first} NtCreateThread self {first + number}", f" h={4 * number}")
    world.refused(f"{first} NtCreateThread self {first + each}", "c0000044")
    return world.ended(processes * (1 + each))


def duplicates(processes, each=256):
    """Handles to one port of each process, as many as a process may have, and one more that is refused."""
    world = World(f"{processes * each:,} handles, most of them duplicates")
    for pid in range(1, processes + 1):
        world.directive(f"boot {pid} {pid}")
        world.call(f"{pid} NtCreatePort -", " h=4")
        for number in range(2, each + 1):
            world.call(f"{pid} NtDuplicateObject {4 * number - 4} same", f" h={4 * number}")
    world.refused(f"{pid} NtDuplicateObject 4 same", "c0000044")
    world.call(f"{pid} NtQueryObject 4", f" type=port access=001f0001 handles={each} pointers={each}")
    return world.ended(3 * processes)


def sections(processes, each=256):
    """Sections, as many as a process may have handles; the last process has views of some of them, with bytes."""
    world = World(f"{processes * each:,} sections")
    for pid in range(1, processes + 1):
        world.directive(f"boot {pid} {pid}")
        for number in range(1, each + 1):
            world.call(f"{pid} NtCreateSection 4096 4", f" h={4 * number}")
    world.refused(f"{pid} NtCreateSection 4096 4", "c0000044")
    for number in range(1, 65):
        world.call(f"{pid} NtMapViewOfSection {4 * number} 0 0 4", f" base={base(number)} size=4096")
        world.call(f"{pid} NtWriteVirtualMemory 0x{base(number)} {number:08x}")
    for number in range(1, 65):
        world.call(f"{pid} NtReadVirtualMemory 0x{base(number)} 5", f" data={number:08x}00")
    return world.ended(processes * (2 + each))


def views(processes, each=128):
    """Views of one section of each process, as many as a process may have, and one more that is refused."""
    world = World(f"{processes * each:,} views")
    for pid in range(1, processes + 1):
        world.directive(f"boot {pid} {pid}")
        world.call(f"{pid} NtCreateSection 8192 4", " h=4")
        for number in range(1, each + 1):
            world.call(f"{pid} NtMapViewOfSection 4 4096 0 4", f" base={base(number)} size=4096")
    world.refused(f"{pid} NtMapViewOfSection 4 4096 0 4", "c0000044")
    world.call(f"{pid} NtWriteVirtualMemory 0x{base(1)} 4142")
    world.call(f"{pid} NtReadVirtualMemory 0x{base(each)} 3", " data=414200")
    world.call(f"{pid} NtQueryObject 4", f" type=section access=000f001f handles=1 pointers={1 + each}")
    return world.ended(3 * processes)


def token_names(count):
    """Tokens that have names, one of them twice, and a process with the last."""
    world = World(f"{count:,} names of tokens")
    for number in range(count):
        world.directive(f"token name_{number} S-1-5-21-{number} S-1-1-0")
    world.line("token name_0 S-1-1-0", "- token c0000035")
    world.directive(f"boot 20 24 name_{count - 1}")
    world.call("24 NtOpenProcessToken", " h=4")
    world.call("24 NtQueryInformationToken 4 1", f" user=S-1-5-21-{count - 1}")
    return world.ended(3)


def tokens(servers, each=254):
    """Tokens that servers open as their clients, and as themselves, as many as a process may have handles beside its
    ports."""
    world = World(f"{servers * each:,} tokens that were opened")
    world.directive("token client S-1-5-21-7 S-1-1-0")
    for number in range(1, servers + 1):
        server, client = 2 * number - 1, 2 * number
        world.directive(f"boot {server} {server}")
        world.directive(f"boot {client} {client} client")
        world.call(f"{server} NtCreatePort \\{number}", " h=4")
        connect(world, server, client, f"\\{number}", 8, number)
        world.waits(f"{client} NtRequestWaitReplyPort 4 d:", " id=2")
        asked = f" ctx={number:08x} msg={message(REQUEST, client, client, 2)}"
        world.call(f"{server} NtReplyWaitReceivePort 4", asked)
        world.call(f"{server} NtImpersonateClientOfPort 8 r:{client}.{client}.2:")
        for opened in range(each):
            which = "NtOpenProcessToken" if opened % 2 else "NtOpenThreadToken"
            world.call(f"{server} {which}", f" h={12 + 4 * opened}")
    world.refused(f"{server} NtOpenThreadToken", "c0000044")
    world.call(f"{server} NtQueryInformationToken 12 1", " user=S-1-5-21-7")
    world.call(f"{server} NtQueryInformationToken 12 9", " level=2")
    world.call(f"{server} NtQueryInformationToken 16 2", " groups=S-1-5-32-544,S-1-1-0")
    return world.ended(servers * (7 + each))


def connect(world, server, client, name, handle, context):
    """A client connects by the first call of its thread, and gets handle 4; the server gets another one."""
    world.waits(f"{client} NtConnectPort {name} - - -", " id=1")
    world.call(f"{server} NtListenPort 4", f" msg={message(CONNECTION_REQUEST, client, client, 1)}")
    world.call(f"{server} NtAcceptConnectPort {context} r:{client}.{client}.1: accept -", f" h={handle}")
    woken = f"*{client} NtConnectPort 00000000 h=4 max=256 info="
    world.call(f"{server} NtCompleteConnectPort {handle}", "", woken)


def offers(servers, clients):
    """Connections, each with a view that the client offers and one that the server does."""
    world = World(f"{servers * clients:,} connections with views")
    for server in range(1, servers + 1):
        world.directive(f"boot {server} {server}")
        world.call(f"{server} NtCreatePort \\{server}", " h=4")
        world.call(f"{server} NtCreateSection 4096 4", " h=8")
        for number in range(1, clients + 1):
            client, handle = 100 * server + number, 8 + 4 * number
            own, theirs = base(2 * number - 1), base(2 * number)
            world.directive(f"boot {client} {client}")
            world.call(f"{client} NtCreateSection 8192 4", " h=4")
            world.waits(f"{client} NtConnectPort \\{server} - w:4:4096:0 -", f" id=1 base={base(1)}")
            asked = message(CONNECTION_REQUEST, client, client, 1, view=4096)
            world.call(f"{server} NtListenPort 4", f" msg={asked}")
            accept = f"{server} NtAcceptConnectPort 5 r:{client}.{client}.1: accept w:8:0:0"
            world.call(accept, f" h={handle} base={own} target={base(2)} vbase={theirs} vsize=4096")
            woken = f"*{client} NtConnectPort 00000000 h=8 max=256 info= target={theirs} vbase={base(2)} vsize=4096"
            world.call(f"{server} NtCompleteConnectPort {handle}", "", woken)
            world.call(f"{client} NtWriteVirtualMemory 0x{base(1)} {client:08x}")
            world.call(f"{server} NtReadVirtualMemory 0x{theirs} 4", f" data={client:08x}")
    # A client has a process, a thread, two ports and a section; a server a process, a thread, a port and a section.
    return world.ended(servers * (4 + 5 * clients))


def exceptions(debuggers, children, each=64):
    """Threads with exceptions of which a debugger is to be told, and receives none. With the debugger ends its port:
    of each second child the frame handlers handle all of them, and the other children end."""
    world = World(f"{debuggers * children * each:,} exceptions, {children * each:,} of which end with a debugger")
    last = 0
    for _ in range(debuggers):
        debugger = last = last + 1
        world.directive(f"boot {debugger} {64 * debugger}")
        world.call(f"{64 * debugger} NtCreatePort -", " h=4")
        for child in range(children):
            last += 1
            process, word = 8 + 8 * child, "handled" if child % 2 else "unhandled"
            made = f"{64 * debugger} NtCreateProcess {last} {64 * last}"
            world.call(made, f" h={process} thread={process + 4}")
            world.call(f"{64 * debugger} NtSetInformationProcess {process} 7 4")
            for tid in range(64 * last, 64 * last + each):
                if tid > 64 * last:
                    world.directive(f"thread {tid} {last}")
                world.waits(f"{tid} raise {CODE} {word}", " id=1")
    for number in range(debuggers):
        debugger = 1 + number * (1 + children)
        threads = [(child % 2, 64 * (debugger + 1 + child) + it) for child in range(children) for it in range(each)]
        woken = [f"*{tid} raise 00000000" for handled, tid in threads if handled]
        ended = [f"~{tid} died {CODE_SHOWN}" for handled, tid in threads if not handled]
        debugging = 64 * debugger
        world.dies(f"{debugging} NtTerminateProcess self 0", "00000000", [debugging], *woken, *ended)
    # The children that are left have a debug port, which stands as long as one of them lives.
    return world.ended(debuggers * (1 + children // 2 * (1 + each)))


def residents(count):
    """Servers on threads, each of which waits for its port's first message; one of them is on a thread already."""
    world = World(f"{count:,} servers on threads")
    for tid in range(1, count + 1):
        world.directive(f"boot {tid} {tid}")
        world.call(f"{tid} NtCreatePort -", " h=4")
        world.directive(f"resident {tid} win32 4")
        world.line(f"turn {tid}", f"{tid} NtReplyWaitReceivePort wait")
    world.line("resident 1 win32 4", "- resident c0000035")
    return world.ended(3 * count)


def served(clients):
    """A server on a thread with clients, each of which has 64 atoms and a full console, and asks for more of both."""
    world = World(f"{64 * clients:,} atoms of one server, and {clients} full consoles")
    asks = [(1, b"%d" % it, (0, 0xC000 + it)) for it in range(64)] + [(1, b"64", (QUOTA_EXCEEDED,))]
    # 71 texts of 228 bytes and one of 196 are the 16,384 bytes of a console.
    sizes = 71 * [228] + [196]
    asks += [(3, b"x" * it, (0, sum(sizes[: at + 1]))) for at, it in enumerate(sizes)] + [(3, b"x", (QUOTA_EXCEEDED,))]
    # A text that has an atom has it still. With these a client's identifiers pass one byte.
    asks += 140 * [(1, b"0", (0, 0xC000))]
    world.directive("boot 20 24")
    world.call("24 NtCreatePort \\P", " h=4")
    world.directive("resident 24 win32 4")
    receives = "24 NtReplyWaitReceivePort wait"
    world.line("turn 24", receives)
    for client in range(101, 101 + clients):
        world.directive(f"boot {client} {client}")
        handle = 8 + 4 * (client - 101)
        asked = f"*24 NtReplyWaitReceivePort 00000000 ctx=00000000 msg={message(CONNECTION_REQUEST, client, client, 1)}"
        world.line(f"{client} NtConnectPort \\P - - -", f"{client} NtConnectPort wait id=1", asked)
        world.line("turn 24", f"24 NtAcceptConnectPort 00000000 h={handle}")
        woken = f"*{client} NtConnectPort 00000000 h=4 max=256 info="
        world.line("turn 24", "24 NtCompleteConnectPort 00000000", woken)
        world.line("turn 24", receives)
        call = f"{client} NtRequestWaitReplyPort"
        for identifier, (api, text, answer) in enumerate(asks, 2):
            data, result = struct.pack("<I", api) + text, struct.pack(f"<{len(answer)}I", *answer)
            shown = message(REQUEST, client, client, identifier, data)
            asked = f"*24 NtReplyWaitReceivePort 00000000 ctx={client:08x} msg={shown}"
            world.line(f"{call} 4 d:{data.hex()}", f"{call} wait id={identifier}", asked)
            reply = message(REPLY, client, client, identifier, result)
            world.line("turn 24", receives, f"*{call} 00000000 msg={reply}")
    # A process, a thread and two ports of each client; a process, a thread and a port of the server.
    return world.ended(3 + 4 * clients)


def one_long_line(processes, each):
    """A port that many threads of many clients ask closes: all of them wake in one line."""
    world = World(f"a line that tells of {processes * each:,} wakes")
    world.directive("boot 1 1")
    world.call("1 NtCreatePort \\P", " h=4")
    asking = []
    for client in range(1, processes + 1):
        pid, first = client + 1, 64 * client
        world.directive(f"boot {pid} {first}")
        world.waits(f"{first} NtConnectPort \\P - - -", " id=1")
        world.call("1 NtListenPort 4", f" msg={message(CONNECTION_REQUEST, pid, first, 1)}")
        world.call(f"1 NtAcceptConnectPort 0 r:{pid}.{first}.1: accept -", f" h={4 + 4 * client}")
        woken = f"*{first} NtConnectPort 00000000 h=4 max=256 info="
        world.call(f"1 NtCompleteConnectPort {4 + 4 * client}", "", woken)
        for tid in range(first, first + each):
            if tid > first:
                world.directive(f"thread {tid} {pid}")
            world.waits(f"{tid} NtRequestWaitReplyPort 4 d:61", f" id={2 if tid == first else 1}")
            asking.append(tid)
    wakes = [f"*{tid} NtRequestWaitReplyPort c0000253" for tid in asking]
    world.call("1 NtClose 4", "", *wakes)
    # Each client has a process, its threads and a port; the server a process, a thread, its ports and the closed one.
    return world.ended(processes * (2 + each) + 2 + processes + 1)


def many_calls(count):
    """As many calls as lines: each is counted."""
    world = World(f"{count:,} calls")
    world.directive("boot 20 24")
    world.call("24 NtCreatePort -", " h=4")
    for _ in range(count - 2):
        world.call("24 NtQueryObject 4", " type=port access=001f0001 handles=1 pointers=1")
    return world.ended(3)


def long_script(lines):
    """A script of so many lines of 16,384 bytes."""
    comment = "#" * 16_384
    world = World(f"a script of {lines * 16_385:,} bytes")
    for _ in range(lines - 1):
        world.line(comment)
    world.directive("boot 20 24")
    return world.ended(2)


def all_worlds():
    """Each world in turn: its name, its script and its transcript. Of each kind of row more than 5,000 stand in one."""
    yield processes(5_001)
    yield threads(80, 64)
    yield made_threads(80)
    yield ports(20)
    yield duplicates(20)
    yield datagrams(160)
    yield names(10_000)
    yield registrations(8, 64)
    yield children(80, 64)
    yield sections(20)
    yield views(40)
    yield token_names(6_000)
    yield tokens(20)
    yield offers(10, 60)
    yield exceptions(3, 28)
    yield residents(5_001)
    yield served(64)
    yield one_long_line(50, 63)
    yield many_calls(1_000_000)
    yield long_script(6_400)


def many_rows():
    """Worlds of some hundred rows of each kind, which stand together: in the form of states each line prints them all."""
    yield processes(400)
    yield threads(5, 64)
    yield ports(2)
    yield datagrams(10)
    yield names(300)
    yield registrations(3, 8)
    yield children(5, 8)
    yield made_threads(4)
    yield duplicates(2)
    yield sections(1)
    yield views(2)
    yield token_names(200)
    yield tokens(1)
    yield offers(2, 12)
    yield exceptions(2, 2)
