"""Plans of a hunt: several lines with one aim. A plan begins a script, ends it, or reaches a limit in it.

Each is a generator of lines, which looks at what was told before it gives the next one. Where nothing stands for it,
it gives none.
"""
from ntlpc_tool import following

NAMES = ("\\A", "\\B")
# The numbers behind which the profile's limits lie: of datagrams, of threads and of children, of handles, of ports that
# a thread registered, of links on a way, and of the bytes of a path.
DATAGRAMS, ROWS, HANDLES, REGISTERED, LINKS, BYTES = 33, 65, 257, 17, 33, 256


def start(hunter):
    """Nothing, or a server with clients that are connected to it."""
    for _ in range(hunter.random.choice((0, 1, 1, 2))):
        yield from served(hunter, hunter.random.choice((1, 1, 2, 3)))


def served(hunter, count):
    """A process of two threads with a port that has a name, and so many connections to it."""
    process, first = hunter.unused(), hunter.unused()
    yield f"boot {process} {first}"
    yield f"thread {hunter.unused()} {process}"
    free = [it for it in NAMES if it not in hunter.world.names]
    name = hunter.pick(free) or f"\\P{first}"
    yield f"{first} NtCreatePort {name}"
    client = None
    for _ in range(count):
        if client is None or hunter.random.randrange(3):
            process, client = hunter.unused(), hunter.unused()
            yield f"boot {process} {client}"
            if hunter.random.randrange(2):
                yield f"thread {hunter.unused()} {process}"
        yield from connection(hunter, first, client, name)


def connection(hunter, server, client, name):
    """A connection of two threads, from the connect to its completion."""
    world = hunter.world
    yield f"{client} NtConnectPort {name} - - -"
    port = world.names.get(name)
    values = [value for value, named in world.held(server, ("connection",)) if named.thing is port]
    if not values or client not in world.asked:
        return
    yield f"{server} NtListenPort {values[0]}"
    head = ".".join(map(str, world.asked[client]))
    yield f"{server} NtAcceptConnectPort {hunter.random.randrange(1, 99)} r:{head}: accept -"
    for value, named in world.held(server, ("server",)):
        if not named.thing.complete:
            yield f"{server} NtCompleteConnectPort {value}"


def owners(world):
    """The processes that have a handle, and a thread that can make a call."""
    idle = {world.threads[it] for it in world.idle()}
    return sorted(process for process, owned in world.handles.items() if owned and process in idle)


def end(hunter):
    """Processes that have handles end, each by itself: what is left then is counted in the last line."""
    processes = owners(hunter.world)
    hunter.random.shuffle(processes)
    for process in processes:
        thread = hunter.of_process(process)
        if thread:
            yield f"{thread} NtTerminateProcess self 0"


def limits():
    """The plans that reach a limit, each with the call or directive that it needs."""
    return (
        ("NtRequestPort", datagrams), ("thread", threads), ("NtDuplicateObject", handles), ("link", links),
        ("NtRegisterThreadTerminatePort", registrations), ("NtCreateProcess", children), ("dir", paths),
    )  # fmt: skip


def datagrams(hunter):
    """Datagrams of a port, or of two ports that send into one queue."""
    if hunter.random.randrange(2):
        yield from served(hunter, 2)
    senders = {}
    for thread in hunter.world.idle():
        for value, named in hunter.world.held(thread, following.PORTS):
            queue = named.thing.target()
            if queue:
                senders.setdefault(queue, {})[named.thing] = (thread, value)
    several = [it for it in senders.values() if len(it) > 1]
    found = hunter.pick(several or list(senders.values()))
    if found:
        ports = list(found.values())[:2]
        for number in range((DATAGRAMS + 1) * len(ports)):
            thread, value = ports[number % len(ports)]
            yield f"{thread} NtRequestPort {value} d:{number:02x}"


def threads(hunter):
    """Threads of one process, some of which end meanwhile."""
    thread = hunter.someone()
    process = hunter.world.threads.get(thread)
    for number in range(ROWS + 3 if thread else 0):
        yield f"thread {hunter.unused()} {process}"
        if number % 40 == 9:
            other = hunter.of_process(process)
            yield f"{other if other != thread else thread} NtTerminateThread self 1"


def handles(hunter):
    """Handles of one process, of which a thread may wait in a connect; and calls that want a further one."""
    world, thread, other = hunter.world, hunter.someone(), hunter.unused()
    if not thread:
        return
    process, name = world.threads[thread], f"\\H{other}"
    yield f"{thread} NtCreatePort {name}"
    yield f"thread {other} {process}"
    if hunter.random.randrange(3):
        yield f"{other} NtConnectPort {name} - - -"
    if "NtCreateProcess" not in hunter.without:
        # They give two handles each.
        for _ in range(ROWS - 5):
            yield f"{thread} NtCreateProcess {hunter.unused()} {hunter.unused()}"
    value = hunter.pick(list(world.handles[process])) or 4
    for _ in range(HANDLES - len(world.handles[process])):
        yield f"{thread} NtDuplicateObject {value} same"
    for word in (name, "-", "\\C"):
        yield f"{thread} NtCreatePort {word}"
    yield f"{thread} NtCreateProcess {hunter.unused()} {hunter.unused()}"
    yield f"{thread} NtCreateThread self {hunter.unused()}"


def registrations(hunter):
    """Ports that one thread registers, some of which close meanwhile."""
    thread = hunter.someone()
    for number in range(REGISTERED + 1 if thread else 0):
        before = {value for value, _ in hunter.world.held(thread, following.PORTS)}
        yield f"{thread} NtCreatePort -"
        made = [it for it, _ in hunter.world.held(thread, following.PORTS) if it not in before]
        if made:
            yield f"{thread} NtRegisterThreadTerminatePort {made[0]}"
            if number % 5 == 1:
                yield f"{thread} NtClose {made[0]}"


def children(hunter):
    """Processes that one process makes, some of which end meanwhile."""
    thread = hunter.someone()
    for number in range(ROWS + 3 if thread else 0):
        child, first = hunter.unused(), hunter.unused()
        yield f"{thread} NtCreateProcess {child} {first}"
        if number % 30 == 9:
            yield f"{first} NtTerminateProcess self 2"


def links(hunter):
    """A chain of links, each to the one before, and paths along its last ones."""
    yield "link \\L0 \\A"
    for number in range(1, LINKS + 1):
        yield f"link \\L{number} \\L{number - 1}"
    for number in range(LINKS - 3, LINKS + 1):
        thread = hunter.someone()
        yield f"{thread} NtConnectPort \\L{number} - - -" if thread else f"dir \\L{number}"


def paths(hunter):
    """Paths that are as long as they may be, one byte shorter and one longer; as they stand, and along a link."""
    long = "\\" + "p" * 99
    yield f"dir {long}"
    yield f"link \\G {long}"
    for size in (BYTES - 1, BYTES, BYTES + 1):
        rest = "\\" + hunter.random.choice("qr") * (size - len(long) - 1)
        yield f"dir {hunter.random.choice((long, chr(92) + 'G'))}{rest}"
        yield f"dir \\{'s' * (size - 1)}"
