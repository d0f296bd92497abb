"""Scenes of a hunt: plans that bring about in a few lines what chance alone seldom does, as ends that several wait for.

Each is a generator of lines, as those of ntlpc_tool.planning are.
"""
from ntlpc_tool import following, planning

# The kinds of port that a server has.
KEPT = ("connection", "server")


def last_words(hunter):
    """A thread registers ports, the first perhaps twice, others wait on some, and it ends, alone or with its process;
    its end is received."""
    world, random = hunter.world, hunter.random
    if random.randrange(4) == 0:
        yield from planning.served(hunter, 2)
    thread = hunter.owner()
    if thread and random.randrange(2):
        maker, thread = thread, hunter.unused()
        yield f"{maker} NtCreateThread self {thread}"
    ports = {named.thing: value for value, named in world.held(thread, following.PORTS)}
    chosen = random.sample(list(ports), min(len(ports), 4))
    for port in chosen + chosen[: random.randrange(2)]:
        yield f"{thread} NtRegisterThreadTerminatePort {ports[port]}"
    if chosen and random.randrange(2):
        yield from waiting(hunter, thread, [ports[it] for it in chosen[:2]])
    if chosen:
        yield f"{thread} {random.choice(('NtTerminateThread', 'NtTerminateThread', 'NtTerminateProcess'))} self 3"
    for port in chosen:
        yield from received(hunter, port.target())


def waiting(hunter, thread, values):
    """Other threads of a process wait on its ports, one on each."""
    process = hunter.world.threads.get(thread)
    for value in values:
        other = hunter.of_process(process, thread)
        if not other:
            other = hunter.unused()
            yield f"thread {other} {process}"
        yield f"{other} NtReplyWaitReceivePort {value}"


def received(hunter, queue):
    """A receive of what stands in a queue."""
    for thread in hunter.world.idle() if queue and queue.queued else ():
        values = [value for value, it in hunter.world.held(thread, following.PORTS) if it.thing.source() is queue]
        if values:
            yield f"{thread} NtReplyWaitReceivePort {hunter.pick(values)}"
            return


def last_handle(hunter):
    """Threads of a process wait on a port or on its server ports, and then the process closes it."""
    world, thread = hunter.world, hunter.owner()
    if not thread:
        return
    process, port = world.threads[thread], hunter.pick(world.held(thread, following.PORTS))[1].thing
    if hunter.random.randrange(2):
        yield f"thread {hunter.unused()} {process}"
    others = [it for it in world.idle() if world.threads[it] == process and it != thread]
    hunter.random.shuffle(others)
    for other in others[:3]:
        values = [value for value, it in world.held(thread, following.PORTS) if it.thing.source() is port.source()]
        if values:
            yield f"{other} NtReplyWaitReceivePort {hunter.pick(values)}"
    yield from closed(hunter, thread, port)


def closed(hunter, thread, port):
    """A process closes its handles to a port."""
    for value in [value for value, it in hunter.world.held(thread, following.PORTS, False) if it.thing is port]:
        yield f"{thread} NtClose {value}"


def broken_off(hunter):
    """A client asks and another one connects; what they asked may be received; a port of the server closes; and the
    server answers nevertheless."""
    world, random = hunter.world, hunter.random
    if random.randrange(4) == 0:
        yield from planning.served(hunter, 1)
    client = hunter.owner(("client",))
    if not client:
        return
    value, named = hunter.pick(world.held(client, ("client",)))
    home, other = named.thing.home, named.thing.other
    servers = [it for it in world.idle() if it != client and any(one.thing is home for _, one in world.held(it, KEPT))]
    if not servers:
        return
    server = hunter.pick(servers)
    yield f"{client} NtRequestWaitReplyPort {value} d:{hunter.data()}"
    asked = world.asked.get(client)
    connecting = [it for it in world.idle() if it != server]
    if connecting and home.name and random.randrange(2):
        yield f"{hunter.pick(connecting)} NtConnectPort {home.name} - - -"
    if random.randrange(2):
        yield from received(hunter, home)
    values = [value for value, it in world.held(server, KEPT) if it.thing is other]
    yield from closed(hunter, server, home if random.randrange(3) else other)
    if values and asked:
        call = random.choice(("NtReplyPort", "NtReplyWaitReceivePort"))
        yield f"{server} {call} {values[0]} r:{'.'.join(map(str, asked))}:{hunter.data()}"


def lost_client(hunter):
    """A thread that connects ends before the connection is completed: it was not received yet, or was, or accepted."""
    world, random = hunter.world, hunter.random
    server, maker, client = hunter.owner(("connection",)), hunter.someone(), hunter.unused()
    if not server or maker == server:
        return
    value, named = hunter.pick(world.held(server, ("connection",)))
    before = {it for it, _ in world.held(maker, ("thread",))}
    yield f"{maker} NtCreateThread self {client}"
    made = [it for it, _ in world.held(maker, ("thread",)) if it not in before]
    yield f"{client} NtConnectPort {named.thing.name} - - -"
    stage, asked = random.randrange(3), world.asked.get(client)
    if not made or not asked:
        return
    answer = f"NtAcceptConnectPort 5 r:{'.'.join(map(str, asked))}: accept -"
    if stage:
        yield f"{server} NtListenPort {value}"
    if stage > 1:
        yield f"{server} {answer}"
    if random.randrange(3) == 0:
        yield f"{server} {answer}"
    yield f"{maker} NtTerminateThread {made[0]} 4" if random.randrange(3) else f"{maker} NtTerminateProcess self 4"
    for value, it in world.held(server, ("server",)):
        if not it.thing.complete:
            yield f"{server} NtCompleteConnectPort {value}"
    yield f"{server} {answer}"


def last_process(hunter):
    """A process makes ports with names and closes some; others connect to those that are left; and the process ends."""
    world, random = hunter.world, hunter.random
    process, thread = hunter.unused(), hunter.unused()
    yield f"boot {process} {thread}"
    for number in range(5):
        yield f"{thread} NtCreatePort \\Q{thread}.{number}"
        mine = [value for value, _ in world.held(thread, ("connection",))]
        if mine and random.randrange(3) == 0:
            yield f"{thread} NtClose {hunter.pick(mine)}"
    names = [it.thing.name for _, it in world.held(thread, ("connection",))]
    random.shuffle(names)
    clients = [it for it in world.idle() if it != thread][:4]
    if random.randrange(2):
        extra = hunter.unused()
        yield f"thread {extra} {hunter.pick(sorted(set(world.threads.values())))}"
        clients.append(extra)
    for client, name in zip(clients, names):
        yield f"{client} NtConnectPort {name} - - -"
    yield f"{thread} NtTerminateProcess self 6"


# All of them, each with the call that it is for.
ALL = (
    ("NtRegisterThreadTerminatePort", last_words),
    ("NtClose", last_handle),
    ("NtRequestWaitReplyPort", broken_off),
    ("NtConnectPort", lost_client),
    ("NtTerminateProcess", last_process),
)
