"""The choice of a hunt's next line, by what the conversation has told so far.

Each choice has a weight, the name of the call or directive that it makes, and a function of Hunter that gives a line,
or None where nothing of the kind goes now. Most lines fit what stands; some are put out of order on purpose. Which are
frequent, and among how many threads, is another matter in each script. At its start and at its end, and where a limit
is to be reached, a plan gives the lines.
"""
import functools

from ntlpc_tool import following, forms, message, planning, scenes

FOLDERS = ("\\D", "\\D\\E")
LINKS = (("\\L", "\\D"), ("\\M", "\\A"), ("\\R", "\\R"))
PATHS = (
    "\\A", "\\B", "\\D\\A", "\\D\\E\\B", "\\L\\A", "\\M", "\\a", "\\d\\A", "\\A\\C", "\\D", "\\R", "\\", "A", "\\D\\\\A",
)  # fmt: skip
# How many of PATHS are those that a port mostly has.
GOOD = 4
NEVER = 2_000_000_000
KINDS = (*following.PORTS, "process", "thread")
# The most data of a message.
MOST_DATA = 232
ONCE_ODD, ONCE_ANY = 8, 8
# How many limits one script reaches at most, and how many other lines stand between them.
MOST_LIMITS, BETWEEN = 2, 60
# How many connects wait at most, and how many lines the end of a script has at most.
WORLD_OF, MOST_ENDS = 6, 12
# By how much a call is more frequent in one script than in another, and how many threads are to be able to make one.
LEANINGS, CROWDS = (0.2, 1, 1, 1, 4), (2, 2, 4, 7)
# So many numbers are given out of order.
SHUFFLED = 8


class Hunter:
    """Chooses line by line: `random` decides, `world` has what was told, `without` are names that no line may have."""

    def __init__(self, random, world, without=(), calls=300):
        self.random, self.world = random, world
        self.without, self.calls, self.made = frozenset(without), calls, 0
        self.next, self.free = 0, []
        self.table = [
            (weight * random.choice(LEANINGS), name, choice)
            for weight, name, choice in self.choices()
            if name not in self.without
        ]
        self.crowd, self.few = random.choice(CROWDS), random.randrange(2)
        self.plan = planning.start(self)
        limits = [it for name, it in planning.limits() if name not in self.without]
        chosen = random.sample(limits, min(len(limits), random.randrange(MOST_LIMITS + 1)))
        # The last one comes first, and that with the most lines before the others.
        self.limits = sorted(chosen, key=lambda it: it is planning.handles)
        # How many other lines come before a limit is reached, and whether the script has an end.
        self.until, self.ends = random.randrange(calls // 6 + 1), random.randrange(3)

    def choices(self):
        """Weight, name, and function of each choice."""
        return (
            (3, "boot", self.boot),
            (4, "thread", self.thread),
            (1, "dir", lambda: f"dir {self.random.choice(FOLDERS)}"),
            (1, "link", lambda: "link {} {}".format(*self.random.choice(LINKS))),
            (8, "NtCreatePort", self.port),
            (14, "NtConnectPort", self.connect),
            (7, "NtListenPort", lambda: self.receive("NtListenPort", ("connection",))),
            (30, "NtAcceptConnectPort", self.accept),
            (25, "NtCompleteConnectPort", self.complete),
            (12, "NtRequestPort", lambda: self.send("NtRequestPort")),
            (14, "NtRequestWaitReplyPort", lambda: self.send("NtRequestWaitReplyPort")),
            (16, "NtReplyPort", lambda: self.reply("NtReplyPort")),
            (12, "NtReplyWaitReceivePort", lambda: self.reply("NtReplyWaitReceivePort")),
            (16, "NtReplyWaitReceivePort", lambda: self.receive("NtReplyWaitReceivePort", following.PORTS)),
            (5, "NtRegisterThreadTerminatePort", lambda: self.on("NtRegisterThreadTerminatePort", following.PORTS)),
            (2, "NtCreateProcess", self.process),
            (3, "NtCreateThread", self.further),
            (2, "NtTerminateThread", lambda: self.end("NtTerminateThread", "thread")),
            (1, "NtTerminateProcess", lambda: self.end("NtTerminateProcess", "process")),
            (8, "NtClose", self.close),
            (5, "NtDuplicateObject", self.duplicate),
            (8, "NtQueryObject", lambda: self.on("NtQueryObject", KINDS, False)),
            *((2, name, functools.partial(self.begin, scene)) for name, scene in scenes.ALL),
        )

    def line(self):
        """The next line."""
        self.made += 1
        left = self.calls - self.made + 1
        if self.ends and left <= MOST_ENDS and left <= len(planning.owners(self.world)):
            self.plan, self.ends = planning.end(self), 0
        line = self.planned() or self.limited()
        if line:
            return line
        line = self.scarce() or self.chosen()
        return self.odd(line) if self.random.randrange(ONCE_ODD) == 0 else line

    def planned(self):
        """The next line of the plan; None where it has ended."""
        return next((it for it in self.plan if name_in(it) not in self.without), None)

    def begin(self, plan):
        """The first line of a plan, whose others come next."""
        self.plan = plan(self)
        return self.planned()

    def limited(self):
        """The first line of the plan that reaches a limit, where it is time for that."""
        self.until -= 1
        if self.limits and self.until < 0:
            self.until = self.random.randrange(BETWEEN)
            return self.begin(self.limits.pop())
        return None

    def scarce(self):
        """A line that makes a thread, where few can make a call."""
        if len(self.world.idle()) > self.random.randrange(self.crowd) and len(self.world.threads) > 2:
            return None
        return self.thread() if self.world.threads and self.random.randrange(2) else self.boot()

    def chosen(self):
        """A line of one of the choices that go now."""
        table = list(self.table)
        while table:
            found = self.random.choices(table, [weight for weight, _, _ in table])[0]
            line = found[2]()
            if line:
                return line
            table.remove(found)
        return self.boot()

    def fresh(self):
        """A number that no process and no thread has had; now and then one that was had before."""
        if self.next and self.random.randrange(20) == 0:
            dead = self.pick(self.world.dead)
            return self.random.choice(dead or (self.random.randrange(1, self.next // 4 + 1) * 4,))
        return self.unused()

    def unused(self):
        """A number that no process and no thread has had. What is made later has a lower one now and then."""
        if not self.free:
            self.free = [self.next + 4 * it for it in range(1, SHUFFLED + 1)]
            self.next = self.free[-1]
            self.random.shuffle(self.free)
        return self.free.pop()

    def someone(self):
        """A thread that can make a call, in some scripts mostly one of those that were made first; None where all
        wait."""
        idle = self.world.idle()
        if self.few and self.random.randrange(4):
            idle = idle[: self.crowd]
        return self.random.choice(idle) if idle else None

    def pick(self, found):
        return self.random.choice(found) if found else None

    def data(self):
        """The digits of some data, mostly short."""
        count = self.random.choice((0, 1, 1, 2, 4, 4, 9))
        if self.random.randrange(25) == 0:
            count = self.random.choice((MOST_DATA - 1, MOST_DATA, MOST_DATA + 1))
        return self.random.randbytes(count).hex() if count < 20 else f"{count % 256:02x}" * count

    def text(self, head=None):
        """A message: of data alone, with a head, or all its bytes, which may be unlawful."""
        way = self.random.randrange(12)
        if way > 1:
            return f"r:{head}:{self.data()}" if head else f"d:{self.data()}"
        body = bytes.fromhex(self.data())
        if way == 0 and len(body) < 20:
            body = (1).to_bytes(4, "little") + bytes(8) + body
        sizes = [len(body), len(body) + 24 + self.random.choice((0, 0, 0, 1, 8, 300)), self.random.randrange(12)]
        ranges = 24 if way == 0 else self.random.choice((0, 0, 24, 23, 60000))
        client = [int(it) for it in head.split(".")] if head else [self.random.randrange(40) for _ in range(3)]
        size = self.random.choice((sizes[0],) * 5 + (sizes[0] + 1,))
        found = message.Message(size, sizes[1] & 0xFFFF, sizes[2], ranges, *client, self.random.randrange(2), body)
        return f"m:{found.to_bytes().hex()}"

    def boot(self):
        return f"boot {self.fresh()} {self.fresh()}"

    def thread(self):
        processes = sorted(set(self.world.threads.values()))
        return f"thread {self.fresh()} {self.random.choice(processes)}" if processes else None

    def port(self):
        thread = self.someone()
        good = self.random.randrange(6)
        name = "-" if good < 2 else self.random.choice(PATHS[:GOOD] if good < 5 else PATHS)
        return thread and f"{thread} NtCreatePort {name}"

    def connect(self):
        """Asks for a connection, mostly where a port stands."""
        thread, names = self.someone(), list(self.world.names)
        many = sum(it[1] == "NtConnectPort" for it in self.world.waits.values())
        if not thread or many > WORLD_OF or not names and self.random.randrange(4):
            return None
        name = self.random.choice(names if names and self.random.randrange(6) else PATHS)
        data = self.data()
        return f"{thread} NtConnectPort {name} - - {'d:' + data if data else '-'}"

    def held(self, thread, kinds, grants=True):
        """The handles of a thread's process to things of some kinds; now and then all of them, whatever they grant."""
        if self.random.randrange(ONCE_ANY) == 0:
            kinds, grants = KINDS, False
        return self.world.held(thread, kinds, grants)

    def on(self, call, kinds, grants=True):
        """A call on a handle, mostly of kinds that fit it; each kind that there is has the same chance."""
        thread = self.someone()
        held = self.held(thread, kinds, grants)
        kind = self.pick(sorted({named.kind for _, named in held}))
        found = self.pick([it for it in held if it[1].kind == kind])
        return found and f"{thread} {call} {found[0]}"

    def receive(self, call, kinds):
        """Takes a message, mostly where one stands."""
        thread = self.someone()
        full = [it for it in self.world.held(thread, kinds) if it[1].thing.source().queued]
        if full and self.random.randrange(4):
            return f"{thread} {call} {self.pick(full)[0]}"
        return self.on(call, kinds) if self.random.randrange(2) else None

    def of_process(self, process, besides=None):
        """A thread of a process that can make a call, and is another one than `besides`."""
        return self.pick([it for it in self.world.idle() if self.world.threads[it] == process and it != besides])

    def owner(self, kinds=following.PORTS):
        """A thread that can make a call, of a process that has a handle to a thing of some kinds."""
        return self.pick([it for it in self.world.idle() if self.world.held(it, kinds)])

    def to_answer(self, received):
        """Something that was received, and a thread of its receiver that can answer it; now and then any thread, and
        what any thread has asked, received or not. None where there is nothing of the kind."""
        if self.random.randrange(ONCE_ODD) == 0:
            thread, client = self.someone(), self.pick(list(self.world.asked.values()))
            return (thread, following.Received(None, None, client)) if thread and client else None
        found = self.pick(received)
        thread = found and self.of_process(found.process)
        return (thread, found) if thread else None

    def accept(self):
        answer = self.to_answer(self.world.connects)
        if not answer:
            return None
        thread, found = answer
        word = "refuse" if self.random.randrange(5) == 0 else "accept"
        return f"{thread} NtAcceptConnectPort {self.random.randrange(1, 99)} {self.text(found.head())} {word} -"

    def complete(self):
        """Completes a connection that isn't completed."""
        ready = []
        for thread in self.world.idle():
            ready += [(thread, it) for it, named in self.world.held(thread, ("server",)) if not named.thing.complete]
        found = self.pick(ready)
        return found and "{} NtCompleteConnectPort {}".format(*found)

    def send(self, call):
        thread = self.someone()
        found = self.pick(self.held(thread, following.PORTS))
        return found and f"{thread} {call} {found[0]} {self.text()}"

    def reply(self, call):
        """Replies to a request that was received, mostly on a port through which it fits."""
        answer = self.to_answer(self.world.requests)
        if not answer:
            return None
        thread, found = answer
        ports = self.world.held(thread, following.PORTS)
        fitting = [it for it in ports if it[1].thing in self.world.fits(found)]
        chosen = self.pick(fitting if fitting and self.random.randrange(4) else ports)
        return chosen and f"{thread} {call} {chosen[0]} {self.text(found.head())}"

    def process(self):
        thread = self.someone()
        return thread and f"{thread} NtCreateProcess {self.fresh()} {self.fresh()}"

    def further(self):
        thread = self.someone()
        found = self.pick([("self", None), *self.held(thread, ("process",))])
        return thread and f"{thread} NtCreateThread {found[0]} {self.fresh()}"

    def end(self, call, kind):
        """Ends a thread or a process, mostly another one than the caller's where there is a handle to one."""
        thread = self.someone()
        if not thread or len(self.world.threads) < 3:
            return None
        found = self.pick(self.held(thread, (kind,)))
        value = found[0] if found and self.random.randrange(3) else "self"
        return f"{thread} {call} {value} {self.random.randrange(9)}"

    def close(self):
        return self.on("NtClose", KINDS, False)

    def duplicate(self):
        line = self.on("NtDuplicateObject", KINDS, False)
        return line and f"{line} {self.random.choice(('same', 'same', 'same', '1', '0', '0x1f0001', '2', '0x20'))}"

    def odd(self, line):
        """A line with one thing put out of order, which is likely to be refused."""
        words, world = line.split(), self.world
        form = forms.of_words(words)
        way = self.random.randrange(4)
        places = [at for at, it in enumerate(form[: len(words)]) if it in ("H", "H|self", "PORT")]
        if way == 0 and words[0].isdigit():
            others = [*world.waits, *(thread for _, thread in world.dead), NEVER]
            words[0] = str(self.random.choice(others))
        elif way < 3 and places:
            values = [value for owned in world.handles.values() for value in owned]
            words[places[0]] = str(self.random.choice([*values, 0, 2, self.random.randrange(1, 12) * 4]))
        else:
            words = [self.other_head(it) if it.startswith("r:") else it for it in words]
        return " ".join(words)

    def other_head(self, word):
        """A message whose head names something else."""
        head, _, data = word[2:].partition(":")
        client, at = [int(it) for it in head.split(".")], self.random.randrange(3)
        others = [*self.world.dead, *((process, thread) for thread, process in self.world.threads.items())]
        if at == 2:
            client[2] = max(0, client[2] + self.random.choice((-1, 1)))
        elif others:
            client[at] = self.random.choice(others)[at] or NEVER
        return f"r:{'.'.join(map(str, client))}:{data}"


def name_in(line):
    """The call or directive that a line names."""
    words = line.split()
    return words[1] if words[0].isdigit() else words[0]
