"""How the values of the machine's rows are told in the cells of the page's tables.

A cell is a tuple of texts and of links to other rows; it is empty where there is nothing to tell.
"""
import dataclasses
import re

from ntlpc_tool import describe, inputs, message, statuses

# How many bytes of data a cell shows, and how many stretches of a section, each with less than eight zeros in between.
MOST_BYTES, MOST_STRETCHES = 32, 4
STRETCH = re.compile(rb"[^\0](?:\0{0,7}[^\0])*")
# The kinds of ports that are an end of a connection.
ENDS = ("client", "server")
# What a wait is for, by the word that its row has, with the identifier of what was sent.
AWAITED = {
    "reply": "the reply to its request {}",
    "answer": "the answer to its connect {}",
    "completion": "the completion of its connect {}",
    "event": "what becomes of its event {}",
}
# What an accept leaves for a client to be told: where the view lies that it offered, and the server's.
PLACES = {"target": "its view there at {}", "vbase": "the other's view at {}", "vsize": "{} bytes of it"}


@dataclasses.dataclass(frozen=True)
class Link:
    """A text that leads to the row of a name."""

    name: str
    text: str


def shown(text):
    """A text of the machine, each of whose signs is a byte of a script, as it can be printed."""
    return inputs.shown(text.encode("latin-1", "backslashreplace"))


class Book:
    """How rows are called. `numbers` has the names of processes and threads, each by its kind and its number."""

    def __init__(self, numbers):
        self.numbers = numbers
        self.called = {name: f"{kind} {number}" for (kind, number), name in numbers.items()}

    def title(self, name):
        """A process and a thread are called by their numbers, and all else by its name."""
        return self.called.get(name) or shown(name)

    def row(self, name):
        return (Link(name, self.title(name)),)

    def rows(self, names):
        return listed([self.row(it) for it in names])

    def numbered(self, kind, number):
        """A process or a thread of which the number is told."""
        name = self.numbers.get((kind, number))
        return (Link(name, str(number)),) if name else (str(number),)

    def process(self, number):
        return self.numbered("process", number)

    def object(self, name):
        """What a handle names, and which of its maker's objects that is, where the number doesn't tell it."""
        return (*self.row(name), *(f" ({it})" for it in birth(self, name) if name in self.called))


def listed(cells, between=", "):
    """Cells one behind the other, with a text between two."""
    found = []
    for cell in filter(None, cells):
        found += [between, *cell] if found else cell
    return tuple(found)


# One value.


def text(_, value):
    return (shown(str(value)),)


def flag(_, value):
    return ("yes" if value else "no",)


def birth(_, name):
    """Who made an object, and as which of all things that it made; of a directive's the number tells it."""
    made = shown(name.partition(" ")[2])
    return () if made.startswith("0.") else (made,)


def ended(_, live):
    return () if live else ("ended",)


def code(_, value):
    return (statuses.code_with_name(value),)


def data(_, digits):
    """Bytes as digits, four together, with the text that they spell."""
    found = bytes.fromhex(digits)
    if not found:
        return ("none",)
    spelled, more = describe.text_of(found), " .." if len(found) > MOST_BYTES else ""
    return (f"{found[:MOST_BYTES].hex(' ', -4)}{more}" + (f' "{inputs.cut(spelled, MOST_BYTES)}"' if spelled else ""),)


def stretches(_, digits):
    """The bytes of a section, but for its long zeros, each with the place where it begins."""
    found = []
    for stretch in STRETCH.finditer(bytes.fromhex(digits)):
        if len(found) == MOST_STRETCHES:
            return listed([*found, ("..",)], "; ")
        found.append((f"from {stretch.start()}: {data(_, stretch[0].hex())[0]}",))
    return listed(found, "; ") or ("zeros",)


# Values of several parts.


def user(_, token):
    return (shown(token["user"]),)


def groups(_, token):
    return (shown(", ".join(token["groups"])),) if token["groups"] else ()


def token_of(book, token):
    """A token in one cell."""
    return listed([user(book, token), ("groups ", *groups(book, token)) if token["groups"] else ()], "; ")


def level(_, number):
    name = describe.LEVELS.get(str(number))
    return (f"{number} ({name})" if name else str(number),)


def leveled(book, given):
    """A token, and the level at which it lets a thread act."""
    at = () if given["level"] is None else ("level ", *level(book, given["level"]))
    return listed([token_of(book, given["token"]), at], "; ")


def security(book, given):
    """An access list, or what a client allows its server."""
    if "dacl" in given:
        entries = [_entry(it) for it in given["dacl"]]
        return listed([("list: ", *(listed(entries, "; ") or ("nobody",)))])
    client = ("connected as ", *leveled(book, given["connected_as"]))
    return listed([("level ", *level(book, given["level"])), (f"{shown(given['tracking'])} tracking",), client], "; ")


def _entry(it):
    return (f"{'allow' if it['allow'] else 'deny'} {shown(it['mask'])} to {shown(it['sid'])}",)


def context_of_end(_, value, kind):
    """The context of a connection, which other ports have none of."""
    return (shown(value),) if kind in ENDS else ()


def completed(_, value, kind):
    return flag(_, value) if kind in ENDS else ()


def creator(book, it):
    """The connect that made a port, as a message of it is named."""
    return (*book.process(it["process"]), ".", *book.numbered("thread", it["thread"]), f".{it['identifier']}")


def leads(book, found, port, target):
    """What a name leads to: a link's target is the name of another row, where that is bound."""
    if found == "link":
        return ("link to ", Link(f"name {target}", shown(target)))
    return book.row(port) if found == "port" else (shown(found),)


def queue_beside(book, queue, port):
    """The queue of a wait, where it isn't that of the port itself."""
    return () if queue == port else book.row(queue)


def sizes(_, kind, size, whole, ranges, section):
    """What a header tells beside the names, where it isn't what each message has."""
    told = [] if kind in message.TYPES else [f"type {kind}"]
    told += [f"MessageSize {whole}"] if whole != message.HEADER_SIZE + size else []
    told += [f"range table at {ranges}"] if ranges else []
    return (", ".join(told + ([f"SectionSize {section}"] if section else [])),) if told or section else ()


def awaited(book, what, identifier, received, sent, offer, accepted, raised):
    """What a wait is for."""
    if what not in AWAITED:
        return (f"a {shown(what)}",)
    told = [(f"{AWAITED[what].format(identifier)}, {'received' if received else 'not received'}",)]
    told += [("sent ", *data(book, sent["data"]))] if sent and sent["data"] else []
    told += [_offered(book, offer)] if offer else []
    told += _completed(book, accepted) if accepted else []
    told += _exception(book, raised) if raised else []
    return listed(told, "; ")


def _offered(book, it):
    return ("offers ", *book.row(it["section"]), f" from {it['offset']}, {it['size']} bytes")


def _completed(book, it):
    """What the client of an accepted connect is to be told."""
    reply = [("answer ", *data(book, it["info"]))] if it["info"] else []
    return reply + [(told.format(it[key]),) for key, told in PLACES.items() if it[key] is not None]


def _exception(book, it):
    handled = "handled" if it["handled"] else "unhandled"
    return [code(book, it["code"]), (f"{handled} by frame handlers",), (f"chance: {shown(it['chance'])}",)]
