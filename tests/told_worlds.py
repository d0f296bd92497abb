"""What docs/STATES.md tells of rows and keys, and docs/VIEWS.md, docs/CLOSING.md, docs/RESIDENT.md and docs/SECURITY.md
of what stays and goes, against the definitions and scripts of the suite."""
import re

import definitions
import pages
from pages import CODE, table_of, tables
from told import handles_behind, stands, suite_told

# How docs/STATES.md calls what a definition prints.
SHAPES = {
    "decimal": "number", "hex": "hex", "flag": "true or false", "call_text": "text", "bytes_text": "bytes",
    "token_text": "token", "port_text": "name", "object_text": "name", "port_kind_text": "text", "path_text": "path",
    "listed port_text": "names in `[]`", "impersonation_text": "token with its level", "chance_text": "text",
    "offer_text": "`section`, `offset`, `size`: name, two numbers",
    "acceptance_text": "`info`, `target`, `vbase`, `vsize`: bytes, two hex, number",
    "raised_text": "`code`, `handled`, `chance`: hex, true or false, text",
    "creator_text": "`process`, `thread`, `identifier`: three numbers",
    "security_text": "`dacl`, or `level`, `tracking` and `connected_as`",
    "message_text": "the keys of a message from `type` on, in `{}`",
}
# The definitions of the rows, and those that print some keys of a row.
ROWS = (
    "process", "thread", "wait", "mark", "handle", "port", "message", "name", "section", "view", "token", "token_name",
)
PARTS = "awaited", "message_fields", "node_text"
# What a definition prints: a text, or what another definition makes of a value.
PIECE = re.compile(r'codes "((?:[^"\\]|\\.)*)"|(?:∷|\+\+)\s+(?!codes)(or_null |listed )?(\w+)(?= )')
# The keys that have keys inside, and what prints these.
INNER = {
    "offer": "offer_text", "accepted": "acceptance_text", "exception": "raised_text", "creator": "creator_text",
}
NUMBERS = {"two": 2, "three": 3, "eight": 8}
# A name of a row: what a definition prints of it, as a pattern.
PIECES = {
    "decimal": r"\d+", "birth_text": r"\d+\.\d+", "eight_digits": "[0-9a-f]{8}", "spelled": r"\w+",
    "path_text": r"(?:\\\\\w+)+",
}
# The views of a connection that go: what happens, which ports let theirs go, the definition that says so, and whether
# it is before the accept.
GOES = {
    "the connect is refused, or the connection port closes before the accept": (
        "client", (("refuse_steps", "DropsOwned a.wait.port"), ("end_offered", "DropsOwned x.port")), True,
    ),
    "the client's thread ends before the accept": ("client", (("end_client", "DropsOwned x.port"),), True),
    "the server port closes before the completion": (
        "client server", (("end_accepted", "DropsOwned x.port"), ("close_port", "drop_owned b")), False,
    ),
    "the client's thread ends before the completion": ("client", (("end_client", "DropsOwned x.port"),), False),
    "the server port closes, or the server's process ends": ("server", (("close_port", "drop_owned b"),), False),
    "the client port closes, or the client's process ends": ("client", (("close_port", "drop_owned b"),), False),
}
# What these rows say besides: why the views go, or how long they stay.
BECAUSE = {
    "the server port closes before the completion": (", since the connect ends", "", ""),
    "the client's thread ends before the completion": ("", " until the server port closes", ""),
}
# What may close of a debug port: it, its other end, its connection port.
CLOSERS = ("it", "other", "connection")
# What a server on a thread does next: by the names of the definitions the words of the last call's outcome.
DEEDS = {
    "Receives": ("there was none", None, "`NtReplyWaitReceivePort H`"),
    "AnswersConnect": (
        "it received a connection request", "CONNECTION_REQUEST", "`NtAcceptConnectPort P r:P.T.M: accept -`",
    ),
    "Completes": ("it accepted, and got the handle h", None, "`NtCompleteConnectPort h`"),
    "Closes": ("the completion was refused", "PORT_CLOSED", "`NtClose h`"),
    "RepliesTo": ("it received a request", "REQUEST", "`NtReplyWaitReceivePort H` with its reply"),
}
ANSWERS = """
call_for core w r (AnswersConnect by) =
    accept_connect_port by.client.process (made_message by.client by.identifier [])\
 (nat_lt (length r.connections) CONNECTION_LIMIT) None
"""
# The suite's case in which a client acts for somebody, and as itself again: of the lines that tell whom the server then
# acts for, which user it is. The first user is the client's own, the second one that for whom it acts.
CHANGES = "who-is-seen-after-the-client-took-a-token"
SEEN = ((29, "static", 1), (36, "dynamic", 2), (45, "static", 1), (52, "dynamic", 1))


def same(what, found, wanted):
    """The check that a page tells what is wanted."""
    return what, [] if found == wanted else [f"it tells {found}, wanted is {wanted}"]


def pieces(name, texts):
    """What a definition prints, in order: texts, and the names of what prints values."""
    for literal, many, printer in PIECE.findall(texts[name][1]):
        yield literal.replace('\\"', '"'), f"{many.replace('or_null ', '')}{printer}"


def keys_of(name, texts):
    """The keys that a definition prints, in order, each with what prints its value."""
    key = ""
    for literal, printer in pieces(name, texts):
        if printer in PARTS:
            yield from keys_of(printer, texts)
        elif printer and key:
            yield key, printer
            key = ""
        for found, value in re.findall(r'"(\w+)":"?([^",]*)', literal):
            if value:
                yield found, "call_text"
            key = "" if value else found


def shapes(cell, count):
    """The shapes that a cell names, one for each of so many keys."""
    found = []
    for part in re.split(r"; |, ", re.sub(r"(?<!true) or (?!false)", ", ", cell)):
        number, _, shape = part.partition(" ")
        times = NUMBERS.get(number, 0)
        found += [shape.removesuffix("s")] * times if times else [part]
    return found * count if len(found) == 1 else found


def keys():
    """The table of keys: of each row its keys in the order of the definitions, and the shape of each."""
    texts, found, row = definitions.bodies("lpc_states"), {}, ""
    for first, named, shape, _ in table_of("STATES.md", "Row", "Key", "Shape"):
        row = first or row
        names = CODE.findall(named)
        whole = shape in SHAPES.values() and ("`" in shape or " with " in shape)
        found.setdefault(row, []).extend(zip(names, [shape] if whole else shapes(shape, len(names))))
    last = "process, thread, port, section, token"
    yield same("STATES.md: the rows", list(found), [*ROWS, last])
    for name in ROWS:
        wanted = [(key, SHAPES[printer]) for key, printer in keys_of(f"{name}_row", texts)]
        # Each of the keys of what a wait is for stands once, and so does that of a name.
        wanted = list(dict.fromkeys(wanted))
        yield same(f"STATES.md: the keys of a {name}", found.get(name), wanted)
    counted = [name for name in ROWS if "counts w" in texts[f"{name}_row"][1]]
    yield same("STATES.md: which rows are counted", ", ".join(counted), last)
    yield same("STATES.md: how they are", found[last], [(key, "number") for key, _ in keys_of("counts", texts)])
    yield from texts_of_keys(texts)


def texts_of_keys(texts):
    """The texts that a key may have, and the keys inside of others, as the page names them."""
    cells = {row[1]: row[2:] for row in table_of("STATES.md", "Row", "Key", "Shape")}
    literals = lambda name: re.findall(r'\\"([a-z ]+)\\""', texts[name][1])
    waits = re.findall(r'\\"for\\":\\"([a-z ]+)\\"', texts["awaited"][1])
    yield same("STATES.md: what a wait is for", set(CODE.findall(cells["`for`"][1])), set(waits))
    chances = CODE.findall(cells["`exception`"][1])
    yield same("STATES.md: the chances", chances, literals("chance_text"))
    (kinds,) = (row[3] for row in table_of("STATES.md", "Row", "Key", "Shape") if row[1] == "`kind`")
    yield same("STATES.md: the kinds of port", CODE.findall(kinds), literals("port_kind_text"))
    nodes = re.findall(r'\\"is\\":\\"([a-z]+)\\"', texts["node_text"][1])
    yield same("STATES.md: what a name leads to", CODE.findall(cells["`is`, then `port` or `target`"][1]), nodes)
    for key, name in INNER.items():
        inner, cell = list(keys_of(name, texts)), cells[f"`{key}`"][0]
        told = list(zip(CODE.findall(cell), shapes(cell.partition(": ")[2], len(inner))))
        yield same(f"STATES.md: the keys in {key}", told, [(it, SHAPES[printer]) for it, printer in inner])
    inner = [it for name in ("security_text", "allowed_text") for it, _ in keys_of(name, texts)]
    yield same("STATES.md: the keys in security", CODE.findall(cells["`security`"][0]), inner)
    entry = [it for it, _ in keys_of("ace_text", texts)]
    named = [it for it in CODE.findall(cells["`security`"][1]) if it in entry]
    yield same("STATES.md: the keys in an entry", named, entry)
    tracked = [it for it in CODE.findall(cells["`security`"][1]) if it not in (*entry, "[]")]
    yield same("STATES.md: the tracking", tracked, literals("tracking_text"))


def pattern_of(name, texts):
    """A pattern for the name of a row: what its definition prints up to the quote that ends it."""
    found = ""
    for literal, printer in pieces(name, texts):
        if found and '"' in literal:
            break
        found += PIECES[printer] if printer else re.escape(literal.lstrip('"'))
    return found


def names():
    """The table of the names of rows: each is as its definition prints it."""
    texts = definitions.bodies("lpc_states")
    rows = table_of("STATES.md", "Name", "The row of")
    told = [CODE.findall(row[0])[0].split()[0] for row in rows]
    others = {"process", "thread", "port", "section", "token"}
    yield same("STATES.md: the names", sorted(told), sorted({*ROWS} - others))
    for name, row_of, _ in rows:
        (text,) = CODE.findall(name)
        kind = text.split()[0]
        pattern = pattern_of("message_name" if kind == "message" else f"{kind}_row", texts)
        wrong = [] if re.fullmatch(pattern, text) else [f"it is printed as {pattern}"]
        # What the words say of numbers is said of those of the name, parted or whole; 0 is that of what sent nothing.
        known = {*re.findall(r"\d+", text), *re.findall(r"\d+\.\d+", text), "0"}
        numbers = re.findall(r"\d+\.\d+|\b\d+\b", CODE.sub("", row_of))
        wrong += [f"it names {it}" for it in numbers if it not in known]
        yield f"STATES.md: the name {text}", wrong
    begins = table_of("STATES.md", "It begins", "What it says")
    lines = [line for _, body in texts.values() for line in body.splitlines() if "told_as n (" in line]
    words = [it for line in lines for it in re.findall(r'codes "(\w+)"', line)]
    found = [re.search(r'"line":\d+,"(\w+)":', row[0])[1] for row in begins]
    yield same("STATES.md: how rows begin", sorted(found), sorted(words))
    behind, every = {word: row[2].partition(",")[0] for word, row in zip(found, begins)}, "all its keys"
    yield same("STATES.md: what is behind", behind, {"came": every, "changed": every, "went": "nothing"})


def going():
    """The table of docs/VIEWS.md on what goes when: by whose port each view is owned, and which ports let theirs go."""
    texts = definitions.bodies("lpc_model")
    rows = {row[0]: row[1:] for row in table_of("VIEWS.md", "What happens", "The client's two views")}
    for what, (lets_go, places, before) in GOES.items():
        wrong = [f"{name} doesn't have {text}" for name, text in places if text not in texts[name][1]]
        yield f"VIEWS.md: {what} is defined so", wrong
        goes = ["goes" if before else "both go", "both stay"]
        client = goes["client" not in lets_go.split()]
        server = goes["server" not in lets_go.split()]
        wanted = [f"its own {client}", "there are none", "ends"] if before else [client, server, ""]
        if what in BECAUSE:
            wanted = [f"{it}{why}" for it, why in zip(wanted, BECAUSE[what])]
        yield same(f"VIEWS.md: {what}", rows.get(what), wanted)
    yield same("VIEWS.md: an accept", rows.get("the connect is accepted"), ["the server's comes", "both come", "ends"])
    one = ["that one goes", "that one goes", "stays"]
    yield same("VIEWS.md: an unmap", rows.get("a process unmaps one of them"), one)
    others = {"the connect is accepted", "a process unmaps one of them"}
    yield same("VIEWS.md: what happens", sorted(rows), sorted({*GOES, *others}))


def queue_of_kind(kind):
    """Whose queue a message enters that is sent on a port of a kind: `it`, `other` or `connection`."""
    cases = dict(re.findall(r"^  \| (\w+) ↦ (.*)$", definitions.bodies("lpc_model")["way"][1], re.M))
    way = cases.get(kind, cases["_"])
    return "connection" if "p.connection" in way else "other" if "p.pair" in way else "it"


def marked(kind, closed):
    """Which events of a debug port go on when a port closes, as docs/CLOSING.md tells it."""
    queue, found = queue_of_kind(kind), []
    if closed == "it":
        found.append("its events go on in the order of sending")
    elif closed == queue:
        found.append(f"those in the {'connection' if queue == 'connection' else 'client'} port's queue go on")
    if closed == "other":
        found.append("and behind them what was received" if found else "the same")
    elif closed == "connection" and found:
        return f"{found[0]}; what was received stays, and is answered through the server port"
    return ", ".join(found) or "all stay"


def closings():
    """The tables of docs/CLOSING.md on events, and on what holds a closed port."""
    texts = definitions.bodies("lpc_model")
    order = re.findall(r"\w+(?= b\b)", texts["close_port"][1].partition("=")[2])
    events = re.compile(r"is_event_on|is_queued_event|is_event_across")
    steps = [it for name in order for it in events.findall(texts[name][1])]
    yield same("the events of a closing", steps, ["is_event_on", "is_queued_event", "is_event_across"])
    rows = table_of("CLOSING.md", "The debug port is", "It closes")
    alone = [marked("Unnamed", "it"), "", ""]
    wanted = [["an unnamed or a connection port", *alone]]
    wanted += [[f"a {it.lower()} port", *(marked(it, closed) for closed in CLOSERS)] for it in ("Client", "Server")]
    yield same("CLOSING.md: the events of a debug port", rows, wanted)
    first, then, last = table_of("CLOSING.md", "First", "Then", "Last")[0]
    yield same("CLOSING.md: first", first, "the wakes of the steps, in the order of the steps")
    for what, cell, words in (
        ("then", then, ["in the order in which they were marked", "a wake with 00000000"]),
        ("last", last, ["the least number first", "these go on before the next process ends"]),
    ):
        yield f"CLOSING.md: {what}", [f"it doesn't say {it}" for it in words if it not in cell]
    queues = {"connection": "the connection port's queue", "other": "the client port's queue"}
    ends = {"Client": "its datagrams, its end, and ends of threads that were told on it",
            "Server": "its datagrams, and ends of threads that were told on it"}
    closes = {"connection": "the connection port closes", "other": "the client port closes"}
    yield same("CLOSING.md: who is told of a closing", "is_client_port p && p.completed" in texts["server_of"][1], True)
    wanted = [
        ["unnamed port", "nothing", "at once"],
        ["connection port", "its client and server ports, also those that are closed and still stand",
         "the last of these goes"],
        *([f"{it.lower()} port", f"{ends[it]}, in {queues[queue_of_kind(it)]}",
           f"they are received, or {closes[queue_of_kind(it)]}"] for it in ("Client", "Server")),
    ]
    yield same("CLOSING.md: what holds a closed port", table_of("CLOSING.md", "Closed", "Still held by"), wanted)


def next_calls():
    """The table of docs/RESIDENT.md on next calls, and that of the two lines, which says what docs/SERVICES.md does."""
    texts, numbers = definitions.bodies("lpc_model"), definitions.numbers_of("lpc_message")
    calls = dict(re.findall(r"^call_for core w r \(?(\w+)[^=]*=\s+(\w+)", texts["call_for"][1], re.M))
    deeds = re.findall(r"kind == (\w+) then \(?(\w+)", texts["deed_for"][1].replace("closing", "Closes"))
    kinds = {deed: kind for kind, deed in deeds}
    yield same("what a server does next", list(calls), list(DEEDS))
    yield from stands("lpc_model", ANSWERS, "the answers to connects")
    rows = table_of("RESIDENT.md", "What came of its own last call", "Its next call")
    for (came, then), (deed, (words, kind, call)) in zip(rows, DEEDS.items()):
        wrong = [] if came.startswith(words) else [f"it tells {came}, wanted is {words}"]
        types = re.findall(r"\(type (\d+)\)", came)
        wrong += [f"its types are {types}"] * (types != [str(numbers[it]) for it in [kinds.get(deed)] if it])
        wrong += [f"it is {kinds.get(deed)}"] * (kinds.get(deed) != kind)
        name = definitions.camel(f"nt_{calls[deed]}")
        wrong += [f"it calls {name}"] * (CODE.findall(call)[0].split()[0] != name or not then.startswith(call))
        yield f"RESIDENT.md: {words}", wrong
    yield same("RESIDENT.md: how many next calls", len(rows), len(DEEDS))
    services = dict((row[0], row[1]) for row in table_of("SERVICES.md", "Line", "Refusals in their order"))
    for line, answer in table_of("RESIDENT.md", "Line", "Answer"):
        refusals = re.findall(r"([0-9A-F]{8}): ([^.;]*)", services[line])
        causes = [(it, cause.replace(",", ",?").replace("that thread", "(that thread|it)")) for it, cause in refusals]
        missing = [f"it doesn't say {it}: {cause}" for it, cause in causes
                   if not re.search(f"`{it.lower()}` where {cause}(?:;| )", answer)]
        success = "else `00000000`" if "resident" in line else "`busy` where the thread waits; else the entries"
        yield f"RESIDENT.md: {line}", missing + [f"it doesn't say {success}"] * (success not in answer)


def requests():
    """The table of docs/RESIDENT.md on apis: their numbers, the statuses that each may answer, in order, and which one
    does what another one does."""
    texts, statuses = definitions.bodies("lpc_subsys"), definitions.profile()[1]
    apis = dict(re.findall(r"api == (\d+) then (\w+)", texts["asked_by"][1]))
    replies = dict(re.findall(r"^reply_by known texts console level \(?(\w+).*? = (.*)$", texts["reply_by"][1], re.M))
    asks = {api: next(it for it in replies if re.search(rf"\b{it}\b", texts[name][1])) for api, name in apis.items()}
    rows = {row[0]: row[1:] for row in table_of("RESIDENT.md", "Api", "Arguments")}
    yield same("RESIDENT.md: the apis", list(rows), list(apis))
    for api, name in apis.items():
        # A number that is out of bounds, or a part of a view that isn't there, asks for nothing.
        bounded = re.search(r"part_of_view|nat_le \(word_at", texts[name][1])
        wanted = [statuses["INVALID_PARAMETER"]] * bool(bounded)
        wanted += [statuses[it] for it in re.findall(r"granted_or (\w+)", replies[asks[api]])]
        told = re.findall(r"[0-9A-F]{8}", rows[api][2])
        told = [it for at, it in enumerate(told) if it not in told[:at]]
        yield same(f"RESIDENT.md: what api {api} refuses", told, list(dict.fromkeys(wanted)))
        others = [it for it, what in asks.items() if what == asks[api] and int(it) < int(api)]
        found = re.findall(r"as with (\d+)", " ".join(rows[api]))
        yield same(f"RESIDENT.md: as what api {api} is", sorted(set(found)), others)
    nothing = [api for api, name in apis.items() if "length arguments == 0" in texts[name][1]]
    yield same("RESIDENT.md: what takes nothing", [it for it, row in rows.items() if row[0] == "nothing"], nothing)


def holders():
    """The tables of docs/CLOSING.md on what holds a port: as many as it tells, and threads and handles of its example
    that do what is told of them."""
    script, transcript = pages.example("closing-client")
    front = [it.split() for it in script[:20]]
    asked = {it[0] for it in front if it[1:2] == ["NtRequestWaitReplyPort"]}
    sent = {it[0] for it in front if it[1:2] == ["NtRequestPort"]}
    _, handles = handles_behind(script, transcript, 21)
    text = (pages.DOCS / "CLOSING.md").read_text(encoding="utf-8")
    for _, head, rows in tables(text):
        for port, held, count in rows if head == ["Port", "Held by", "Pointers"] else ():
            parts = [it for part in held.split("; ") for it in re.split(r",? and ", part)]
            wrong = [f"{len(parts)} do"] * (str(len(parts)) != count)
            for what, known in ("wait", asked), ("request", asked), ("datagram", sent):
                wrong += [f"{it} has none" for it in re.findall(rf"{what} of (\d+)", held) if it not in known]
            stand = {"connection port": ("20", 4), "server port": ("20", 8), "client port": ("32", 8)}[port]
            wrong += [f"it has handle {stand[1]}"] * (
                re.findall(r"handle (\d+)", held) not in ([], [str(stand[1])]) or stand[1] not in handles[stand[0]])
            yield f"CLOSING.md: what holds the {port}, {held[:30]}", wrong


def changing():
    """The row of docs/SECURITY.md on a client that acts for somebody, against the suite's case of that."""
    cases = dict(re.findall(r"^  \| (Static|Dynamic) ↦ (\w+)", definitions.bodies("lpc_model")["tracked"][1], re.M))
    yield same("tracking is defined so", cases, {"Static": "kept", "Dynamic": "acting_token"})
    for line, tracking, user in SEEN:
        told = suite_told(CHANGES, line).rpartition("=")[2]
        yield same(f"line {line} of {CHANGES}, {tracking}", told, f"S-1-5-21-{user}")
    rows = {row[0]: row[1:] for row in table_of("SECURITY.md", "Then", "The server's thread acts")}
    wanted = ["as before", "with its next request, by the tracking"]
    told = rows.get("the client acts for somebody, or as itself again")
    yield same("SECURITY.md: a client that changes", told, wanted)


GROUPS = keys, names, going, closings, next_calls, requests, holders, changing


def checks():
    """All checks: each with its name and what it found wrong."""
    for group in GROUPS:
        yield from group()
