"""What the tables of docs/SERVICES.md tell of ports, messages, limits, counts and steps, against the definitions."""
import re

import definitions
import pages
from definitions import profile
from pages import CODE, STATUS, table_of, tables
from told import stands

PAGE = "SERVICES.md"
# How the page calls the queue that a message enters, or from which a port receives, by what the definitions say of it.
QUEUES = {
    "Some p.birth": "its own queue",
    "if_open w (Some p.birth)": "its own queue",
    "if_open w p.connection": "the queue of its connection port",
    "if_open w (if is_cut p then None else p.connection)": "the queue of its connection port",
    "if_open w p.pair": "the queue of the client port that it is joined to",
}
CONTEXTS = {"0": "0", "if is_cut p then 0 else p.context": "the CTX that its connect was accepted with"}
# By which words a call makes a port of a kind, where it makes several.
MAKERS = {
    "Unnamed": "`NtCreatePort -`",
    "Connection": "`NtCreatePort NAME`",
    "Client": "`NtConnectPort`",
    "Server": "`NtAcceptConnectPort .. accept ..`",
}
# Of what the machine writes: the definitions that say who is named and by which identifier, with how the page calls
# them. A message whose definition writes none of the two keeps what it was given.
WRITTEN = {
    "that is sent (datagram, request)": (
        "sent_by w", "sent_as kind (client_of by) by.next_identifier m",
        "the sending thread", "the identifier that it drew", "0",
    ),
    "a reply, as the waiting thread gets it": (
        "as_reply", "{ kind = REPLY; section_size = 0 }", "as given", "as given", "0",
    ),
    "a connection request, made by the machine": (
        "connection_request", "made CONNECTION_REQUEST (client_of by) by.next_identifier bytes",
        "the connecting thread", "the identifier that it drew",
        "the size of the view that the connect offers, 0 without one",
    ),
    "a client port's end, made by the machine": (
        "closed_message", "made PORT_CLOSED by.client by.identifier (birth_bytes b)",
        "the thread that connected", "the identifier of its connect", "0",
    ),
    "a thread's end, made by the machine": (
        "end_message", "made CLIENT_DIED client 0 (birth_bytes birth)", "the thread that ended", "0", "0",
    ),
    "an event, made by the machine": (
        "send_event", "event_message (client_of t) t.next_identifier code h.chance",
        "the thread that raised", "the identifier that it drew", "0",
    ),
}
# The parts of the page that tell of one such message, with the definition of its data.
PARTS = {
    "Events": ("an event, made by the machine", "event_message"),
    "Port closed": ("a client port's end, made by the machine", "birth_bytes"),
    "Client died": ("a thread's end, made by the machine", "birth_bytes"),
}
SENT = "as with any message that is sent on that port: for a client port the CTX that its connect was accepted with,"
SENT += " else 0"
CONTEXT_OF = {"Events": SENT, "Port closed": "the CTX that the connect was accepted with", "Client died": SENT}
DATA = {
    "Events": "CODE, and the chance, 1 or 2; low bytes first",
    "Port closed": "that thread's number, and which of the things that this thread has made the client port was, from "
    "1; low bytes first",
    "Client died": "for a thread that a call made, the number of the thread that made it, and which of the things that "
    "this one has made it was, from 1; for a thread of a directive 0, and the number of the thread itself; low "
    "bytes first",
}
# How the page calls the views that an accept maps, by their names in the definitions, and the words there.
VIEWS = {"own": "the server's own", "theirs": "the client's", "across": "the server's"}
SIDES = {"by.process": "the server", "x.process": "the client"}
OWNERS = {"(next_birth by)": "the server port", "x.port": "the client port"}
OFFERED = {"offer": "VIEW is given", "(offer_of x)": "the client offered one"}
# Where the limit of handles is tested: how the page tells of each call.
HANDLE_CREATED = {
    "NtCreatePort": "a port",
    "NtCreateSection": "a section",
    "NtCreateProcess": "a process",
    "NtCreateThread": "a thread",
}
HANDLE_TESTED = {
    "NtOpenThreadToken": "where a token is opened",
    "NtOpenProcessToken": "where a token is opened",
    "NtDuplicateObject": "where a handle is duplicated",
    "NtConnectPort": "where a connect begins (of the client)",
    "NtAcceptConnectPort": "where one is accepted (of the server)",
}
VIEW_TESTED = {
    "NtMapViewOfSection": "where a view is mapped",
    "NtConnectPort": "where a connect offers one (of the client)",
    "NtAcceptConnectPort": "where a connect is accepted (of the server for its own view and the client's, of the "
    "client for the server's)",
}
COMPLETING = "Completing tests nothing: the client's handle was counted while it waited"
# What each limit counts: of the rest of a row the sentence, with the definition that says so.
COUNTED = (
    ("handles of a process", "its handles, and its threads that wait in a connect, accepted or not.",
     "handle_load w pid = length (handles_of w pid) + count (is_connect_of pid) w.waits"),
    ("datagrams of a port", "those that were sent on that port and still stand in a queue, whoever sent them. One "
     "that a waiting thread takes at once never counts",
     "is_datagram_of b m = same_birth m.sender b && (m.message.header.kind == DATAGRAM)"),
    ("bytes of a message", "header and data, by the message's own MessageSize",
     "refuse_if (nat_lt MESSAGE_LIMIT (header_of bytes).message_size) PORT_MESSAGE_TOO_LONG"),
    ("live threads", "those that have ended don't count, though their numbers stay used, and their rows stay where a "
     "handle names them", "lives_in pid t = (t.process == pid) && t.live"),
    ("live children", "live processes that one of its threads made by `NtCreateProcess`, also where it has no "
     "handle to them any more. Those that have ended don't count, nor does what a child or a directive made",
     "is_live_child w pid p = passes p.maker (λ m. m == pid) && is_live w p.number"),
    ("ports of a thread", "those that it has registered, closed ones too. One that stands among them already is no "
     "further one",
     "refuse_if (not (is_registered b by) && nat_le REGISTRATION_LIMIT (length by.registrations)) QUOTA_EXCEEDED"),
    ("of a section", "in whole pages. All those count that one of its threads made and that stand, whoever names them",
     "is_section_of pid s = s.birth.process == pid"),
    ("views of a process", "those that stand, whether it mapped them itself or a connection did.",
     "view_count_test w pid = refuse_if (nat_le VIEW_LIMIT (length (views_of w pid))) QUOTA_EXCEEDED"),
)
TRANSFERS = ("NtReadVirtualMemory", "NtReadRequestData", "NtWriteVirtualMemory", "NtWriteRequestData")
# What counts for an object, by the predicates of the definition: the first cell of its row.
HOLDERS = {
    "is_paired_to": "a port whose other end it is",
    "is_connected_to": "a client or server port whose connection port it is",
    "is_sent_on": "a queued message that was sent on it",
    "is_made_on": "a wait that was made on it",
    "all_registrations": "a live thread that registered it",
    "is_owned_by": "a view that it owns",
    "event_ports": "a live process whose debug port it is, and one whose exception port it is",
    "shows_section": "a view that shows it",
    "offers_section": "a connect that waits, offers it and isn't accepted",
    "lives_by": "a live thread of it",
    "is_life": "the thread itself, while it lives",
}
TOKENS = "So both numbers are the same; that a thread acts with a token of that content counts for none. "
# The messages of the definitions that are queued and sent on a port, and its waits, as these rows name them.
QUEUED = {
    "REQUEST": "a request", "DATAGRAM": "a datagram", "PORT_CLOSED": "a client port's end",
    "CLIENT_DIED": "a thread's end", "EXCEPTION": "an event", "DEBUG_EVENT": "an event",
}
WAITING = {
    "Request": "a request", "Receive": "a receive", "Listen": "a listen", "Event": "an event",
    "Connect": "a connect for its client port", "Accepted": "a connect for its client port",
}
# How many each row names: of one row of the definitions.
COUNTS_ONCE = {
    "a port whose other end it is": "1 for a client and a server port whose pair isn't cut",
    "a live process whose debug port it is, and one whose exception port it is": "2 for a process of which it is both",
    "a live thread that registered it": "1 for each such thread, however often it did",
    "a view that it owns": "2 for a client and for a server port where both sides offered one. It counts no longer "
    "once it is unmapped",
    "a view that shows it": "1 for each, in whichever process, also where two show the same part",
    "a handle to it": "those of duplicates too",
    "a client or server port whose connection port it is": "also one that is closed and still stands, and that of a "
    "connect that waits",
    "a connect that waits, offers it and isn't accepted": "1 beside the view that it has mapped, received or not",
    "a live thread of it": "1 for each, also where it waits",
    "the thread itself, while it lives": "so a live one has one more than handles, and one that has ended as many",
}
# The steps of a closing: of each its name, and what ends by each predicate, in the page's words.
CLOSING = (
    ("its name", {"drop_name": "the name of a connection port"}),
    ("waits", {"is_receiver": "receives and listens that were made on the port, or that wait on its queue"}),
    ("requests and events sent on it", {
        "is_request_on": "requests of the threads that asked on the port, received or not",
        "is_event_on": "events that were sent on it, received or not, in the order of sending",
    }),
    ("its queue", {
        "is_queued_request": "the requests that stand in it, in the order of the queue",
        "is_queued_event": "the events that stand in it, in the order of the queue",
        "is_offered_to": "connects that wait for the port and aren't accepted, received or not, behind the requests",
        "Empties": "all other messages in it",
    }),
    ("the other end", {
        "is_request_across": "requests sent on the other end, received or not",
        "is_event_across": "events sent on the other end, received or not, in the order of sending",
        "is_receive_across": "receives on the other end, where that is a client port",
        "is_accepted_across": "a connect of this pair that isn't completed",
        "Cuts": "the pair",
    }),
    ("port closed", {"post_closed": "nothing"}),
    ("views", {"drop_owned": "the views that the port owns and that weren't unmapped"}),
)
# What stands behind a status, and behind what is done: it follows from the predicate that is named here.
BEHIND = {
    "drop_name": ", and it can be made anew. Directories and links stay",
    "is_receiver": ". A server port has no queue of its own: receives on its connection port's queue that were made on "
    "other ports wait on. A connection port ends those made on its server ports too",
    "is_request_on": ". What is still queued is taken out",
    "is_event_on": ". What is still queued is taken out",
    "is_offered_to": ", oldest first",
    "is_request_across": ". What is still queued is taken out",
    "is_event_across": ". What is still queued is taken out",
    "is_receive_across": ". They wait, so its queue is empty, and nothing can come any more",
    "post_closed": ", that one's queue is told",
    "drop_owned": ". A section that they alone showed goes",
}
# How a step begins to tell what it does, where that has no status.
DOES = {
    "drop_name": "nothing stands there any longer",
    "mark_event": "they are marked",
    "Empties": "nobody is told",
    "Cuts": "it is cut",
    "post_closed": "where it is a client port of a completed connection and its connection port is open",
    "drop_owned": "nobody is told",
}
# The steps of an ending: of each row how it ends, with the names of statuses; and their definitions.
ENDING = (
    ("died", "the threads, in the order in which they were made",
     "an entry `died` for each, with the code, behind the answer of the call. That of the caller stands among them, "
     "and then there is no answer"),
    ("waits", "a request of such a thread",
     "without a wake. What is queued is taken out; one that was received finds no reply any more, since no such client "
     "lives ({INVALID_CID})"),
    ("waits", "a connect of such a thread",
     "without a wake. What is queued is taken out, and one that was received can't be accepted or refused any more "
     "({INVALID_CID}). Where it was accepted, the pair is cut: the server port stays, and so does who receives on it, "
     "but it can't be completed ({PORT_DISCONNECTED}). The client port goes at the end of the line. The views that it "
     "owns go; those of the server port stay until that one closes"),
    ("waits", "a receive or a listen of such a thread", "without a wake; it takes no message any more"),
    ("waits", "an event of such a thread",
     "without a wake, and its exception with it, which dooms nobody any more. What is queued is taken out, and one "
     "that was received finds no reply any more ({INVALID_CID})"),
    ("client died", "the registrations of such a thread, thread by thread in the same order, port by port in the order "
     "of registration",
     "on each port that is open and on which a message has a way, the thread's end is told. The registrations go"),
    ("handles", "where no live thread of the process is left, its handles, those with lower values first. Before them "
     "its debug and exception ports are let go",
     "each is closed as by `NtClose`. Where it was the port's last one, all that [Closing a port](#closing-a-port) "
     "tells is done before the next handle is closed. A process or a thread that it names lives on"),
    ("views", "where no live thread of the process is left, those of its views that no port owned",
     "nobody is told. A section that they alone showed goes"),
)
DYING = """
dying code tid w = (doing (Dies tid code ∷ Withdraws tid ∷ []) ▹ end_client (wait_of w tid)) w
"""
END_CLIENT = """
    provided (λ w. is_accepted x) (cut_pair x.port) ▹ provided (λ w. is_connect x) (doing (DropsOwned x.port ∷ []))
"""
END_THREADS = """
end_threads pid code threads =
    in_turn (die code) threads
    ▹ in_turn post_deaths threads
    ▹ provided (λ w. not (is_live w pid)) (end_process pid)
"""
END_PROCESS = """
end_process pid = doing (LetsGo pid ∷ []) ▹ close_handles pid ▹ doing (DropsViewsOf pid ∷ [])
"""

# What a raise does by the first chance, and which reply continues an exception.
RAISED = """
raise_steps by code handled Handled = doing (Tells (Answer by.number call.Raise SUCCESS []) ∷ [])
raise_steps by code handled (Heard h) =
    doing (raise_told by ∷ []) ▹ send_event by code handled h
raise_steps by code handled Unhandled = doing (Dooms by.process code ∷ [])
"""
CONTINUES = "bytes_eq (take 4 (take m.header.data_size m.body)) (little_bytes 4 DBG_CONTINUE.0)"


def same(what, found, wanted):
    """The check that a page tells what is wanted."""
    return f"{PAGE}: {what}", [] if found == wanted else [f"it tells {found}, wanted is {wanted}"]


def cases(name, texts):
    """The cases of a definition by the kind of a port, by their names; `_` stands for the others."""
    return dict(re.findall(r"^  \| (\w+) ↦ (.*)$", texts[name][1], re.M))


def reached(name, texts, found=None):
    """The definitions that one names, and those that they name."""
    found = set() if found is None else found
    for word in re.findall(r"\w+", texts[name][1]):
        if word in texts and word not in found:
            found.add(word)
            reached(word, texts, found)
    return found


def ports():
    """The table of the kinds of port: by what they are made, and where what is sent on them goes."""
    texts = definitions.bodies("lpc_model")
    states = definitions.text_of("lpc_states", "specs", "antt")
    kinds = re.findall(r'^port_kind_text (\w+) = codes "\\"(\w+)\\""$', states, re.M)
    ways, queues, contexts = (cases(it, texts) for it in ("way", "queue_of", "context_of"))
    calls, _ = definitions.services()
    rows = table_of(PAGE, "Kind", "Made by")
    yield same("the kinds of port", [row[0] for row in rows], [name for _, name in kinds])
    for (kind, name), (_, made, enters, receives, context) in zip(kinds, rows):
        wanted = [QUEUES[them.get(kind, them["_"])] for them in (ways, queues)]
        wanted.append(CONTEXTS[contexts.get(kind, contexts["_"])])
        yield same(f"a {name} port", [enters, receives, context], wanted)
        call = calls[CODE.findall(MAKERS[kind])[0].split()[0]]
        makes = re.compile(rf"new_port (?:\w+|\(.*?\)) {kind}\b")
        wrong = [] if any(makes.search(texts[it][1]) for it in reached(call, texts)) else [f"{call} makes none"]
        yield f"{PAGE}: what makes a {name} port", wrong + [f"it tells {made}"] * (made != MAKERS[kind])


def written():
    """The table of what the machine writes over, and the parts that tell of one such message."""
    texts = definitions.bodies("lpc_model")
    rows = {row[0]: row[2:] for row in table_of(PAGE, "Message", "type")}
    yield same("what the machine writes over", list(rows), list(WRITTEN))
    for name, (definition, text, client, identifier, section) in WRITTEN.items():
        found = text in texts[definition.split()[0]][1]
        yield f"{PAGE}: {name} is defined so", [] if found else [f"{definition} doesn't have {text}"]
        yield same(name, rows.get(name), [client, identifier, section])
    yield from stands("lpc_model", "with_section (offered_size offer)", "the size in a connection request")
    for heading, (name, data) in PARTS.items():
        _, _, client, identifier, _ = WRITTEN[name]
        parts = parts_of(heading)
        size = sum(map(int, re.findall(r"little_bytes (\d+)", texts[data][1])))
        named, _, then = parts.get("ClientId, MessageId", "").partition(", and ")
        cells = [parts.get("ClientId", named), parts.get("MessageId", then)]
        good = all(re.match(rf"{re.escape(it)}(?:,| as |$)", cell) for it, cell in zip((client, identifier), cells))
        wrong = [] if good else [f"it tells {cells}, wanted are {client}, {identifier}"]
        yield f"{PAGE}, {heading}: who is named", wrong
        yield same(f"the context in {heading}", parts.get("`ctx`"), CONTEXT_OF[heading])
        yield same(f"the data in {heading}", parts.get(f"data, {size} bytes"), DATA[heading])
    yield from stands("lpc_model", "context = p.context; message = closed_message by p.birth", "the context of an end")
    yield from stands("lpc_model", "directive_birth n pid = record { maker = 0; ordinal = n; process = pid }", "births")
    yield from stands("lpc_model", "next_ordinal = 1;", "the first thing that a thread makes")
    chances = cases("chance_number", texts)
    yield same("the numbers of the chances", sorted(chances.values()), ["1", "2"])


def table_below(heading, *head):
    """The rows of a table below a heading, whose head begins so."""
    text = (pages.DOCS / PAGE).read_text(encoding="utf-8")
    return next(rows for it, found, rows in tables(text) if it == heading and found[: len(head)] == list(head))


def parts_of(heading):
    """The table of a message's parts below a heading, by their names."""
    return dict(table_below(heading, "Part", "Value"))


def views():
    """The table of the views that an accept maps: their order, whose they are, and by which fields each is told."""
    texts = definitions.bodies("lpc_model")
    mapped = re.findall(
        r"(\w+) ← if_given \(view_test .*?(\w\w?\.process) (\(next_birth by\)|x\.port)\) (offer|\(offer_of x\))",
        texts["shared_test"][1],
    )
    # The fields of an accept by the views that it tells of, and those of a connect's wake.
    given = re.findall(r"\((?:base_of|size_of_view) v\.(\w+)\)", texts["shared_fields"][1])
    fields = re.findall(r"if_any (\w+) \w+", texts["accept_fields"][1])
    told = re.findall(r"(\w+) = (?:base_of|size_of_view) v\.(\w+)", texts["acceptance"][1])
    wanted = [
        [
            VIEWS[name], SIDES[process], OWNERS[owner], OFFERED[offer],
            ", ".join(f"`{field}`" for field, view in zip(fields, given) if view == name),
            ", ".join(f"`{field}`" for field, view in told if view == name),
        ]
        for name, process, owner, offer in mapped
    ]
    yield same("the views that an accept maps", table_of(PAGE, "View", "In the process of"), wanted)


def listed(words):
    """Words in a row, the last one behind an `or`."""
    *front, last = words
    return f"{', '.join(front)} or {last}"


def testing(test):
    """The calls that make a test: those whose own tests, or the tests that these make, name it."""
    texts = definitions.bodies("lpc_model")
    refusing = {it: body for it, body in texts.items() if re.search(r"\bResult\b.* Status$", body[0])}
    calls = definitions.services()[0].items()
    tests = {call: {name, *reached(name, refusing)} for call, name in calls}
    return [call for call, names in tests.items() if any(re.search(rf"\b{test}\b", texts[it][1]) for it in names)]


def limits():
    """The right column of the table of limits: what each counts, and which calls test it."""
    rows, texts = dict(table_of(PAGE, "Limit")), definitions.text_of("lpc_model", "specs", "antt")
    cells = lambda part: next(cell for limit, cell in rows.items() if part in limit)
    for part, sentence, text in COUNTED:
        told = cells(part).partition(" Tested ")[0]
        wrong = [] if told == sentence else [f"it tells {told}"]
        wrong += [] if text in texts else [f"the definition isn't {text}"]
        yield f"{PAGE}: {part} counts {sentence}", wrong
    tested = testing("handles_test")
    created = listed([words for call, words in HANDLE_CREATED.items() if call in tested])
    others = list(dict.fromkeys(words for call, words in HANDLE_TESTED.items() if call in tested))
    others = f"{', '.join(others[:-1])}, and {others[-1]}"
    sentence = f"where {created} is created, {others}. {COMPLETING}"
    yield same("where handles are counted", cells("handles of a process").partition(" Tested ")[2], sentence)
    yield same("the calls that count handles", sorted(tested), sorted({**HANDLE_CREATED, **HANDLE_TESTED}))
    tested = testing("view_count_test")
    *front, last = (words for call, words in VIEW_TESTED.items() if call in tested)
    sentence = f"{', '.join(front)}, and {last}"
    yield same("the calls that count views", sorted(tested), sorted(VIEW_TESTED))
    yield same("where views are counted", cells("views of a process").partition(" Tested ")[2], sentence)
    calls = "what one `{}` or `{}` reads, or one `{}` or `{}` writes".format(*TRANSFERS)
    yield same("the calls of one read or write", cells("of one read or write"), calls)
    yield same("the calls whose bytes are counted", sorted(testing("is_transfer")), sorted(TRANSFERS))


def counts():
    """The tables of what counts for an object: the rows of the definition, and how many each is."""
    text = definitions.bodies("lpc_model")["holders"][1]
    kinds = re.split(r"^holders w kind\.(\w+) b =", text, flags=re.M)[1:]
    for kind, body in zip(kinds[::2], kinds[1::2]):
        wanted = {HOLDERS[it] for it in re.findall(r"\w+", body) if it in HOLDERS} | {"a handle to it"}
        rows = dict(table_of(PAGE, f"Counts for a {kind.lower()}"))
        yield same(f"what counts for a {kind.lower()}", sorted(rows), sorted(wanted))
        for what, example in rows.items():
            if what in COUNTS_ONCE:
                told, behind = (example + ". ").split(". ", 1) if kind == "Token" else (example, "")
                yield same(f"how {what} counts for a {kind.lower()}", told, COUNTS_ONCE[what])
                yield same(f"what else counts for a {kind.lower()}", behind, TOKENS if kind == "Token" else "")
    yield from counted_kinds()


def counted_kinds():
    """Which messages and waits the page names as those that count for a port: of all types that are made but replies,
    which no queue holds, and connection requests, which a client port that has no handle yet sends."""
    rows = dict(table_of(PAGE, "Counts for a port"))
    made = definitions.message_types()[1]
    wanted = {QUEUED[it] for it in made if it in QUEUED}
    yield same("the messages that count", set(rows["a queued message that was sent on it"].split(", ")), wanted)
    yield same("the types that are made", sorted(made), sorted({*QUEUED, "REPLY", "CONNECTION_REQUEST"}))
    kinds = re.findall(r"^  (\w+) : .*WaitKind$", definitions.text_of("lpc_model", "specs", "antt"), re.M)
    wanted = {WAITING[it] for it in kinds}
    found = set(re.split(", |; ", rows["a wait that was made on it"]))
    yield same("the waits that count", found, wanted)


def step_outcomes(name, texts):
    """What a step of a closing does, in order: of each part its predicate, or what it is called, and its outcome."""
    body = texts[name][1]
    for part in re.findall(r"end_each \((.*?)\) (\w+|\(.*?\))$|doing \((\w+) b ∷ \[\]\)|(given .*)$", body, re.M):
        if part[0]:
            predicate = re.search(r"is_\w+", part[0])[0]
            yield predicate, part[1].strip("()")
        elif part[2]:
            yield part[2] if name in ("empty_queue", "cut_pair") else name, part[2]
        else:
            yield name, part[3]


def outcome_words(predicate, outcome, texts, statuses):
    """How a row begins to tell an outcome: by a status, or by what is done."""
    words = outcome.split()
    if len(words) == 2 and words[1] in statuses:
        return statuses[words[1]]
    if outcome in ("end_offered", "end_accepted"):
        return statuses[re.search(r"woken (\w+)", texts["end_connect"][1])[1]]
    return DOES[outcome] if outcome in DOES else DOES[predicate]


def closing():
    """The steps of a closing: their order, what ends in each by the definitions' order, and with which status."""
    texts, statuses = definitions.bodies("lpc_model"), profile()[1]
    order = re.findall(r"\w+(?= b\b)", texts["close_port"][1].partition("=")[2])
    made = [it for name in order for it in step_outcomes(name, texts)]
    words = {predicate: (step, text) for step, them in CLOSING for predicate, text in them.items()}
    numbers = {step: f"{at}. {step}" for at, (step, _) in enumerate(CLOSING, 1)}
    wanted, last = [], ""
    for predicate, outcome in made:
        step, text = words[predicate]
        does = outcome_words(predicate, outcome, texts, statuses) + BEHIND.get(predicate, "")
        wanted.append(["" if step == last else numbers[step], text, does])
        last = step
    rows = table_below("Closing a port", "Step", "What ends")
    yield same("the steps of a closing", [row[:2] for row in rows], [row[:2] for row in wanted])
    for row, (_, text, does) in zip(rows, wanted):
        yield same(f"how {text} end", row[2], does)


def ending():
    """The steps of an ending: their order, and the statuses that they leave."""
    statuses = profile()[1]
    rows = table_below("Threads and processes that end", "Step", "What ends")
    yield from stands("lpc_model", END_THREADS, "the steps of an ending")
    yield from stands("lpc_model", END_PROCESS, "the steps of a process's end")
    yield from stands("lpc_model", DYING, "how a thread dies")
    yield from stands("lpc_model", END_CLIENT, "what becomes of a connect whose thread dies")
    names = list(dict.fromkeys(step for step, _, _ in ENDING))
    steps = [row[0] for row in rows if row[0]]
    yield same("the steps of an ending", steps, [f"{at}. {it}" for at, it in enumerate(names, 1)])
    yield same("what ends with a thread", [row[1] for row in rows], [what for _, what, _ in ENDING])
    for (_, what, how), (_, _, wanted) in zip(rows, ENDING):
        yield same(f"how {what} ends", how, wanted.format(**statuses))


def exceptions():
    """The tables of what a raise does, and of what a reply makes of an event."""
    statuses = profile()[1]
    yield from stands("lpc_model", RAISED, "what a raise does")
    yield same("what a raise does", table_below("raise CODE handled", "The first chance that comes about"), [
        ["an event", "sends it and waits, with the field `id`, the identifier of this first event"],
        ["the frame handlers, which handle it", f"returns at once with {statuses['SUCCESS']}"],
        ["none", "has no answer: its process ends with CODE"],
    ])
    yield from stands("lpc_model", CONTINUES, "what continues")
    status = statuses["DBG_CONTINUE"]
    data = bytes.fromhex(status)[::-1].hex()
    yield same("what becomes of an exception", table_of(PAGE, "The reply's data"), [
        [f"begin with the bytes {data}, the status {status} with its low bytes first",
         f"it is continued: the thread wakes with {status}"],
        ["are any others, or fewer than four bytes", "it isn't handled there, and goes on to its next chance"],
    ])


def checks():
    """All checks: each with its name and what it found wrong."""
    for group in (ports, written, views, limits, counts, closing, ending, exceptions):
        yield from group()
