#!/usr/bin/env python3
"""Holds the tables of the pages against the definitions and contracts below crates/, and against the examples.

    tests/tables.py

- The statuses of docs/SERVICES.md have the names and numbers of the profile, and are those that the definitions use;
  the companion tools have the same names.
- The refusals of each call and directive stand there in the order of its definition's tests, and so do those that
  several calls share.
- The answers about servers in docs/RESIDENT.md stand in the order of their definitions.
- Each limit that the pages name is that of the profile, and docs/SERVICES.md names no number that isn't one.
- The kinds of faults and the types of messages have in the pages, and the types in the tools, the numbers of the
  definitions. So have the levels at which a server acts, with the one that goes without saying.
- The chances of an exception stand in docs/EXCEPTIONS.md and docs/SERVICES.md as the definitions have them: their
  order, their ports, and what their events show.
- The worked tables of README.md, docs/CONNECTIONS.md, docs/EXCEPTIONS.md, docs/SECURITY.md and docs/VIEWS.md have the
  lines of the scripts and transcripts in examples/.
- Each entry that the pages of walks through an example show as code, or draw, is told in a transcript of examples/.
- docs/STORM.md draws rounds, and shows their lines, as tests/storms.py makes them.
- docs/STATES.md shows all that some lines of its example tell, in their order, and has each key that the definitions
  print, and no other.
- Each function, clause and law that docs/PROOFS.md names as carrying a claim stands in that crate, and each clause of
  the top call is named there, in one claim.
- Each wrong body of the gate has its row in docs/WRONG_BODIES.md, and each row its wrong body; the row names the
  function that is changed, and clauses of it or of the functions that it names. Each crate with functions and without
  wrong bodies has a row of a further one. Each wrong definition there stands in the file that its row names, and
  the clauses are those of a law.
- Each name that the pages on definitions, proofs and code have as code stands below crates/, or is a file; those of
  docs/DEFINITIONS.md stand in the files that it names.
- What worked tables tell in words is told by their lines: numbers, threads, identifiers, types, chances, and how many
  objects are left. The tables of docs/SECURITY.md on who may connect and who is seen, those of docs/EXCEPTIONS.md on
  one line, those of docs/WAITS.md, docs/RESIDENT.md, docs/CLOSING.md, docs/ENDINGS.md and docs/TRACES.md on lines,
  those of docs/SCRIPTS.md on fields and bytes, and those of README.md and docs/CONFORMANCE.md on words, options, keys
  and folders are held against definitions, examples, scripts of the suite and its tools: tests/told.py. Those of
  docs/SERVICES.md on ports, messages, views, limits, counts, steps and exceptions are in tests/told_services.py.
- The tables of docs/SCRIPTS.md on words, messages, lines, faulty lines and entries, and the indexes of docs/FAULTS.md
  and of the exercises, are held in tests/told_scripts.py. What fault a line has, tests/reading.py says, which is held
  against all lines of the suite. Those of docs/STATES.md on rows, and those of docs/VIEWS.md, docs/CLOSING.md,
  docs/RESIDENT.md and docs/SECURITY.md on what stays, goes and comes next, are in tests/told_worlds.py.

How many rows each of these reads is pinned here, so that a table that isn't read is seen. Each check that fails has a
line, and the last line is `N passed, M failed`. The exit status is 0 where all passed, 1 where not.
"""
import itertools
import re
import sys

sys.dont_write_bytecode = True
import definitions
import pages
import storms
import told
import told_scripts
import told_services
import told_worlds
import wrong_bodies
from pages import CODE, STATUS, said, table_of
from tally import pinned, tally

sys.path.insert(0, str(pages.ROOT / "tools"))
from ntlpc_tool import message, statuses
from ntlpc_tool.pages import tables

SERVICES = (pages.DOCS / "SERVICES.md").read_text(encoding="utf-8")
# How many there are: who adds one changes the number.
STATUS_COUNT, SHARED_COUNT, CALL_COUNT, DIRECTIVE_COUNT, LIMIT_COUNT = 31, 5, 31, 7, 9
WORKED_ROWS = {
    "README.md": 8,
    "docs/CONNECTIONS.md": 30,
    "docs/EXCEPTIONS.md": 73,
    "docs/SECURITY.md": 45,
    "docs/VIEWS.md": 22,
}
# An entry of a transcript, how many of them these pages show as code, and one that is told not to come about.
ENTRY = re.compile(r"\d+ (?:-|[*~]?\d+) (?:busy|nothread|(?:\w+ )?(?:[0-9a-f]{8}|wait)\b.*)")
QUOTED = {
    "CLOSING.md": 2,
    "CONNECTIONS.md": 28,
    "ENDINGS.md": 4,
    "EXCEPTIONS.md": 72,
    "SECURITY.md": 44,
    "VIEWS.md": 21,
}
UNMADE = ("26 ~36 died c0000094",)
# An entry behind the lines of a drawing, of which that may show no more than its call, and how many these pages have.
DRAWN_ENTRY = re.compile(rf"(?:^| )({ENTRY.pattern}|\d+ [*~]?\d+ \w+ \.\.)$")
DRAWN_ENTRIES = {"ENDINGS.md": 8, "EXCEPTIONS.md": 9}
# Who hears of an exception at a port, and what a port may have.
HEARS = {"debug port": "the debugger", "exception port": "the server"}
WAYS = ("has a way", "has none")
# What docs/STATES.md shows of its example, and how many keys the rows have.
STATED = "exercises/07-a-connection"
STATED_ROWS, KEY_COUNT = 23, 66
# The calls that refuse nothing, and so have no table of refusals.
UNREFUSED = ("raise",)
CLAIM_COUNT, TOLD_COUNT = 73, 692
NAMED_IN = {
    "ARCHITECTURE.md": 700,
    "DECISIONS.md": 150,
    "DEFINITIONS.md": 1_300,
    "ISOLATION.md": 200,
    "PROOFS.md": 400,
    "WRONG_BODIES.md": 450,
}
# What the pages name that is none of these: a tool with its words.
PLACEHOLDERS = ("gate_seconds",)
# The definitions behind the words that tables share, and the first status of `path` that is met on the way.
SHARED = {"handle": "port_test", "message": "message_test", "client": "client_test", "quota": "handles_test"}
# The scripts of each worked table, in the order of the page's tables.
WORKED = {
    "README.md": [("first-request", 1, 6)],
    "docs/CONNECTIONS.md": [("connect-and-ask", 1, 13), ("connect-and-ask", 14, 19), ("two-clients", 14, 17)],
    "docs/EXCEPTIONS.md": [("a-debugger-and-its-child", 2, 34), ("a-debugger-that-ends", 2, 28)],
    "docs/SECURITY.md": [("a-server-that-acts-for-its-client", 9, 47)],
    "docs/VIEWS.md": [("a-connection-with-views", 6, 25)],
}


def status_names():
    """The table of statuses, against the profile, the definitions and the tools."""
    rows = next(rows for heading, head, rows in tables(SERVICES) if heading == "The statuses")
    told = {number: name for row in rows for number, name in zip(row[::2], row[1::2]) if number}
    numbers = definitions.profile()[1]
    wanted = {numbers[name]: name for name in numbers if numbers[name] in definitions.Refusals().used()}
    yield pinned("statuses", len(told), STATUS_COUNT)
    for number in sorted({*told, *wanted}):
        here, there = told.get(number), wanted.get(number)
        yield f"status {number}", [] if here == there else [f"the page has {here}, the definitions {there}"]
    tool = {number.upper(): name for number, name in statuses.PROFILE.items()}
    yield "the statuses of the tools", [] if tool == wanted else [f"{tool}, wanted are {wanted}"]


def refusals_in(cell, shared):
    """The statuses that a cell names, in order, with those of the words that tables share."""
    found = []
    for part in cell.split(";"):
        word = part.strip().removeprefix("then ")
        found += shared[word] if word in shared else STATUS.findall(part)
    return found


def refusals():
    """The tables of refusals, against the definitions of the services and directives."""
    model, shared = definitions.Refusals(), {}
    calls, directives = definitions.services()
    read = {"call": 0, "directive": 0}

    def check(kind, name, found, definition):
        read[kind] += 1
        told, wanted = (" ".join(definitions.once(it)) for it in (found, model.of(definition)))
        return f"the refusals of {name}", [] if told == wanted else [f"the page has {told}, the definition {wanted}"]

    for heading, head, rows in tables(SERVICES):
        if head[0] == "Word":
            shared = {word: STATUS.findall(cell) for word, cell in rows}
            yield pinned("words that tables share", len(shared), SHARED_COUNT)
            for word, definition in SHARED.items():
                wanted = model.of(definition)
                yield f"the word {word}", [] if shared.get(word) == wanted else [f"the definition has {wanted}"]
            wanted = [model.faults[it] for it in definitions.WALK]
            yield "the word path", [] if shared.get("path") == wanted else [f"the definition has {wanted}"]
        elif head[:2] == ["Line", "Refusals in their order"]:
            for row in rows:
                word = row[0].strip("`").split()[0]
                yield check("directive", word, refusals_in(row[1], shared), directives[word])
        elif head == ["Refusal", "Cause"]:
            name = heading.split()[0]
            yield check("call", name, [it for row in rows for it in refusals_in(row[0], shared)], calls[name])
    for name in UNREFUSED:
        yield check("call", name, [], calls[name])
    text = (pages.DOCS / "RESIDENT.md").read_text(encoding="utf-8")
    rows = next(rows for _, head, rows in tables(text) if head == ["Line", "Answer"])
    yield pinned("lines about servers", len(rows), len(definitions.RESIDENT_LINES))
    for word, cell in ((CODE.findall(row[0])[0].split()[0], row[1]) for row in rows):
        found = [it.upper() for it in CODE.findall(cell) if STATUS.fullmatch(it.upper()) and it != "00000000"]
        wanted = model.of(definitions.RESIDENT_LINES[word])
        yield f"RESIDENT.md: {word}", [] if found == wanted else [f"the page has {found}, the definition {wanted}"]
    yield pinned("calls", read["call"], CALL_COUNT)
    yield pinned("calls of the definitions", len(calls), CALL_COUNT)
    yield pinned("directives", read["directive"], DIRECTIVE_COUNT)
    yield pinned("directives of the definitions", len(directives), DIRECTIVE_COUNT)


def sentences():
    """What the pages say of limits: of each page the sentences, with the numbers of the profile in them."""
    limit, status = definitions.profile()
    message, header, handles = limit["MESSAGE_LIMIT"], limit["HEADER_SIZE"], limit["HANDLE_LIMIT"]
    names = definitions.text_of("lpc_names", "specs", "antt")
    path = int(re.search(r"^is_too_long path = nat_lt (\d+) ", names, re.M)[1])
    links = int(re.search(r"^  walk_if bindings \(Ok path\) = walk_by (\d+) bindings path$", names, re.M)[1])
    threads, children = limit["THREAD_LIMIT"], limit["CHILD_LIMIT"]
    datagrams, ports = limit["DATAGRAM_LIMIT"], limit["REGISTRATION_LIMIT"]
    views, memory, page = limit["VIEW_LIMIT"], limit["MEMORY_LIMIT"], limit["PAGE_SIZE"]
    lowest, apart, end = (limit[it] for it in ("LOWEST_USER_ADDRESS", "ALLOCATION_GRANULARITY", "USER_ADDRESS_END"))
    sections = f"{limit['SECTION_LIMIT'] // 2**20} MiB"
    line, lines = limit["LINE_LIMIT"], limit["LINES_LIMIT"]
    words = definitions.text_of("lpc_model", "specs", "antt")
    highest = re.search(r"^is_id n = nat_le 1 n && nat_le n (\d+)$", words, re.M)[1]
    data = message - header
    services = [
        f"C000002F: its MessageSize is above {message} |",
        f"or the path has more than {path} bytes.",
        f"a link gives way to a path of more than {path} bytes, or is the {links + 1}rd on the way",
        f"the process has {handles} handles, each of its threads that waits in a connect counted as one handle more; "
        f"where two handles are wanted, {handles - 1} are too many",
        f"a backslash in front of each, {path} at most.",
        f"each of the at most {links} links.",
        f"| {handles} handles of a process |",
        f"| {datagrams} datagrams of a port |",
        f"| {message} bytes of a message, {data} bytes of data or INFO |",
        f"| {threads} live threads of a process |",
        f"| {children} live children of a process |",
        f"| {ports} ports of a thread |",
        f"C0000044: the process has {threads} live threads |",
        f"| C000002F | INFO has more than {data} bytes |",
        f"| C0000044 | {datagrams} datagrams of the port aren't received |",
        f"| C0000044 | the thread has registered {ports} other ports |",
        f"counts on among the {ports},",
        f"| C0000044 | the caller's process has {children} live children |",
        f"| C0000044 | the process has {threads} live threads |",
        f"a wait, the {datagrams} datagrams",
        f"| {sections} of a section, and of all sections of a process |",
        f"| {views} views of a process |",
        f"| {memory} bytes of one read or write |",
        f"whole pages of {page} bytes, which are zeros at first",
        f"the least multiple of {apart}, from {lowest:08X}, where it meets no other view of its process and ends at or "
        f"below {end:08X}.",
        f"up to the next multiple of {apart} nothing is mapped.",
        f"| C0000040 | SIZE is above {sections} |",
        f"process made would have more than {sections} together,",
        f"| C0000220 | OFFSET is no multiple of {page} |",
        f"| C0000220 | VIEW is given, and OFFSET is no multiple of {page} |",
        f"| C0000220 | VIEW is given for `accept`, and OFFSET is no multiple of {page} |",
        f"| C0000044 | VIEW is given, and the process has {views} views, or no place is left for the view |",
        f"the caller's process or the client's would have more than {views}, or no place is left for one of them |",
        f"| C0000044 | the process has {views} views, or no place is left for the view |",
        f"| C000000D | LEN is 0, or above {memory} |",
        f"| C000000D | HEX has more than {memory} bytes |",
        f"| C000000D | LEN is 0, above {memory}, or above the size of the entry |",
        f"| C000000D | HEX has more than {memory} bytes, or more than the size of the entry |",
        f"There are at least {header} bytes.",
        f"MessageSize is at least DataSize + {header}.",
        f"The table begins at {header} or later,",
        f"MessageSize {header} + DataSize.",
    ]
    scripts = [
        f"A line has at most {line:,} bytes;",
        f"A script has at most {lines:,} lines.",
        f"A message is a header of {header} bytes,",
        f"MessageSize {header} + DataSize, and zeros |",
        f"| 9 | the line has a byte {line + 1:,} | |",
        f"| 10 | a line {lines + 1:,}: a byte of it,",
        f"| decimal: {message} |",
        f"| PID, TID | a Number from 1 to {highest};",
        f"the bytes that were read, {memory} at most |",
    ]
    faults = [
        f"A line has more than {line:,} bytes,",
        f'print("#" * {line + 1})',
        f"A script has at most {lines:,} lines. The fault is found with the first byte of line {lines + 1:,},",
        f'print("#\\n" * {lines + 1}, end="")',
        f"a message of {message} bytes takes {2 * message} digits.",
        f"a length of 0, above {memory}, or above the entry's size.",
    ]
    profile = [
        f"all limits: {handles} handles of a process, {datagrams} datagrams of a port, {message} bytes of a message, "
        f"{data} of a connect's INFO, {threads} live threads and {children} live children of a process, {ports} ",
        f"{sections} of a section and of all sections that a process made, {views} views of a process, {memory} bytes "
        f"of one read or write of memory or of request data,",
        f"a view's offset is a multiple of {page},",
        f"a read or a write is of 1 to {memory} bytes, all in one view, else {status['INVALID_PARAMETER']} or "
        f"{status['ACCESS_VIOLATION']} |",
        f"isn't there is refused with {status['REPLY_MESSAGE_MISMATCH']}, or with {status['INVALID_CID']} where",
        f"is answered as if it were missing, {status['OBJECT_PATH_NOT_FOUND']} |",
        f"are {status['INVALID_PARAMETER']}, bytes that no one view of the client holds {status['ACCESS_VIOLATION']};",
        f"a closed port counts among the {ports} |",
        f"A message's limit is {message} bytes for each port.",
    ]
    resident = sentences_on_residents()
    return {
        "SERVICES.md": services, "SCRIPTS.md": scripts, "FAULTS.md": faults, "PROFILE.md": profile,
        "RESIDENT.md": resident,
    }


def sentences_on_residents():
    """What docs/RESIDENT.md says of limits."""
    limit = definitions.numbers_of("lpc_subsys")
    words = definitions.text_of("lpc_model", "specs", "antt")
    text, texts, console = limit["TEXT_LIMIT"], limit["ATOM_LIMIT"], f"{limit['CONSOLE_LIMIT']:,}"
    written, read, level = limit["WRITE_LIMIT"], limit["READ_LIMIT"], limit["LEVEL_LIMIT"]
    first, stand = limit["FIRST_ATOM"], re.search(r"^CONNECTION_LIMIT = (\d+)$", words, re.M)[1]
    return [
        f"where {stand} of its connections stand, the same with `refuse` |",
        f"It keeps at most {texts} texts of {text} bytes and a console of {console} bytes for each client.",
        f"| 1 | a text of 1 to {text} bytes | its atom: 0x{first:04X} for the first text, 0x{first + 1:04X} for the "
        f"second one, the same for the same text | C0000044: a new text, where the client has {texts} |",
        f"| 3 | a text of 0 to {written} bytes, which is put into the console | how many bytes stand in the console "
        f"then | C0000044: they would be more than {console} |",
        f"the length isn't from 1 to {console}, or the view ends before; then C0000044 as with 3 |",
        f"| 5 | a place in the console, and a count from 0 to {read} |",
        f"| C000000D: the count is above {read}, or",
        f"| 6 | a level up to {level} | nothing | C000000D: the level is above {level} |",
        f"the last one that was set, {limit['FIRST_LEVEL']} at first |",
        f"To give more than {written} bytes at once,",
    ]


def limits():
    """The sentences on limits; and that no further number stands in the prose of SERVICES.md that may be one."""
    yield from said(sentences())
    rows = next(rows for heading, _, rows in tables(SERVICES) if heading == "Limits")
    yield pinned("rows of limits", len(rows), LIMIT_COUNT)
    prose = (line for line in pages.prose_of(pages.DOCS / "SERVICES.md") if not re.match(r"\| `\d", line))
    text = re.sub(r"\]\([^)]*\)|^\[[\w-]+\]: .*", "", "\n".join(CODE.sub("", line) for line in prose), flags=re.M)
    text = STATUS.sub("", text).split()
    # The sentences, as they are left where statuses and code are out.
    known = sum(len(re.findall(r"\b\d{2,}", STATUS.sub("", it))) for it in sentences()["SERVICES.md"])
    # The number of a message's type, in the table of what the machine writes over.
    others = [it for it in re.findall(r"\b\d{2,}", " ".join(text)) if it != "10"]
    yield "SERVICES.md has no further limit", [] if len(others) == known else [f"{len(others)} numbers, not {known}"]


def listed(words):
    """Words in a row, the last one behind an `and`."""
    *front, last = map(str, words)
    return f"{', '.join(front)} and {last}"


def fault_kinds():
    """The numbers of the kinds of faults: the order in which a line's are looked for, and what `stop` prints."""
    kind, lines = definitions.fault_kinds(), definitions.profile()[0]["LINES_LIMIT"]
    numbers = [str(it) for it in sorted(kind.values())]
    parts = ", ".join(str(kind[it]) for it in ("Word", "Number", "Hex", "Message", "Sid"))
    scripts = [
        f"1. the line's number (kind {kind['Lines']}), then its length ({kind['Long']}); both",
        f"2. all its bytes ({kind['Byte']}),",
        f"a thread's number that is out of form or range ({kind['Number']}), or a word that is no directive "
        f"({kind['Word']});",
        f"4. for a call, its name: missing ({kind['Count']}) or none ({kind['Call']});",
        f"5. the count of words ({kind['Count']});",
        f"of each its form, then its parts from left to right ({parts}).",
        f"has the fault of its second entry, kind {kind['Word']}.",
    ]
    ends = [f"prints `stop 1 {kind['Long']}`.", f"prints `stop {lines + 1} {kind['Lines']}`."]
    profile = [f"a call among them is a faulty line of kind {kind['Call']}."]
    yield from said({"SCRIPTS.md": scripts, "FAULTS.md": ends, "PROFILE.md": profile})
    headings = re.findall(r"^## Kind (\d+): ", (pages.DOCS / "FAULTS.md").read_text(encoding="utf-8"), re.M)
    for page, told in ("SCRIPTS.md", [row[0] for row in table_of("SCRIPTS.md", "Kind")]), ("FAULTS.md", headings):
        yield f"the kinds of faults in {page}", [] if told == numbers else [f"it has {told}, wanted are {numbers}"]


def message_types():
    """The numbers of the types of messages, and which of them are made."""
    number, made = definitions.message_types()
    names = {number[it]: it.lower().replace("_", " ") for it in number}
    # No message that is sent has type 0.
    first, *_, last = unmade = [it for it in sorted(names) if it and it not in map(number.get, made)]
    told = ", ".join(f"{number[it]} {names[number[it]]}" for it in made)
    end, death, event, debugged = (number[it] for it in ("PORT_CLOSED", "CLIENT_DIED", "EXCEPTION", "DEBUG_EVENT"))
    connect, request = number["CONNECTION_REQUEST"], number["REQUEST"]
    yield from said({
        "SCRIPTS.md": [
            f"type: {told} |",
            f"Of the message types {first} to {last} two are never made, {listed(unmade)}; {end} and {death} tell",
            f"and {event} and {debugged} that a thread raised an exception.",
        ],
        "PROFILE.md": [
            f"LPC_TYPE, {min(names)} to {max(names)} | types {listed(map(number.get, made))} are made |",
            f"Message types {listed(unmade)}. ",
        ],
        "SERVICES.md": [
            f"| that is sent (datagram, request) | {number['DATAGRAM']}, {request} |",
            f"| a reply, as the waiting thread gets it | {number['REPLY']} |",
            f"| a connection request, made by the machine | {connect} |",
            f"| a client port's end, made by the machine | {end} |",
            f"| a thread's end, made by the machine | {death} |",
            f"| an event, made by the machine | {debugged} on a debug port, {event} on an exception port |",
            f"| type | {debugged} on the debug port, {event} on the exception port |",
        ],
        "RESIDENT.md": [
            f"a connection request (type {connect}) |",
            f"a port is closed (type {end}),",
            f"a request (type {request}) |",
        ],
    })
    for heading, word in ("Port closed", "PORT_CLOSED"), ("Client died", "CLIENT_DIED"):
        (row,) = (row for part, _, rows in tables(SERVICES) if part == heading for row in rows if row[0] == "type")
        yield f"SERVICES.md, {heading}: the type", [] if row[1] == str(number[word]) else [f"it is {number[word]}"]
    yield "the message types of the tools", [] if message.TYPES == names else [f"{message.TYPES}, wanted are {names}"]


def levels():
    """The levels at which a server may act as its client, and which one a connect allows that names none."""
    model = definitions.Levels()
    names, default = {it: name.lower() for name, it in model.numbers.items()}, f"{model.default}:{model.tracking[0]}"
    low, refused = [it for it in sorted(names) if it < model.connecting], model.connecting_status
    yield from said({
        "SCRIPTS.md": [
            f"with a Number L from {min(names)} to {model.most}, the level, or `-` for `q:{default}` |",
            f"acted as a client: {', '.join(f'{it} {name}' for it, name in names.items())} |",
        ],
        "SERVICES.md": [f"`-` stands for `q:{default}`."],
        "SECURITY.md": [
            f"`-` stands for `q:{default}`.",
            f"| a token of its own of level {' or '.join(map(str, low))} | any list, or none | {refused} |",
            f"a process's own token counts as {model.of_processes}.",
        ],
        "CONNECTIONS.md": [f"with level {model.default} and {model.tracking} tracking."],
        "PROFILE.md": [
            f"the four levels of impersonation, {min(names)} to {max(names)},",
            f"| `-` for a quality of service is level {model.default} with {model.tracking} tracking |",
            f"a level below {model.connecting} is {refused} also where there is no list |",
            f"a process's own token counts as level {model.of_processes} |",
        ],
    })
    wanted = [
        [
            str(it), name,
            f"no, {model.unknown_status}" if it == model.unknown else "yes",
            f"no, {refused}" if it in low else "yes",
        ]
        for it, name in names.items()
    ]
    told = table_of("SECURITY.md", "Level", "Name")
    yield "SECURITY.md: the levels", [] if told == wanted else [f"it tells {told}, wanted are {wanted}"]


def raised(model, ports, handled):
    """What a raise does where these ports have a way, in the words of docs/EXCEPTIONS.md."""
    for chance in model.order:
        if chance == "Handled":
            if handled:
                return "00000000 at once"
        elif model.port(chance) in ports:
            return "waits for {}: type {}, chance {}".format(HEARS[model.port(chance)], *model.event(chance))
    return "the process ends with CODE, without an answer"


def raises(model):
    """What is wrong with the table of docs/EXCEPTIONS.md on what a raise does."""
    seen = []
    for debug, exception, *told in table_of("EXCEPTIONS.md", "The debug port", "The exception port"):
        for way in WAYS if exception == "whatever it is" else (exception,):
            ports = [it for it, has in zip(HEARS, (debug, way)) if has == WAYS[0]]
            handled, unhandled = (raised(model, ports, it) for it in (True, False))
            wanted = [handled, "the same" if handled == unhandled else unhandled]
            seen.append((debug, way))
            if told != wanted:
                yield f"where one {debug} and the other {way} it tells {told}, wanted are {wanted}"
    if seen != list(itertools.product(WAYS, WAYS)):
        yield f"it tells of {seen}"


def going_on(model, chance):
    """What follows an event that isn't handled, as a row of docs/EXCEPTIONS.md."""
    ways = [
        "the {} has a way: type {}, chance {}".format(model.port(it), *model.event(it))
        for it in model.behind[chance] if it != "Handled"
    ]
    first, *others = [*ways, "the process is doomed"]
    handled = "the thread wakes with 00000000" if "Handled" in model.behind[chance] else "doesn't come about"
    event = "type {}, chance {}".format(*model.event(chance))
    return [event, handled, ". ".join([first, *(it.capitalize() for it in others)])]


def asked(model):
    """The rows of the table of chances in docs/SERVICES.md."""
    ports = []
    for chance in model.order:
        if chance == "Handled":
            yield ["", "the frame handlers", "by the word of the line"]
            continue
        port, (kind, number) = model.port(chance), model.event(chance)
        ordinal = "" if any(it[1] == number for it in ports) else ("first", "second")[number - 1]
        again = " again" if any(it[0] == port for it in ports) else ""
        ports.append((port, number))
        yield [ordinal, f"the {port}{again}", f"by an event of type {kind} with chance {number}"]
    yield ["", "nobody any more", "the process ends with the code of the exception"]


def chances():
    """The chances of an exception, in the tables of docs/EXCEPTIONS.md and docs/SERVICES.md."""
    model, status = definitions.Chances(), definitions.profile()[1]["DBG_CONTINUE"]
    yield "EXCEPTIONS.md: what a raise does", list(raises(model))
    on_ports = [it for it in model.order if it != "Handled"]
    for page, head, wanted in (
        ("EXCEPTIONS.md", "The event that isn't handled", [going_on(model, it) for it in on_ports]),
        ("SERVICES.md", "Chance", list(asked(model))),
    ):
        told = table_of(page, head)
        yield f"{page}: {head}", [] if told == wanted else [f"it tells {told}, wanted are {wanted}"]
    order = ", ".join("frame handlers" if it == "Handled" else model.port(it) for it in model.order)
    data = bytes.fromhex(status)[::-1].hex()
    yield from said({
        "PROFILE.md": [f"the order of the chances of an exception: {order}; the status"],
        "EXCEPTIONS.md": [f"| a fitting reply that begins with {data} | is continued | wakes with {status} |"],
        "WAITS.md": [f"whose data begin with {data}, at whichever chance | {status} |"],
    })


def shortened(text):
    """A pattern for a line of a transcript, of which a table shows the first and last bytes alone."""
    return re.compile(".*".join(map(re.escape, text.split(".."))))


def worked_table(rows, name, first, last):
    """What is wrong with a worked table that shows the lines from `first` to `last` of an example."""
    script, transcript = (
        (pages.EXAMPLES / f"{name}.{it}").read_text(encoding="utf-8").splitlines() for it in ("script", "transcript")
    )
    wanted = list(range(first, last + 1))
    shown = [int(row[0]) for row in rows if row[0]]
    if shown != wanted:
        yield f"it shows the lines {shown}, wanted are {wanted}"
    for number, line in ((int(row[0]), CODE.findall(row[1])) for row in rows if row[0]):
        if line != script[number - 1 : number]:
            yield f"line {number} is {line}, in the script {script[number - 1 : number]}"
    told = [text for row in rows for text in CODE.findall(row[2])]
    entries = [it for it in transcript if first <= int(re.search(r"\d+", it)[0]) <= last or it.startswith("end ")]
    entries = entries if told and told[-1].startswith("end ") else entries[:-1]
    if len(told) != len(entries):
        yield f"it shows {len(told)} lines of the transcript, wanted are {len(entries)}"
    for text, line in zip(told, entries):
        if not shortened(text).fullmatch(line):
            yield f"it shows {text}, the transcript has {line}"


def worked():
    """The worked tables, against examples/."""
    for page, examples in WORKED.items():
        text = (pages.ROOT / page).read_text(encoding="utf-8")
        found = [rows for _, head, rows in tables(text) if head[:3] == ["Line", "Script", "Transcript"]]
        yield pinned(f"rows of worked tables in {page}", sum(map(len, found)), WORKED_ROWS[page])
        yield pinned(f"worked tables in {page}", len(found), len(examples))
        for rows, (name, first, last) in zip(found, examples):
            yield f"{page}: {name}, lines {first} to {last}", list(worked_table(rows, name, first, last))


def quoted():
    """The entries that pages show as code, in their tables and in their prose, against the transcripts of examples/."""
    files = pages.EXAMPLES.rglob("*.transcript")
    known = {line for it in files for line in it.read_text(encoding="utf-8").splitlines()}
    for page, count in QUOTED.items():
        text = re.sub(r"^```.*?^```", "", (pages.DOCS / page).read_text(encoding="utf-8"), flags=re.M | re.S)
        shown = [it for it in CODE.findall(text) if ENTRY.fullmatch(it)]
        yield pinned(f"entries in {page}", len(shown), count)
        others = [it for it in shown if not any(map(shortened(it).fullmatch, known)) and it not in UNMADE]
        yield f"the entries in {page}", [f"no example tells {it}" for it in others]
    for page, count in DRAWN_ENTRIES.items():
        lines = [line for block in pages.blocks_of(pages.DOCS / page) for line in block.text.splitlines()]
        shown = [found[1] for found in map(DRAWN_ENTRY.search, lines) if found]
        yield pinned(f"entries in the drawings of {page}", len(shown), count)
        others = [it for it in shown if not any(map(shortened(it).fullmatch, known))]
        yield f"the entries in the drawings of {page}", [f"no example tells {it}" for it in others]


def stormy():
    """The rules and lines of docs/STORM.md, against the storms that tests/storms.py makes."""
    page = (pages.DOCS / "STORM.md").read_text(encoding="utf-8")
    rows = next(rows for _, head, rows in tables(page) if head == ["Type", "Lines"])
    draws = f"({storms.FACTOR} x + {storms.SUMMAND}) mod 2^32."
    yield "STORM.md: how a round draws", [] if draws in page else [f"it doesn't say {draws}"]
    made = storm_lines()
    told = {int(kind): CODE.findall(row[1]) for row in rows for kind in row[0].split(",")}
    # The last type begins as those in front of it do.
    told[3] = made[1][:2] + told.get(3, [])
    yield "STORM.md: the lines of a round", [] if told == made else [f"it shows {told}, wanted are {made}"]


def storm_lines():
    """The lines of a round by its type, with letters for what differs: of storms of one round."""
    made, seed = {}, 0
    while len(made) < 4:
        drawn = (seed * storms.FACTOR + storms.SUMMAND) % 2**32
        client, kind = 1 + drawn // 65_536 % 8, drawn // 16_777_216 % 4
        client_id = f"r:{100 + client}.{200 + client}."
        letters = {f"{client_id}2:": "r:P.T.M:", f"{client_id}3:": "r:P.T.M':", f"{drawn:08x}": "X"}
        letters |= {f"{200 + client} Nt": "T Nt", f"NtReplyPort {4 + 4 * client} ": "NtReplyPort h "}
        lines = list(storms.rounds(1, seed))
        for found, letter in letters.items():
            lines = [it.replace(found, letter) for it in lines]
        made[kind], seed = lines, seed + 1
    return made


def stated():
    """The worked table of docs/STATES.md, against the example; and its table of keys, against the definitions."""
    text = (pages.DOCS / "STATES.md").read_text(encoding="utf-8")
    rows = next(rows for _, head, rows in tables(text) if head == ["Line", "Printed", "What it shows"])
    printed = (pages.EXAMPLES / f"{STATED}.states").read_text(encoding="utf-8").splitlines()
    shown = {row[0] for row in rows if row[0]}
    wanted = [it for it in printed if re.match(r'(?:\{"line":)?(\w+)', it)[1] in shown]
    told = [row[1].strip("`") for row in rows]
    others = [pair for pair in zip(told, wanted) if not shortened(pair[0]).fullmatch(pair[1])]
    yield "STATES.md: what the lines tell", [f"it shows {it}, the example has {line}" for it, line in others]
    yield pinned("rows of the worked table in STATES.md", len(told), STATED_ROWS)
    yield pinned("rows of these lines in its example", len(wanted), STATED_ROWS)
    keys = set(re.findall(r'\\"(\w+)\\":', definitions.text_of("lpc_states", "specs", "antt"))) - {"line"}
    cells = next(rows for _, head, rows in tables(text) if head[:2] == ["Row", "Key"])
    prose = CODE.findall(text[text.index("## The keys") :].partition("\n\n| Row")[0])
    named = {it for row in cells for cell in row[1:] for it in CODE.findall(cell)}
    named |= {it for span in prose for it in re.findall(r'"(\w+)":', span)}
    yield pinned("keys of rows", len(keys), KEY_COUNT)
    yield "STATES.md has each key", [f"{it} isn't there" for it in sorted(keys - named)]
    columns = {it for row in cells for it in CODE.findall(row[1])}
    yield "STATES.md has no other key", [f"{it} is none" for it in sorted(columns - keys)]


def claims():
    """The rows of docs/PROOFS.md that name what carries a claim: the crates of each, and its last cell."""
    text, crates = (pages.DOCS / "PROOFS.md").read_text(encoding="utf-8"), []
    for _, head, rows in tables(text):
        if head == ["Crate", "What is proved", "Carried by"]:
            for row in rows:
                crates = CODE.findall(row[0]) or crates
                yield crates, row[2]


def carried(crates, cell, contracts):
    """What a claim's cell names and the crates don't have. A list in brackets names clauses of the functions right in
    front of it, or, where it stands behind other words, of any function of the crates."""
    if re.search(r"` (?:of|in) `lpc_\w+`", cell):
        crates = [*crates, *(it for it in CODE.findall(cell) if it.startswith("lpc_"))]
    known = {}
    for crate in crates:
        for name, clauses in contracts[crate].items():
            known.setdefault(name, set()).update(clauses)
    types = {it.partition("::")[0] for it in known if "::" in it}
    functions = []
    for front, inside in re.findall(r"([^()]*)(?:\(([^()]*)\))?", cell):
        named = [it for it in CODE.findall(front) if not it.startswith("lpc_")]
        if re.search(r"\b(?:those eight|the others|the last three|each (?:service|of these))\b", front):
            named, functions = [], list(known)
        for name in named:
            if name not in known and name not in types and not any(name in it for it in known.values()):
                yield f"there is no {name} in {', '.join(crates)}"
        functions = [it for it in known if it in named or it.partition("::")[0] in named] or functions
        clauses = set().union(*(known[it] for it in functions)) if functions else set()
        for clause in CODE.findall(inside or ""):
            if clause not in clauses and clause not in known:
                yield f"{clause} is no clause of {', '.join(named) or 'these functions'} in {', '.join(crates)}"


def proofs():
    """The last column of docs/PROOFS.md, against the contracts; and each clause of the top call is named there."""
    rows = list(claims())
    contracts = {crate: definitions.contracts(crate) for crates, _ in rows for crate in crates}
    contracts.setdefault("lpc_script", definitions.contracts("lpc_script"))
    yield pinned("claims", len(rows), CLAIM_COUNT)
    for at, (crates, cell) in enumerate(rows):
        yield f"PROOFS.md, claim {at + 1}: {cell[:60]}", list(carried(crates, cell, contracts))
    named = [word for _, cell in rows if "run_words" in cell for word in sorted(set(CODE.findall(cell)))]
    counts = {it: named.count(it) for it in sorted(contracts["lpc_replay"]["run_words"])}
    wrong = [f"{it} is named in {count} claims" for it, count in counts.items() if count != 1]
    yield "PROOFS.md names each clause of the top call in one claim", wrong


def names_in_code():
    """The names that stand as code in the pages on definitions, proofs and code, against the files below crates/."""
    known = set(PLACEHOLDERS)
    for file in (it for ending in ("rt", "antt", "edit") for it in definitions.CRATES.rglob(f"*.{ending}")):
        if "out" in file.parts:
            continue
        text = file.read_text(encoding="utf-8")
        known |= {*re.findall(r"[\w-]+", text), *re.findall(r"\w+", text), *file.parts, file.name, file.stem}
    for page, least in NAMED_IN.items():
        text = re.sub(r"^```.*?^```", "", (pages.DOCS / page).read_text(encoding="utf-8"), flags=re.M | re.S)
        spans = [it for it in CODE.findall(text) if not (pages.ROOT / it).exists()]
        names = [it for span in spans for it in re.findall(r"[A-Za-z_][\w-]{2,}(?:\.antt|\.rt)?", span)]
        missing = sorted({it for it in names if it not in known})
        yield f"the names in {page}", [f"{it} stands nowhere below crates/" for it in missing]
        yield f"{page} has {least} names at least", [] if len(names) >= least else [f"{len(names)} were read"]


def told_in_words():
    """What tables tell in words, and that as many are read as there are."""
    count = 0
    others = told_services, told_scripts, told_worlds
    for check in (*told.checks(WORKED), *(it for group in others for it in group.checks())):
        count += 1
        yield check
    yield pinned("checks of what tables tell in words", count, TOLD_COUNT)


def checks():
    """All checks: each with its name and what it found wrong."""
    words = status_names, refusals, limits, fault_kinds, message_types, levels, chances
    for group in (*words, worked, quoted, stormy, stated, proofs, wrong_bodies.checks, names_in_code, told_in_words):
        yield from group()


def main():
    return tally(checks())


if __name__ == "__main__":
    sys.exit(main())
