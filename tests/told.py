"""What tables of the pages tell in words and numbers, against the definitions and against transcripts that were worked
by hand: those of examples/ and of the suite."""
import re

import definitions
import pages
from pages import CODE, STATUS, table_of

from ntlpc_tool import forms, message
from ntlpc_tool.pages import tables

SUITE = pages.ROOT / "conformance"
NUMBER = re.compile(r"0x[0-9a-f]+|\b[0-9A-Fa-f]{8}\b|\b\d+")
COUNTED = "none one two three four five six seven eight nine ten".split()
# What a number is of, where a row says so: the word in front of it.
OF = re.compile(r"\b(type|identifier|chance|context|process|thread|handle|byte) (\d+)\b", re.I)
# How the grants of a list are defined. Who alters that has to look at `let_in`, too.
GRANTS = """
grants_left token left [] = left == 0
grants_left token left (ace ∷ aces) =
    if left == 0 then true
    else (if not (has_sid token ace.sid) then grants_left token left aces
    else (if ace.allow then grants_left token (rights_without left ace.mask) aces
    else (if names_any ace left then false
    else grants_left token left aces)))
"""
# Which list a row of docs/SECURITY.md speaks of: entries, each with its letter, its mask and its SID.
SPOKEN_LISTS = {
    "no access list": None,
    "an access list without an entry": [],
    "a list whose first entry that counts is `A`": [("D", 1, "S-1-5-9"), ("A", 1, "S-1-1-0"), ("D", 1, "S-1-1-0")],
    "a list whose first entry that counts is `D`": [("A", 1, "S-1-5-9"), ("D", 1, "S-1-1-0"), ("A", 1, "S-1-1-0")],
    "a list in which no entry counts": [("A", 1, "S-1-5-9"), ("A", 2, "S-1-1-0")],
}
# Who is seen, by how docs/SECURITY.md tells as whom the client acted when it connected, and its thread when it asks.
SEEN_AT_CONNECT = {"as itself": "itself", "as itself, by one thread": "itself", "for somebody": "that somebody"}
SEEN_NOW = {
    "as itself": "itself",
    "for somebody": "that somebody",
    "another thread asks, which acts for somebody": "that somebody",
    "for another one": "the other one",
}
# The scripts of the suite that show what docs/SECURITY.md tells of a token that was taken: of each row the line behind
# it that tells whom the thread acts for, and the line that tries to take the token anew.
STAYS = "what-a-server-has-taken-stays"
THEN = {
    "the server replies": ((STAYS, 16), ("a-request-that-was-answered-is-none", 18)),
    "the client closes its port": ((STAYS, 20), ("a-client-that-closed-gives-no-token", 15)),
    "the client's thread or process ends": ((STAYS, 24), ("a-client-that-ended-gives-no-token", 22)),
    "the connection port closes, the server port doesn't": (
        (STAYS, 29), ("behind-the-end-of-the-connection-port", 15)
    ),
}
# How what follows from a line is defined. Who alters that has to look at `turns`, too.
TURNS = """
turn_by w (tid ∷ later) = Some (go_on tid w)
turn_by w [] = option_map (λ p. end_doomed p w) (least (doomed_processes w))
"""
# A script that a row of docs/WAITS.md names, and how many rows there are.
SHOWN = re.compile(r"\[([\w-]+)\]\((\.\./[\w/.-]+)\.script\)")
WAIT_ROWS = 23
# How docs/SCRIPTS.md says that a field is printed, by the sort that the definitions give it.
PRINTED_AS = {
    "in_decimal": "decimal",
    "in_hexadecimal": "8 hexadecimal digits in lower case",
    "as_bytes": "each byte as 2 hexadecimal digits in lower case|as `msg`.*",
    "as_sids": "a SID|SIDs with a comma between them.*",
    "as_kind": "(`\\w+`(, | or )?)+",
}
# The fields of a message as docs/SCRIPTS.md calls them, by their names in the definitions.
LAID_OUT = {
    "data_size": "DataSize",
    "message_size": "MessageSize",
    "kind": "type",
    "ranges_offset": "VirtualRangesOffset",
    "process": "ClientId, process",
    "thread": "ClientId, thread",
    "message_id": "MessageId",
    "section_size": "SectionSize",
}
# Stands for the number of a last line.
LAST = 1_000_001
# How a row of docs/RESIDENT.md goes on: which thread wakes, and with what.
WAKES = re.compile(r"^`([^`]*)`(?:, and thread (\d+) wakes with (.*))?$")
MADE_THREAD = re.compile(r"(?:thread|\d+ NtCreateThread \w+) (\d+)\b")
# What docs/TRACES.md has in a trace for each entry of a log: the calls and directives, and the other words.
TRACED = {
    "a process or a thread begins": "boot thread",
    "a call makes a process or a thread": "NtCreateProcess $ $.thread NtCreateThread",
    "a call gave a handle": "NtCreatePort",
    "a connect gave a handle when it woke": "NtConnectPort",
    "a call used the handle": "NtListenPort",
    "a connect or an accept offered a view of a section": "VIEW",
    "a call received a message": "NtReplyWaitReceivePort",
    "a call replied to it, or accepted it": "MSG",
    "a process began with a token": "token boot",
    "a call acted as a client": "NtImpersonateClientOfPort",
    "a call opened a token": "NtOpenThreadToken $ NtQueryInformationToken $.level",
    "a call sent a message, and a later line names it": "NtRequestPort $",
    "a thread raised an exception": "raise",
    "a call received an event, and another one replied": "NtReplyWaitReceivePort MSG",
}
# What each of these has to be, where it is no call and no directive.
TRACE_WORDS = {
    "VIEW": r"w:\$\w+:\d+:\d+",
    "MSG": r"r:\$\w+:(?:[0-9a-f]{2})*",
    "$": r"\$[a-z]+",
    "$.thread": r"\$[a-z]+\.thread",
    "$.level": r"\$[a-z]+\.level",
}
# By what ends a wait: which step of a closing that is.
CLOSES = (
    ("the server port of its connection closes", "the other end"),
    ("the other end of the port closes", "the other end"),
    ("another port closes in whose queue", "its queue"),
    ("the port closes on which it was sent", "requests and events sent on it"),
    ("the server port closes, and the connection isn't completed", "the other end"),
    ("the connection port closes, and the connect isn't accepted", "its queue"),
    ("the port closes through which it was made", "waits"),
    ("the connection port closes on whose queue it waits", "waits"),
    ("the port closes", "waits"),
)
# Whose lines show what is left of a wait whose thread died.
LEFT_TO = "NtReplyPort", "NtReplyWaitReceivePort", "NtListenPort", "NtCompleteConnectPort", "NtClose"
# The scripts of the suite and of examples/ in which a connection has these views, by who offers one.
OFFERS = {
    "nobody": "examples/connect-and-ask",
    "the client": "conformance/turn/the-oldest-view-of-a-client",
    "both": "examples/a-connection-with-views",
}


def stands(crate, text, what):
    """The check that a crate's definitions have these lines."""
    found = text.strip() in definitions.text_of(crate, "specs", "antt")
    yield f"{what} are defined so", [] if found else ["the definition is another one: its table is to be looked at"]


def number_of(word):
    """The number that a word spells: decimal, or hexadecimal with 8 digits or 0x."""
    return int(word, 16) if word.startswith("0x") or len(word) == 8 else int(word)


def numbers_in(text):
    """The numbers of a text."""
    return set(map(number_of, NUMBER.findall(text)))


def shown_message(entry):
    """The message that an entry shows, or None."""
    found = re.search(r" msg=(\w+)$", entry)
    return message.Message.read(bytes.fromhex(found[1])) if found else None


class Facts:
    """What a line of an example and its entries say: for each word the numbers that may stand behind it, and all of
    them."""

    def __init__(self, script, transcript, line):
        self.script, words = script[line - 1], script[line - 1].split()
        self.entries = [it for it in transcript if it.startswith(f"{line} ")]
        made = [it.groups() for it in map(pages.MADE.fullmatch, script) if it]
        self.of = {"process": {int(it[1]) for it in made}, "thread": {int(it[2]) for it in made}}
        self.of["thread"] |= {int(it[1]) for it in map(MADE_THREAD.match, script) if it}
        text = "\n".join([re.sub(r" msg=\w+", "", it) for it in self.entries])
        fields = lambda name, base=10: {int(it, base) for it in re.findall(rf"\b{name}=(\w+)", text)}
        shown = [it for it in map(shown_message, self.entries) if it]
        replied = {int(it) for it in re.findall(r" r:\d+\.\d+\.(\d+):", self.script)}
        # A thread's earlier identifiers are known.
        front = "\n".join(it for it in transcript if int_of(it) < line)
        earlier = {int(it) for it in re.findall(rf"^\d+ {words[0]} \w+ wait id=(\d+)", front, re.M)}
        self.of["type"] = {it.type for it in shown}
        self.of["identifier"] = fields("id") | {it.message_id for it in shown} | replied | earlier
        raised = [(int(code, 16), chance) for code, chance in filter(None, (it.raised() for it in shown))]
        self.of["chance"] = {it[1] for it in raised}
        self.of["context"] = fields("ctx", 16) | ({number_of(words[2])} if words[1] == "NtAcceptConnectPort" else set())
        digits = "".join(re.findall(r":((?:[0-9a-f]{2})+)$", self.script)) + "".join(it.data.hex() for it in shown)
        self.of["byte"] = {int(it) for it in re.findall("..", digits) if it.isdigit()}
        self.of["handle"] = fields("h") | fields("thread") | {int(it) for it in re.findall(r" (\d+)\b", self.script)}
        self.all = set().union(*self.of.values()) | numbers_in(self.script) | numbers_in(text)
        self.all |= {it for one in shown for it in (one.process, one.thread, one.section_size)}
        self.all |= {code for code, _ in raised}


def int_of(entry):
    """The line of an entry; of the last line of a transcript a number behind all."""
    found = re.match(r"\d+", entry)
    return int(found[0]) if found else LAST


def levels_of(script, line):
    """The levels that docs/SECURITY.md may name of a line: that of the client for which its thread acts from the last
    impersonation in front on, and that of a process's own token."""
    thread = script[line - 1].split()[0]
    taken = [it for it in script[:line] if it.startswith(f"{thread} NtImpersonateClientOfPort ")]
    asked = re.search(r" r:\d+\.(\d+)\.", taken[-1])[1] if taken else ""
    found = [re.search(r" q:(\d):", it) for it in script if it.startswith(f"{asked} NtConnectPort ")]
    return {int(it[1]) for it in found if it} | {definitions.Levels().of_processes}


def spoken(row, facts, others, last):
    """What is wrong with the words of a row: a number that its line doesn't tell, or that is of something else."""
    words = re.sub(r"\]\([^)]*\)", "]", row[3])
    for line in re.findall(r"\blines? (\d+)", words):
        if not 1 <= int(line) <= last:
            yield f"it names line {line}, and there are {last}"
    words = re.sub(r"\blines? \d+", "", words)
    for word, number in OF.findall(words):
        if int(number) not in facts.of[word.lower()] | (others if word.lower() == "byte" else set()):
            yield f"its line tells of no {word} {number}"
    for number in numbers_in(words) - facts.all - others:
        yield f"its line doesn't tell {number}"


def total(words):
    """How many objects a list names: each by a word for its number, and as one where it has none."""
    words = re.split(r"[.:] ?", words.rstrip("."))
    listed = words[1] if len(words) > 1 and ("objects" in words[0]) else words[0]
    parts = re.split(r", and |, | and ", listed)
    found = [it.split()[0].lower() for it in parts if not it.startswith("which ")]
    return sum(COUNTED.index(it) if it in COUNTED else 2 if it == "both" else 1 for it in found)


def summed(row):
    """What is wrong with the words about a transcript's last line."""
    lines, entries, objects = map(int, re.findall(r"\d+", row[2]))
    value = lambda word: COUNTED.index(word.lower()) if word.lower() in COUNTED else int(word) if word.isdigit() else 0
    for number, word in (lines, "lines"), (entries, "entries"), (objects, "objects"):
        for told in re.findall(rf"\b(\w+) {word}\b", row[3]):
            if value(told) != number:
                yield f"it tells of {told} {word}, there are {number}"
    if ":" in row[3] or "objects" not in row[3]:
        if total(row[3]) != objects:
            yield f"it names {total(row[3])} objects, {objects} are left"


def worked_words(worked):
    """The last column of each worked table: what it names the line's entries tell, or its example."""
    access = definitions.text_of("lpc_model", "specs", "antt")
    right = int(re.search(r"^SECTION_MAP_WRITE = (\d+)$", access, re.M)[1])
    for page, examples in worked.items():
        text = (pages.ROOT / page).read_text(encoding="utf-8")
        found = [rows for _, head, rows in tables(text) if head[:3] == ["Line", "Script", "Transcript"]]
        for rows, (name, *_) in zip(found, examples):
            script, transcript = pages.example(name)
            line = 0
            for row in rows:
                line = int(row[0] or line)
                if "`end " in row[2]:
                    yield f"{page}: what is left of {name}", list(summed(row))
                    continue
                others = {8} if "hexadecimal digits" in row[3] else set()
                others |= {right} if " right " in row[3] else set()
                if page == "docs/SECURITY.md" and re.search(r"\blevel\b", row[3], re.I):
                    others |= levels_of(script, line)
                wrong = list(spoken(row, Facts(script, transcript, line), others, len(script)))
                yield f"{page}: {name}, the words on line {line}", wrong


def let_in(entries, sids, wanted):
    """Whether a list grants a token the rights that are wanted, as `grants_left` is defined."""
    for letter, mask, sid in entries or ():
        if not wanted:
            break
        if sid not in sids:
            continue
        if letter == "A":
            wanted &= ~mask
        elif mask & wanted:
            return False
    return entries is None or not wanted


def lists():
    """The tables of docs/SECURITY.md on who may connect, against the definitions."""
    model = definitions.Refusals()
    yield from stands("lpc_sid", GRANTS, "the grants of a list")
    model_text = definitions.text_of("lpc_model", "specs", "antt")
    right = int(re.search(r"^CONNECT_RIGHT = (\d+)$", model_text, re.M)[1])
    level, denied = model.of("access_test")
    sids, told = {"S-1-5-21-9", "S-1-1-0"}, table_of("SECURITY.md", "The thread acts with", "The port has")
    yield "SECURITY.md: the first row on a connect", [] if told[0][1:] == ["any list, or none", level] else [told[0]]
    answers = {it: "goes on" if let_in(them, sids, right) else denied for it, them in SPOKEN_LISTS.items()}
    found = {row[1]: row[2] for row in told[1:]}
    yield "SECURITY.md: who may connect", [] if found == answers else [f"it tells {found}, wanted are {answers}"]
    for shown, answer, _ in table_of("SECURITY.md", "List"):
        text = shown.strip("`").removeprefix("acl:")
        entries = None if text == "none" else [tuple(it.split("/")) for it in text.split(",") if it]
        entries = entries and [(letter, int(mask), sid) for letter, mask, sid in entries]
        wanted = "goes on" if let_in(entries, sids, right) else denied
        yield f"SECURITY.md: the list {shown}", [] if answer == wanted else [f"it is {answer}, wanted is {wanted}"]


def suite_told(name, line):
    """What a case of the suite on impersonation tells of a line."""
    file = SUITE / "NtImpersonateClientOfPort" / f"{name}.transcript"
    entries = file.read_text(encoding="utf-8").splitlines()
    return next(it for it in entries if it.startswith(f"{line} "))


def taken():
    """The tables of docs/SECURITY.md on whom a server sees, and on what becomes of what it took."""
    cases = dict(re.findall(r"^  \| (Static|Dynamic) ↦ (\w+)", definitions.bodies("lpc_model")["tracked"][1], re.M))
    yield "tracking is defined so", [] if cases == {"Static": "kept", "Dynamic": "acting_token"} else [f"{cases}"]
    rows = table_of("SECURITY.md", "When it connected, the client acted")
    for connected, asks, static, dynamic in rows:
        now = SEEN_NOW.get(asks)
        # Where there are two, each is told apart.
        first = "the first one" if now == "the other one" else SEEN_AT_CONNECT.get(connected)
        seen = {"kept": first, "acting_token": now}
        wanted = [seen[cases["Static"]], seen[cases["Dynamic"]]]
        good = [static, dynamic] == wanted
        told = [] if good else [f"it tells {static}, {dynamic}; wanted are {wanted}"]
        yield f"SECURITY.md: {connected}, {asks}", told
    yield "SECURITY.md: who is seen", [] if len(rows) == 5 else [f"there are {len(rows)} rows"]
    rows = {row[0]: row[1:] for row in table_of("SECURITY.md", "Then", "The server's thread acts")}
    for then, ((name, stays), (anew, line)) in THEN.items():
        acts, again = rows.get(then, ("", ""))
        # The script's client is this user, for whom the thread acted before.
        stayed = suite_told(name, stays).endswith(" user=S-1-5-21-7")
        wrong = [] if stayed and acts == "as before" else [f"it acts {acts}"]
        status = suite_told(anew, line).split()[3].upper()
        wanted = status if status != "00000000" else None
        if STATUS.findall(again) != ([wanted] if wanted else []) or again.startswith("no, ") != bool(wanted):
            wrong.append(f"it tells {again}, line {line} of {anew} {status}")
        yield f"SECURITY.md: {then}", wrong
    missing = sorted(set(rows) - set(THEN) - {"the client acts for somebody, or as itself again"})
    yield "SECURITY.md: what becomes of it", [f"{it} is shown by no script" for it in missing]


def turns():
    """The tables of docs/EXCEPTIONS.md on the order in one line, and on the turns behind line 23 of its example."""
    yield from stands("lpc_model", TURNS, "the turns")
    script, transcript = pages.example("a-debugger-that-ends")
    debugged, line = dict(pages.debuggers(script, transcript)), 23
    process_of = {it[3]: it[2] for it in map(pages.MADE.fullmatch, script) if it}
    waiting = [it.split()[1] for it in transcript if re.match(r"\d+ \d+ raise wait", it) and int_of(it) < line]
    told = [it.split() for it in transcript if it.startswith(f"{line} ")]
    ended = [it[1].strip("~") for it in told if it[1][0] == "~"]
    hears = {str(it.process) for it in map(shown_message, (" ".join(it) for it in told)) if it}
    handled = {it[1].strip("*") for it in told if it[1][0] == "*" and it[2] == "raise"}

    def marked_by(thread):
        return [it for it in waiting if debugged.get(process_of[it]) == process_of[thread]]

    marks, doomed = marked_by(ended[0]), []
    wanted = [["the call", [], [], [f"{ended[0]} dies", f"{marks[0]}'s event is marked, then {marks[1]}'s"]]]
    while marks or doomed:
        row = [str(len(wanted)), list(marks), list(doomed)]
        if marks:
            thread = marks.pop(0)
            said = [f"{thread} goes on"]
            if process_of[thread] in hears:
                said.append("The server takes the event")
            elif thread in handled:
                said.append("its frame handlers handle the exception")
            else:
                doomed.append(process_of[thread])
                said.append(f"Process {doomed[-1]} is doomed")
        else:
            process = min(doomed, key=int)
            doomed.remove(process)
            (thread,) = (it for it in ended if process_of[it] == process)
            marks = marked_by(thread)
            said = [f"so {process} ends: {thread} dies", *(f"{it}'s event is marked" for it in marks)]
        wanted.append([*row, said])
    rows = table_of("EXCEPTIONS.md", "Turn", "What is marked")
    yield "EXCEPTIONS.md: the turns", [] if len(rows) == len(wanted) else [f"there are {len(rows)}, not {len(wanted)}"]
    for (turn, marked, dooms, does), (number, marks, doomed, said) in zip(rows, wanted):
        wrong = [f"it isn't {number}"] * (turn != number)
        wrong += [f"marked are {', '.join(marks)}"] * (marked != ", ".join(marks))
        wrong += [f"doomed are {', '.join(doomed)}"] * (dooms != ", ".join(doomed))
        named = set(re.findall(r"\d+", does.replace("handle 4 ", ""))) - set(re.findall(r"\d+", " ".join(said)))
        wrong += [f"it doesn't say {it}" for it in said if it not in does] + [f"it names {it}" for it in sorted(named)]
        yield f"EXCEPTIONS.md: turn {turn}", wrong
    order = table_of("EXCEPTIONS.md", "What", "Order")
    words = ["own thread", "the call ends, sends and wakes", "events that aren't handled go on: wakes with 00000000",
             "doomed processes end, one at a time", "marked goes on before the next doomed process ends"]
    behind = ["one", "SERVICES.md", "first is first", "the least number first", "as above"]
    for at, (what, when) in enumerate(zip(words, behind)):
        good = at < len(order) and what in order[at][0] and when in order[at][1]
        yield f"EXCEPTIONS.md: in one line, {at + 1}", [] if good else [f"it isn't that {what}: {when}"]
    yield "EXCEPTIONS.md: in one line", [] if len(order) == len(words) else [f"there are {len(order)} rows"]


def waits():
    """The tables of docs/WAITS.md: each wake has in the script that shows it the status and the fields that are told,
    and the last table has the statuses of those above it."""
    text, count, seen = (pages.DOCS / "WAITS.md").read_text(encoding="utf-8"), 0, {}
    for call, head, rows in tables(text):
        if head[0] != "What ends it":
            continue
        for ends, returns, rule, shown in rows:
            count += 1
            files = SHOWN.findall(shown)
            entries = [
                it for _, path in files
                for it in (pages.DOCS / f"{path}.transcript").resolve().read_text(encoding="utf-8").splitlines()
            ]
            statuses = STATUS.findall(returns.partition(";")[0].partition(":")[0])
            wrong = [] if files else ["it names no script"]
            for status in statuses:
                seen.setdefault(call, set()).add(status)
                woken = [it for it in entries if re.match(rf"\d+ \*\d+ {call} {status.lower()}\b", it)]
                fields = [it for it in CODE.findall(returns) if it in ("h", "max", "info", "ctx", "msg")]
                if not any(all(f" {it}=" in entry for it in fields) for entry in woken):
                    wrong.append(f"no wake of {call} with {status} and {fields} is in its script")
            if not statuses and not any(re.match(r"\d+ ~\d+ died ", it) for it in entries):
                wrong.append("nobody dies in its script")
            for refused in STATUS.findall(returns.partition(";")[2]):
                if not any(f" {refused.lower()}" in it for it in entries):
                    wrong.append(f"its script doesn't tell {refused}")
            wrong += list(steps_of(rule, ends))
            yield f"WAITS.md, {call}: {ends}", wrong
    yield f"WAITS.md has {WAIT_ROWS} rows", [] if count == WAIT_ROWS else [f"{count} were read"]
    head, rows = next((head, rows) for _, head, rows in tables(text) if head[0] == "Call")
    found = {row[0].strip("`"): {it for it, cell in zip(head[1:], row[1:]) if cell} for row in rows}
    yield "WAITS.md, in one table", [] if found == seen else [f"it tells {found}, the tables above {seen}"]


def steps_of(rule, ends):
    """What is wrong with the steps that a rule names: docs/SERVICES.md has them, and they do what ends the wait."""
    found = re.search(r"\[([^\]]*)\]\([^)]*\)(?:, steps? (\d)(?: to (\d))?)?", rule)
    if not found[2]:
        return
    numbers = range(int(found[2]), int(found[3] or found[2]) + 1)
    services = (pages.DOCS / "SERVICES.md").read_text(encoding="utf-8")
    rows = next(rows for heading, head, rows in tables(services) if (heading, head[0]) == (found[1], "Step"))
    names = dict(re.findall(r"^(\d+)\. (.*)$", "\n".join(row[0] for row in rows), re.M))
    for number in numbers:
        if str(number) not in names:
            yield f"{found[1]} has no step {number}"
    step = {"its thread dies": "waits", "its thread dies, by a call": "waits"}.get(ends.partition(";")[0])
    for part, wanted in CLOSES:
        step = step or (wanted if part in ends else None)
    if step and not any(names.get(str(it)) == step for it in numbers):
        yield f"it names step {found[2]}, {names.get(found[2])}; {step} is wanted"


def residents():
    """The run that docs/RESIDENT.md reads, against its example, which has one line more, a comment."""
    _, transcript = pages.example("a-server-on-a-thread")
    rows = table_of("RESIDENT.md", "Line", "Printed", "What the server does")
    for line, printed, _ in rows:
        found, at = WAKES.match(printed), int(line) + 1
        entries = [re.sub(r"^\d+ ", "", it) for it in transcript if it.startswith(f"{at} ")]
        wrong = [] if found and found[1] == f"{line} {entries[0]}" else [f"the example tells {entries[0]}"]
        wrong += list(woken(found, entries)) if found else []
        yield f"RESIDENT.md, line {line}", wrong
    # The first three lines make the processes and the port.
    lines = sorted({int_of(it) - 1 for it in transcript if int_of(it) < LAST})[3:]
    told = [int(row[0]) for row in rows]
    yield "RESIDENT.md: the lines", [] if told == lines else [f"it tells of {told}, wanted are {lines}"]


def woken(found, entries):
    """What is wrong with how a row says that a thread wakes."""
    stars = [it for it in entries if it.startswith("*")]
    if len(stars) != bool(found[2]):
        yield f"the example has the wakes {stars}"
    for entry in stars if found[2] else []:
        it, what = shown_message(entry), found[3]
        kinds = {"the request": (message.REQUEST, message.CONNECTION_REQUEST)}
        good = entry.startswith(f"*{found[2]} ") and (
            (it and it.type in kinds[what]) if what in kinds
            else (it and it.type == int(what[5:])) if what.startswith("type ")
            else (it and f"the data `{it.data.hex()}`" == what) if what.startswith("the data ")
            else f" {what.strip('`')} " in entry
        )
        if not good:
            yield f"the example has {entry}"


def ends():
    """The lines of its example that docs/ENDINGS.md names of what is left of a wait: each of them is about the thread
    that died there."""
    died = {line: (thread, call, state) for line, thread, call, state in pages.died_waiting("clients-that-die")}
    script, transcript = pages.example("clients-that-die")
    for first, state, left, lines in table_of("ENDINGS.md", "The thread waits in", "State"):
        numbers = list(map(int, re.findall(r"^\d+|(?<=, )\d+", lines)))
        if not numbers:
            continue
        _, call, state_there = died.get(numbers[0], ("", "", ""))
        wrong = [] if call else [f"nobody dies in a wait in line {numbers[0]}"]
        for number in numbers[1:]:
            words = script[number - 1].split()
            told = [it.split() for it in transcript if it.startswith(f"{number} ")]
            # What is left is shown by who serves the queue: a receive, a listen, a reply, a complete, a close.
            if len(words) < 2 or not told or words[1] not in LEFT_TO:
                wrong.append(f"line {number} shows nothing of it: {script[number - 1]}")
                continue
            refused = STATUS.findall(left)
            if refused and words[1] in ("NtReplyPort", "NtCompleteConnectPort"):
                wrong += [f"line {number} isn't refused with {refused[0]}"] * (told[0][3].upper() != refused[0])
            if words[1] == "NtClose" and told[0][3] != "00000000":
                wrong.append(f"line {number} closes nothing")
        yield f"ENDINGS.md: {first or 'the same'}, {state}, the lines", wrong


def one_line_more():
    """The line of an example that docs/ENDINGS.md reads entry by entry: all its entries, and words that name threads
    and processes of the example alone, among them the entry's own."""
    script, transcript = pages.example("a-debugger-that-ends")
    entries = [it for it in transcript if it.startswith("23 ")]
    (head, rows), = (
        (head, rows) for _, head, rows in tables((pages.DOCS / "ENDINGS.md").read_text(encoding="utf-8"))
        if head[0].startswith("Line 23 of ")
    )
    shown = [row[0].strip("`") for row in rows]
    good = len(shown) == len(entries) and all(
        entry.startswith(it.removesuffix("..").rstrip()) for it, entry in zip(shown, entries)
    )
    yield "ENDINGS.md: the entries of line 23", [] if good else [f"it shows {shown}, wanted are {entries}"]
    made = [it.groups() for it in map(pages.MADE.fullmatch, script) if it]
    process_of = {it[2]: it[1] for it in made}
    debugged, known = dict(pages.debuggers(script, transcript)), {number for it in made for number in it[1:3]}
    for shown, does in rows:
        thread = re.match(r"`23 [*~](\d+)", shown)[1]
        wrong = [f"{it} is no process or thread" for it in sorted(set(re.findall(r"\d+", does)) - known)]
        for event in re.findall(r"event of (\d+)|(\d+)'s event", does):
            wrong += [f"{it} is no thread" for it in event if it and it not in process_of]
        for process in re.findall(r"(\d+) ends\b|port of (\d+)|debugger of (\d+)|(\d+) has no", does):
            wrong += [f"{it} is no process" for it in process if it and it not in process_of.values()]
        for process in re.findall(r"debugger of (\d+)", does):
            if debugged.get(process) != process_of[thread]:
                wrong.append(f"the debugger of {process} is {debugged.get(process)}")
        yield f"ENDINGS.md: {shown}", wrong


def handles_behind(script, transcript, line):
    """The handles that each process has in front of a line, by what the transcript tells of those that were given and
    closed. Handles that a duplicate or a new process brings are told by the same fields."""
    front = script[: line - 1]
    process_of = {it[3]: it[2] for it in map(pages.MADE.fullmatch, front) if it}
    for it in filter(None, map(re.compile(r"thread (\d+) (\d+)").fullmatch, front)):
        process_of[it[1]] = it[2]
    found = {it: set() for it in process_of.values()}
    for entry in transcript:
        number, who, *rest = entry.split()
        if number == "end" or int(number) >= line or who == "-":
            continue
        process = process_of[who.strip("*~")]
        found[process] |= {int(it) for it in re.findall(r"\b(?:h|thread)=(\d+)", entry)}
        if rest[:2] == ["NtClose", "00000000"]:
            found[process].discard(int(script[int(number) - 1].split()[2]))
    return process_of, found


def before():
    """The tables of docs/CLOSING.md and docs/ENDINGS.md on what stands in front of a line: the processes with all their
    threads and handles."""
    for page, name, line in ("CLOSING.md", "closing-client", 21), ("ENDINGS.md", "clients-that-die", 18):
        script, transcript = pages.example(name)
        process_of, handles = handles_behind(script, transcript, line)
        heading = f"Before: `{script[line - 1]}`"
        text = (pages.DOCS / page).read_text(encoding="utf-8")
        found = [rows for it, head, rows in tables(text) if it == heading and head == ["Process", "Threads", "Handles"]]
        yield f"{page}: the line that is drawn", [] if found else [f"it has no part {heading}"]
        for process, threads, held in found[0] if found else ():
            number = process.split(",")[0]
            stand = sorted(handles.get(number, ()))
            wanted = [it for it, of in process_of.items() if of == number]
            told = re.findall(r"^\d+|(?<=; )\d+|(?<=, )\d+(?=,|;| |$)", threads)
            wrong = [f"its threads are {wanted}"] * (told != wanted)
            digits = [int(it) for it in re.findall(r"^\d+|(?<=, )\d+", held)]
            wrong += [f"its handles are {stand}"] * (sorted(digits) != stand)
            for other in re.findall(r"of handle (\d+)|on handle (\d+)", threads):
                wrong += [f"it has no handle {it}" for it in other if it and int(it) not in stand]
            yield f"{page}: process {process} in front of line {line}", wrong


def reply_handles():
    """The table of docs/CONNECTIONS.md on the port of a reply, against two lines of its example."""
    script, transcript = pages.example("two-clients")
    rows = table_of("CONNECTIONS.md", "Handle of the server", "Port")
    replies = [(at, it.split()) for at, it in enumerate(script, 1) if re.match(r"24 NtReplyPort \d+ r:32\.36\.", it)]
    told = {row[0]: row[2] for row in rows}
    for at, words in replies:
        (entry,) = (it.split() for it in transcript if it.startswith(f"{at} 24 "))
        wanted = "fits" if entry[3] == "00000000" else entry[3].upper()
        good = told.get(words[2]) == wanted
        yield f"CONNECTIONS.md: a reply by handle {words[2]}", [] if good else [f"it is told {told.get(words[2])}"]
    given = re.findall(r"^\d+ 24 \w+ 00000000 h=(\d+)", "\n".join(transcript), re.M)
    yield "CONNECTIONS.md: the server's handles", [] if list(told) == given else [f"{list(told)}, wanted are {given}"]


def offers():
    """The table of docs/VIEWS.md on which fields an accept and a connect's wake have."""
    rows = {row[0]: row[1:] for row in table_of("VIEWS.md", "Offered by", "The accept has")}
    for by, name in OFFERS.items():
        transcript = (pages.ROOT / f"{name}.transcript").read_text(encoding="utf-8")
        accept = re.search(r"^\d+ \d+ NtAcceptConnectPort 00000000 (.*)$", transcript, re.M)[1]
        wake = re.search(r"^\d+ \*\d+ NtConnectPort 00000000 .* ?info=\w*(.*)$", transcript, re.M)[1]
        wanted = [re.findall(r"(\w+)=", it) for it in (accept, wake)]
        found = [CODE.findall(it) for it in rows.get(by, ())]
        yield f"VIEWS.md: offered by {by}", [] if found == wanted else [f"it tells {found}, wanted are {wanted}"]
    # What one side's view brings is the rest of what both bring.
    both, client, server = (
        [set(CODE.findall(it)) for it in rows.get(by, ("", ""))] for by in ("both", "the client", "the server")
    )
    wanted = [{"h"} | (both[0] - client[0]), both[1] - client[1]]
    yield "VIEWS.md: offered by the server", [] if server == wanted else [f"it tells {server}, wanted are {wanted}"]


def files_of_names():
    """The files that docs/DEFINITIONS.md names: each name of a row stands in one of its row's, or is a file's."""
    text = (pages.DOCS / "DEFINITIONS.md").read_text(encoding="utf-8")
    known = [it for ending in ("antt", "rt") for it in definitions.CRATES.rglob(f"*.{ending}") if "out" not in it.parts]
    for heading, head, rows in tables(text):
        if "File" in head:
            wrong = [it for row in rows for it in misplaced(row[head.index("Name")], row[head.index("File")], known)]
            yield f"DEFINITIONS.md, {heading}: the files", wrong


def misplaced(names, cell, known):
    """The names of a row that stand in none of the files that it names; a file of another crate has its folder."""
    files = [it for it in CODE.findall(f"{names} {cell}") if it.endswith((".antt", ".rt"))]
    found = [[it for it in known if str(it).endswith(f"/{file}")] for file in files]
    yield from (f"there is no {file}" for file, them in zip(files, found) if not them)
    texts = "".join(it.read_text(encoding="utf-8") for them in found for it in them)
    for name in CODE.findall(names) if files else ():
        if re.fullmatch(r"\w+", name) and not re.search(rf"\b{name}\b", texts):
            if not any(it.stem == name for it in known):
                yield f"{name} isn't in {', '.join(files)}"


def traced():
    """The table of docs/TRACES.md: what a trace has for an entry of a log is lines of these calls and directives, as
    long as their forms, and words of the form that stands there."""
    rows, status = table_of("TRACES.md", "In the log of your system"), definitions.profile()[1]
    words = definitions.text_of("lpc_model", "specs", "antt")
    asked = re.search(r"^TOKEN_IMPERSONATION_LEVEL = (\d+)$", words, re.M)[1]
    told = [row[0] for row in rows]
    yield "TRACES.md: the rows", [] if told == list(TRACED) else [f"it has {told}"]
    for log, trace in rows:
        spans = [it for it in CODE.findall(trace) if not it.startswith("ntlpc")]
        kinds = TRACED.get(log, "").split()
        wrong = [] if len(spans) == len(kinds) else [f"it has {spans}, wanted are {kinds}"]
        wrong += [f"{span} is no {kind}" for kind, span in zip(kinds, spans) if not is_traced(kind, span)]
        data = [it.rpartition(":")[2] for kind, it in zip(kinds, spans) if kind == "MSG"]
        if "event" in log:
            # An event is answered by a reply whose data begin with the status that continues it.
            wanted = [bytes.fromhex(status["DBG_CONTINUE"])[::-1].hex()]
        else:
            wanted = re.findall(r"the data (\w+)", trace)
        wrong += [f"the data are {data}, wanted are {wanted}"] * (data != wanted)
        wrong += [f"{it} doesn't ask for a level" for it in spans if "Query" in it and not it.endswith(f" {asked}")]
        yield f"TRACES.md: {log}", wrong


def is_traced(kind, span):
    """Whether a trace has a line of a call or a directive so, or a word of a form."""
    if kind in TRACE_WORDS:
        return re.fullmatch(TRACE_WORDS[kind], span) is not None
    words, form = re.sub(r"^\$\w+ = ", "", span).split(), forms.named(kind)
    least = len([it for it in form if not it.startswith("[")])
    named = words[0] == kind if kind in forms.DIRECTIVES else words[1:2] == [kind]
    return named and least <= len(words) <= len(form) and all(map(fits, form, words))


def fits(form, word):
    """Whether a word of a trace may stand for a word of a form: a name, a handle, or what the form says itself."""
    if form in ("PID", "TID"):
        return re.fullmatch(r"@\w+", word) is not None
    if form in ("H", "H|self", "PORT"):
        return re.fullmatch(r"\$\w+|self", word) is not None
    if form in ("CODE", "CLASS"):
        return re.fullmatch(r"\d+|0x[0-9a-f]{1,8}", word) is not None
    if form == "MSG":
        return re.fullmatch(r"d:(?:[0-9a-f]{2})*|r:\$\w+:(?:[0-9a-f]{2})*", word) is not None
    return word in form.split("|") if "|" in form else True


def printed_fields():
    """The table of docs/SCRIPTS.md on fields: the names and how each is printed, against the definitions."""
    text = definitions.text_of("lpc_model", "specs", "antt")
    names = dict(re.findall(r'^name_text (\w+) = codes "(\w+)"$', text, re.M))
    sorts = {names[it]: sort for it, sort in re.findall(r"^sort_of (\w+) = (\w+)$", text, re.M)}
    rows = table_of("SCRIPTS.md", "Field", "Value", "Printed as")
    told = {row[0].strip("`"): row[2] for row in rows}
    good = sorted(told) == sorted(sorts)
    yield "SCRIPTS.md: the fields", [] if good else [f"it has {sorted(told)}, wanted are {sorted(sorts)}"]
    for name, printed in told.items():
        wanted, most = PRINTED_AS.get(sorts.get(name), "no sort"), definitions.profile()[0]["MESSAGE_LIMIT"]
        # The one field that always tells the same tells it there.
        good = re.fullmatch(f"(?:{wanted})" + f": {most}" * (name == "max"), printed)
        yield f"SCRIPTS.md: the field {name}", [] if good else [f"{printed}, it is {sorts.get(name)}"]


def layout():
    """The table of docs/SCRIPTS.md on where the fields of a message lie, against the definitions."""
    text = definitions.text_of("lpc_message", "specs", "antt")
    places = re.findall(r"(\w+) = (half|word)_at bytes (\d+)", text)
    sizes = {"half": 2, "word": 4}
    wanted = {LAID_OUT[it]: (int(at), sizes[size]) for it, size, at in places if it in LAID_OUT}
    told = {}
    for row in table_of("SCRIPTS.md", "Bytes", "Field", "Bytes", "Field"):
        for place, field in zip(row[::2], row[1::2]):
            first, last = re.split(", | to ", place)
            # (the cell of the type has the types, too)
            told[field.partition(":")[0]] = (int(first), int(last) - int(first) + 1)
    yield "SCRIPTS.md: where the fields lie", [] if told == wanted else [f"it tells {told}, wanted are {wanted}"]


def options():
    """The table of docs/CONFORMANCE.md on the options of `conformance/run`, and that on the keys of its results."""
    text = (SUITE / "run").read_text(encoding="utf-8")
    known = re.findall(r'^    add\("(--[\w-]+)"(.*)\)$', text, re.M)
    wanted = {it: (re.search(r'metavar="([^"]*)"', words) or [None, ""])[1] for it, words in known}
    rows = [[it.strip("`") for it in row[:1]] + row[1:] for row in table_of("CONFORMANCE.md", "Option", "What it does")]
    told = {row[0].split()[0]: row[0].partition(" ")[2] for row in rows}
    yield "CONFORMANCE.md: the options", [] if told == wanted else [f"it tells {told}, wanted are {wanted}"]
    seconds = re.search(r'"--timeout".* default=(\d+)', text)[1]
    (row,) = (row for row in rows if row[0].startswith("--timeout"))
    yield "CONFORMANCE.md: how long a script may take", [] if f"; {seconds} where" in row[1] else [row[1]]
    text = (pages.ROOT / "tools" / "ntlpc_tool" / "results.py").read_text(encoding="utf-8")
    body = text[text.index("def _object(") :].partition("    return found")[0]
    wanted = set(re.findall(r'"(\w+)": ', body)) | set(re.findall(r'found\["(\w+)"\]', body))
    wanted |= {it for words in re.findall(r"found\.update\((.*)\)", body) for it in re.findall(r"(\w+)=", words)}
    told = {it for row in table_of("CONFORMANCE.md", "Key", "Value") for it in CODE.findall(row[0])}
    yield "CONFORMANCE.md: the keys", [] if told == wanted else [f"it tells {told}, wanted are {wanted}"]


def steps_here():
    """What the steps of docs/CLOSING.md and docs/ENDINGS.md find, against the entries of the line that is drawn."""
    for what, here, does in table_of("CLOSING.md", "Step", "What it finds here"):
        woken = re.findall(r"`\d+ \*(\d+) ", does)
        wrong = [f"it names {here}, and wakes {woken}"] * (re.findall(r"\b\d+\b", here) != woken)
        yield f"CLOSING.md, {what}: what it finds", wrong
    script, transcript = pages.example("clients-that-die")
    told = [it for it in transcript if it.startswith("18 ")]
    dead = re.findall(r"~(\d+) died", "\n".join(told))
    (receiver,) = re.findall(r"\*(\d+) NtReplyWaitReceivePort", "\n".join(told))
    named = {it.split()[0] for it in script[:17] if " NtRegisterThreadTerminatePort " in it}
    (registered,), (other,) = ([it for it in dead if (it in named) == has] for has in (True, False))
    kinds = definitions.numbers_of("lpc_message")
    _, handles = handles_behind(script, transcript, 18)
    (process,) = {it[2] for it in map(pages.MADE.fullmatch, script) if it and it[3] in dead}
    (handle,) = handles[process]
    wanted = {
        "died": f"{dead[0]}, the first thread of the process, then {dead[1]}, the second",
        "client died": f"{other} has registered nothing, {registered} the client port, which is open and has a way",
        "handles": f"no thread is left: handle {handle}, the only one",
    }
    said = {
        "client died": [f"a message of type {kinds['CLIENT_DIED']} goes to", f"Thread {receiver} waits there"],
        "handles": [f"and a message of type {kinds['PORT_CLOSED']} enters the connection port's queue"],
    }
    rows = {row[0]: row[1:] for row in table_of("ENDINGS.md", "Step", "What it finds here")}
    for step, here in wanted.items():
        found, does = rows.get(step, ("", ""))
        wrong = [f"it finds {found}, wanted is {here}"] * (found != here)
        wrong += [f"it doesn't say {it}" for it in said.get(step, ()) if it not in does]
        yield f"ENDINGS.md, {step}: what it finds", wrong


def folders():
    """The table of docs/CONFORMANCE.md on the folders of the suite: each that it names is there, and it names those of
    the directives."""
    rows = [row[0] for row in table_of("CONFORMANCE.md", "Folder", "What its scripts show")]
    named = {it for row in rows for it in CODE.findall(row)}
    there = {it.parent.name for it in SUITE.glob("*/*.script")}
    yield "CONFORMANCE.md: the folders", [f"there is no {it}" for it in sorted(named - there)]
    directives = set(forms.DIRECTIVES) & there
    missing = sorted(directives - named)
    yield "CONFORMANCE.md: the folders of directives", [f"{it} isn't there" for it in missing]


def words_of_program():
    """The words of the program in README.md, and what it prints for others, against the definitions."""
    text = definitions.text_of("lpc_replay", "specs", "antt")
    readme = (pages.ROOT / "README.md").read_text(encoding="utf-8")
    rows = next(rows for _, head, rows in tables(readme) if head[0] == "Words")
    for words, does in rows:
        known = CODE.findall(words)[0].split()[0] if "`" in words else CODE.findall(does)[0]
        found = f'codes "{known}"' in text or f'codes "{known}\\n"' in text
        yield f"README.md: the words {words}", [] if found else [f"no definition has {known}"]


def checks(worked):
    """All checks: each with its name and what it found wrong. `worked` are the worked tables, by their pages."""
    yield from worked_words(worked)
    for group in GROUPS:
        yield from group()


GROUPS = (
    lists, taken, turns, waits, residents, ends, one_line_more, before, reply_handles, offers, files_of_names, traced,
    printed_fields, layout, options, steps_here, folders, words_of_program,
)
