#!/usr/bin/env python3
"""Holds the pages against each other, against the files that they speak of, and against the program.

    tests/pages.py [PROGRAM [WORDS..]]

- Each link of a page leads to a file of this checkout, and to a heading where it names one.
- Each page below docs/ is reached from the README. Its version, and the newest of CHANGELOG.md, is that of VERSION.
- The manual page has the lines of docs/SCRIPTS.md and the statuses of the README, and the README has all lines too.
- Each example line of docs/SERVICES.md stands in the script that it names, whose transcript tells for it what the page
  says, and no more.
- The scripts that stand in examples/ are worked in the specs, text for text.
- The scripts and transcripts of the exercises stand in examples/exercises/, and their diagrams are those that the
  companion tool draws. The fields of views have in the example what docs/VIEWS.md says.
- The steps of docs/CLOSING.md and docs/ENDINGS.md are those of docs/SERVICES.md, and what docs/ENDINGS.md tells of
  waits is that of its example. The tables of processes have those of their examples, with their threads and tokens.
- The messages that pages draw, and the one whose bytes docs/CONNECTIONS.md tells, are those of their examples.
- With PROGRAM, each script of docs/FAULTS.md stops at its last line with the kind of its section, or prints the
  transcript that stands behind it, the commands of docs/CHECK_YOUR_OWN.md print what the page shows, and the code of
  docs/CONVERSATION.md holds the conversation that it is for; the C code is left out where there is no C compiler. The
  lists of docs/SECURITY.md let the client in or not as told there, as many hold the ports of docs/CLOSING.md, the run
  of docs/RESIDENT.md with a view and the storms of docs/STORM.md print their lines.

Each check that fails has a line, and the last line is `N passed, M failed`. The exit status is 0 where all passed, 1
where not, and 64 where PROGRAM can't be run.
"""
import json
import os
import pathlib
import re
import shutil
import subprocess
import sys
import tempfile

sys.dont_write_bytecode = True
import running
from failing import compiler
from tally import tally

ROOT = pathlib.Path(__file__).resolve().parent.parent
sys.path.insert(0, str(ROOT / "tools"))
from ntlpc_tool import message
from ntlpc_tool.pages import tables

DOCS = ROOT / "docs"
PAGES = [*sorted(ROOT.glob("*.md")), *sorted(DOCS.glob("*.md"))]
EXAMPLES = ROOT / "examples"
CODE = re.compile(r"`([^`]*)`")
STATUS = re.compile(r"\b[0-9A-F]{8}\b")
LINK = re.compile(r"\[[^\]]*\]\(([^)\s]+)\)")
DEFINED = re.compile(r"\[([^\]]+)\]: (\S+)")
EXAMPLE = re.compile(r"\| `(\d+) ([^`]*)`.* \[([\w-]+)\] \| (.*) \|")
WORKED = re.compile(r'transcript \(codes "((?:[^"\\]|\\.)*)"\) ≡ codes "((?:[^"\\]|\\.)*)"')
ELSEWHERE = re.compile(r"[a-z]+:", re.I)
COMMAND = re.compile(r"^\$ (.*)\n((?:(?!\$ ).*\n)*)", re.M)
ESCAPE = re.compile(rb"\\(?:x([0-9A-Fa-f]{2})|(.))")
ESCAPED = {b"t": b"\t", b"r": b"\r", b"n": b"\n", b"\\": b"\\"}
# A message that is drawn: its type, its client and identifier, and its context, or the chance of an event. The examples
# of the pages that have some, and how many.
DRAWN = re.compile(r"(\d), (\d+\.\d+\.\d+), (chance|context) (\d+)")
DRAWN_MESSAGES = {"EXCEPTIONS.md": ("a-debugger-and-its-child", 3), "ENDINGS.md": ("clients-that-die", 2)}
# The examples of the tables of processes, and how a line makes a process: by which thread, and with which token.
PROCESSES = {
    "CONNECTIONS.md": "connect-and-ask",
    "EXCEPTIONS.md": "a-debugger-that-ends",
    "SECURITY.md": "a-server-that-acts-for-its-client",
}
MADE = re.compile(r"(?:boot|(\d+) NtCreateProcess) (\d+) (\d+)(?: (\w+))?")
# An entry of a call: its line, its mark, its thread, its call and its status, or that it waits, with an identifier.
CALLED = re.compile(r"(\d+) ([*~]?)(\d+) (\w+) (wait|[0-9a-f]{8})(?: id=(\d+))?")
# What docs/ENDINGS.md calls the waits of what was sent.
SENT = {"a request": "NtRequestWaitReplyPort", "a connect": "NtConnectPort"}
# The steps of these pages: the part of docs/SERVICES.md that has them, and how many.
STEPS = {"CLOSING.md": ("Closing a port", 7), "ENDINGS.md": ("Threads and processes that end", 4)}
# How many checks these groups make, so that what is no longer read is seen. Who adds an example line, an example, an
# exercise or a script of docs/FAULTS.md changes the number.
COUNTS = {
    "version": 2,
    "manual": 3,
    "examples_of_services": 152,
    "worked_examples": 24,
    "exercises": 12,
    "fields_of_views": 6,
    "processes": 15,
    "endings": 8,
    "drawings": 11,
    "faults": 70,
    "access_lists": 6,
    "pointers": 6,
    "views_of_a_server": 8,
    "storm_lines": 2,
}
LINKS_AT_LEAST = 200


class Block:
    """A fenced block of a page: the level-2 heading above it, the word behind its fence, and its text."""

    def __init__(self, heading, kind, text):
        self.heading = heading
        self.kind = kind
        self.text = text


def blocks_of(page):
    """The fenced blocks of a page, in order."""
    heading, lines = "", None
    for line in page.read_text(encoding="utf-8").splitlines(True):
        if lines is None and line.startswith("```"):
            kind, lines = line.strip("`\n"), []
        elif lines is not None and line.startswith("```"):
            yield Block(heading, kind, "".join(lines))
            lines = None
        elif lines is not None:
            lines.append(line)
        elif line.startswith("## "):
            heading = line[3:].strip()


def prose_of(page):
    """The lines of a page, with an empty one in place of each that stands in a fenced block."""
    fenced = False
    for line in page.read_text(encoding="utf-8").splitlines():
        fence = line.startswith("```")
        yield "" if fenced or fence else line
        fenced ^= fence


def links_of(page):
    """What the links of a page name; none that stands in code, nor one to another site."""
    for line in prose_of(page):
        defined = DEFINED.fullmatch(line)
        for target in [defined[2]] if defined else LINK.findall(without_code(line)):
            if not ELSEWHERE.match(target):
                yield target


def without_code(line):
    """A line whose code has no brackets, so that none of it looks like a link."""
    return re.sub(r"`[^`]*`", lambda found: re.sub(r"[\[\]()]", "", found[0]), line)


def anchors_of(page):
    """The names of a page's headings, as a link spells them; a name that comes again is numbered."""
    seen = {}
    for line in prose_of(page):
        heading = re.fullmatch(r"#+\s+(.*?)\s*", line)
        if heading:
            text = LINK.sub(lambda found: found[0][1:].split("](")[0], heading[1])
            name = re.sub(r"[^\w\- ]", "", text.lower()).replace(" ", "-")
            yield f"{name}-{seen[name]}" if name in seen else name
            seen[name] = seen.get(name, 0) + 1


def fault_of(page, target):
    """What is wrong with a link; nothing where it leads somewhere."""
    path, _, anchor = target.partition("#")
    file = (page.parent / path).resolve() if path else page
    if not file.is_relative_to(ROOT) or not file.exists():
        return f"{target}: there is no such file"
    if anchor and (file.suffix != ".md" or anchor not in anchors_of(file)):
        return f"{target}: {file.name} has no such heading"
    return ""


def links():
    """The links of each page, and that each page is reached from the README."""
    for page in PAGES:
        name = page.relative_to(ROOT).as_posix()
        yield f"the links of {name}", [it for it in (fault_of(page, link) for link in links_of(page)) if it]
    count = sum(len(list(links_of(page))) for page in PAGES)
    yield f"there are {LINKS_AT_LEAST} links at least", [] if count >= LINKS_AT_LEAST else [f"{count} were read"]
    reached = {(ROOT / it.partition("#")[0]).resolve() for it in links_of(ROOT / "README.md")}
    missing = [page.name for page in PAGES if page.parent == DOCS and page not in reached]
    yield "the README leads to each page", [f"it has no link to docs/{it}" for it in missing]


def version():
    """The version that the README and CHANGELOG.md name, against the file VERSION."""
    files = ("VERSION", "README.md", "CHANGELOG.md")
    number, readme, changes = ((ROOT / it).read_text(encoding="utf-8").strip() for it in files)
    newest = re.search("^## (.*)$", changes, re.M)
    yield "the README's version", [] if f"This is version {number};" in readme else [f"it isn't {number}"]
    yield "the newest of CHANGELOG.md", [] if newest and newest[1] == number else [f"it isn't {number}"]


def manual():
    """The lines of a script and the exit statuses in the manual page, the README and SCRIPTS.md."""
    readme, scripts = ((ROOT / it).read_text(encoding="utf-8") for it in ("README.md", "docs/SCRIPTS.md"))
    page = (ROOT / "packaging" / "ntlpc.1").read_text(encoding="utf-8")
    forms = first_cells(scripts, "## Lines")
    told = re.findall(r"^\.TP\n\.B (.*)$", page[page.index(".SH SCRIPT") : page.index(".SH TRANSCRIPT")], re.M)
    yield "the lines in ntlpc.1", [] if told == forms else [f"{told}, wanted are {forms}"]
    names, wanted = names_of_families(readme), list(map(name_of, forms))
    yield "the lines in the README", [] if names == wanted else [f"{names}, wanted are {wanted}"]
    wanted = re.findall(r"^\| (\d+) \| ([^|]*) \|$", readme.replace("`", ""), re.M)
    entries = re.findall(r"^\.B (\d+)\n((?:[^.].*\n)+)", re.sub(r"\\f[BR]", "", page), re.M)
    told = [(number, " ".join(text.split())) for number, text in entries]
    yield "the statuses in ntlpc.1", [] if told == wanted else [f"{told}, wanted are {wanted}"]


def names_of_families(readme):
    """The calls and directives that the README names, family by family."""
    table = readme[readme.index("| Family |") :].partition("\n\n")[0]
    return [name for row in table.splitlines() for name in re.findall(r"`(\w+)`", row)]


def first_cells(text, heading):
    """The first cells of the first table behind a heading, as code."""
    behind = text[text.index(heading) :]
    table = re.search(r"(?:^\|.*\n)+", behind, re.M)[0]
    return re.findall(r"^\| `([^`]*)` \|", table, re.M)


def name_of(form):
    """The call or directive of a line's form."""
    words = form.split()
    return words[1] if words[0] == "TID" else words[0]


def examples_of_services():
    """The example lines of docs/SERVICES.md, against the script that each names and its transcript."""
    lines = list(prose_of(DOCS / "SERVICES.md"))
    places = dict(found.groups() for found in map(DEFINED.fullmatch, lines) if found)
    for row in lines:
        if re.match(r"\| `\d", row):
            yield f"SERVICES.md: {row}", [it for it in [fault_of_example(row, places)] if it]


def fault_of_example(row, places):
    """What is wrong with an example line; nothing where its script has it and tells the same."""
    found = EXAMPLE.fullmatch(row)
    if not found or found[3] not in places:
        return "it names no script"
    number, line, name, printed = found.groups()
    script = (DOCS / places[name]).resolve()
    if script.read_text(encoding="utf-8").splitlines()[int(number) - 1 : int(number)] != [line]:
        return f"line {number} of {script.name} is another one"
    transcript = script.with_suffix(".transcript").read_text(encoding="utf-8").splitlines()
    told = [it for it in transcript if it.startswith(f"{number} ")]
    return "" if re.findall("`([^`]*)`", printed) == told else f"its transcript tells {told}"


def worked_examples():
    """The scripts that stand in examples/ with their transcripts, against those that the definitions compute."""
    texts = [it.read_text(encoding="utf-8") for it in ROOT.glob("crates/lpc_model/specs/Worked*.antt")]
    worked = {tuple(map(unquoted, found)) for text in texts for found in WORKED.findall(text)}
    for script in sorted(EXAMPLES.glob("*.script")):
        pair = tuple(it.read_text(encoding="utf-8") for it in (script, script.with_suffix(".transcript")))
        yield f"examples/{script.name}", [] if pair in worked else ["no worked script of the specs is the same"]


def exercises():
    """The scripts, transcripts and diagrams of the exercises, three for each, in the order of the files."""
    kinds = ("script", "transcript", "mermaid")
    pages = [DOCS / "EXERCISES.md", DOCS / "EXERCISES_CONNECTIONS.md"]
    shown = [(it.kind, it.text) for page in pages for it in blocks_of(page) if it.kind in kinds]
    scripts = sorted((EXAMPLES / "exercises").glob("*.script"))
    yield "the exercises show each file", [] if len(shown) == 3 * len(scripts) else [f"{len(shown)} blocks are shown"]
    for at, script in enumerate(scripts):
        transcript = script.with_suffix(".transcript")
        texts = (script.read_text(encoding="utf-8"), transcript.read_text(encoding="utf-8"), drawn(script, transcript))
        others = [kind for kind, pair in zip(kinds, zip(kinds, texts)) if pair not in shown[3 * at : 3 * at + 3]]
        yield f"exercise {script.stem}", [f"the page shows another {kind}" for kind in others]


def drawn(script, transcript):
    """The diagram of a script and its transcript."""
    command = [ROOT / "tools" / "ntlpc-tool", "diagram", "--script", script, transcript]
    return subprocess.run(command, stdout=subprocess.PIPE, check=True).stdout.decode()


def rows_of(page, *head):
    """The rows of the table of a page whose head begins so, each with its cells."""
    lines = (DOCS / page).read_text(encoding="utf-8").split("| " + " | ".join(head) + " |")[1].split("\n\n")[0]
    return [[it.strip() for it in line.strip("|").split(" | ")] for line in lines.splitlines()[2:]]


def said(wanted):
    """The checks that pages have these sentences."""
    for page, told in wanted.items():
        text = " ".join((DOCS / page).read_text(encoding="utf-8").split())
        for sentence in told:
            yield f"{page}: {sentence}", [] if sentence in text else ["the page doesn't say so"]


def table_of(page, *head):
    """The rows of the table of a page whose head begins so."""
    text = (DOCS / page).read_text(encoding="utf-8")
    return next(rows for _, found, rows in tables(text) if found[: len(head)] == list(head))


def fields_of_views():
    """The table of docs/VIEWS.md on whose base is which field, against the transcript of its example."""
    transcript = (EXAMPLES / "a-connection-with-views.transcript").read_text(encoding="utf-8")
    entries = {
        "the connect's wait": r"^\d+ \d+ NtConnectPort wait.*",
        "the accept": r"^\d+ \d+ NtAcceptConnectPort 0{8}.*",
        "the connect's wake": r"^\d+ \*\d+ NtConnectPort 0{8}.*",
    }
    for names, entry, _, _, here in rows_of("VIEWS.md", "Field", "In the entry of"):
        told = re.search(entries[entry], transcript, re.M)[0].split()
        wanted = [f"{name.strip('`')}={it}" for name, it in zip(names.split(", "), here.strip(" |").split(", "))]
        missing = [f"{it} isn't in {' '.join(told)}" for it in wanted if it not in told]
        yield f"VIEWS.md: {names} of {entry}", missing


def example(name):
    """The lines of the script and of the transcript of an example."""
    files = (EXAMPLES / f"{name}.{it}" for it in ("script", "transcript"))
    return [it.read_text(encoding="utf-8").splitlines() for it in files]


def debuggers(script, transcript):
    """The process that each process of an example has as its debugger: its maker, where that sets its debug port."""
    made = [MADE.fullmatch(it) for it in script]
    process_of = {it[3]: it[2] for it in made if it}
    for line, it in enumerate(made, 1):
        if it and it[1]:
            (handle,) = (re.search(r" h=(\d+)", entry)[1] for entry in transcript if entry.startswith(f"{line} "))
            if any(other.startswith(f"{it[1]} NtSetInformationProcess {handle} 7 ") for other in script):
                yield it[2], process_of[it[1]]


def processes():
    """The tables of processes: of each its first thread, and its token or its debugger where the page has that."""
    for page, name in PROCESSES.items():
        script, transcript = example(name)
        users = dict(words.split()[1:3] for words in script if words.startswith("token "))
        made = {it[2]: it.groups() for it in map(MADE.fullmatch, script) if it}
        debugged, rows = dict(debuggers(script, transcript)), table_of(page, "Process", "Thread")
        told = sorted(re.match(r"\d+", row[0])[0] for row in rows)
        yield f"{page}: the processes", [] if told == sorted(made) else [f"{told}, wanted are {sorted(made)}"]
        for process, thread, *others in rows:
            number = re.match(r"\d+", process)[0]
            _, _, first, token = made.get(number, (None,) * 4)
            pairs = re.findall(r"(\d+) \((0x\w+)\)", process + thread)
            wrong = [f"{digits} isn't {it}" for it, digits in pairs if int(digits, 16) != int(it)]
            wrong += [f"its thread is {first}"] * (re.match(r"\d+", thread)[0] != first)
            if page == "SECURITY.md" and token:
                wrong += [f"its token is {token}"] * (CODE.findall(others[0]) != [token, users[token]])
            if page == "EXCEPTIONS.md":
                debugger = debugged.get(number, "nobody")
                wrong += [f"its debugger is {debugger}"] * (others[-1] != debugger)
            yield f"{page}: process {process}", wrong


def died_waiting(name):
    """Of each thread that dies in a wait in an example: its line, itself, its call, and what became of what it sent."""
    (script, transcript), waiting, state = example(name), {}, {}
    for entry in filter(None, map(CALLED.match, transcript)):
        line, mark, thread, call, told, identifier = entry.groups()
        if mark == "~" and thread in waiting:
            yield int(line), thread, waiting[thread][0], state[thread, waiting[thread][1]]
        if mark:
            waiting.pop(thread, None)
        elif told == "wait":
            waiting[thread], state[thread, identifier] = (call, identifier), "queued"
        shown = re.search(r" msg=(\w+)$", entry.string)
        if shown:
            it = message.Message.read(bytes.fromhex(shown[1]))
            state[str(it.thread), str(it.message_id)] = "received"
        accepted = re.search(r" r:\d+\.(\d+)\.(\d+):\w* accept ", script[int(line) - 1])
        if accepted and told == "00000000":
            state[accepted.groups()] = "accepted"


def endings():
    """What docs/ENDINGS.md tells of waits, against its example, and the steps there and in docs/CLOSING.md, against
    docs/SERVICES.md."""
    died, transcript = list(died_waiting("clients-that-die")), example("clients-that-die")[1]
    told, wait = {}, ""
    for first, state, left, lines in table_of("ENDINGS.md", "The thread waits in", "State"):
        wait, numbers = first or wait, re.findall(r"^\d+|(?<=, )\d+", lines)
        if wait in SENT and numbers:
            told[SENT[wait], state] = int(numbers[0])
            entries = [it for it in transcript if it.split()[0] in numbers]
            missing = [it for it in STATUS.findall(left) if not any(it.lower() in entry for entry in entries)]
            yield f"ENDINGS.md: {wait}, {state}", [f"none of its lines tells {it}" for it in missing]
    wanted = {(call, state): line for line, _, call, state in died if call in SENT.values()}
    yield "ENDINGS.md: what becomes of a wait", [] if told == wanted else [f"it tells {told}, wanted are {wanted}"]
    _, thread, _, state = died[0]
    other = {"queued": "received", "received": "queued"}[state]
    yield from said({"ENDINGS.md": [
        f"| waits | {thread} waits in a request, which was {state} | the wait goes without a wake. Had the request "
        f"still been {other}, it would leave the queue |",
    ]})
    services = (DOCS / "SERVICES.md").read_text(encoding="utf-8")
    for page, (part, count) in STEPS.items():
        rows = next(rows for heading, head, rows in tables(services) if (heading, head[0]) == (part, "Step"))
        wanted = re.findall(r"^\d+\. (.*)$", "\n".join(row[0] for row in rows), re.M)[:count]
        told = [row[0] for row in table_of(page, "Step")]
        yield f"the steps of {page}", [] if told == wanted else [f"it tells {told}, wanted are {wanted}"]


def messages_of(name):
    """What the messages that an example shows tell, as pages draw them: each with its context, of an event also with
    its chance."""
    for context, digits in re.findall(r" ctx=(\w+) msg=(\w+)$", "\n".join(example(name)[1]), re.M):
        it = message.Message.read(bytes.fromhex(digits))
        front = str(it.type), f"{it.process}.{it.thread}.{it.message_id}"
        yield *front, "context", str(int(context, 16))
        if it.raised():
            yield *front, "chance", str(it.raised()[1])


def drawings():
    """The messages that pages draw, in their order, and the bytes of one in docs/CONNECTIONS.md, against examples."""
    for page, (name, count) in DRAWN_MESSAGES.items():
        told = [found for block in blocks_of(DOCS / page) for found in DRAWN.findall(block.text)]
        wanted = [it for it in messages_of(name) if it in told]
        good = told == wanted and len(told) == count
        yield f"the {count} messages that {page} draws", [] if good else [f"{told}, the example has {wanted}"]
    rows = table_of("CONNECTIONS.md", "Bytes", "Field")
    (entry,) = (it for it in example("connect-and-ask")[1] if it.startswith("16 "))
    digits = "".join(part for row in rows for part in CODE.findall(row[0]))
    yield "CONNECTIONS.md: the bytes", [] if entry.endswith(f" msg={digits}") else [f"{digits}, wanted are {entry}"]
    for parts, field, value in rows:
        wanted = [int.from_bytes(bytes.fromhex(it), "little") for it in CODE.findall(parts)]
        told = [int(it) for it in re.findall(r"\d+", value.partition(";")[0])]
        yield f"CONNECTIONS.md: {field}", [] if told in ([], wanted) else [f"it is told as {told}, it is {wanted}"]


def access_lists(command):
    """The lists of docs/SECURITY.md, each asked by a connect."""
    for shown, answer, *_ in rows_of("SECURITY.md", "List"):
        script = (
            "token client S-1-5-21-9 S-1-1-0\nboot 20 24\nboot 32 36 client\n"
            f"24 NtCreatePort \\P {shown.strip('`')}\n36 NtConnectPort \\P - - -\n"
        ).replace(" none\n", "\n")
        wanted = f"5 36 NtConnectPort {'wait id=1' if answer == 'goes on' else answer.lower()}"
        printed = replayed(command, script.encode())[0].splitlines()
        yield f"SECURITY.md: {shown}", [] if wanted in printed else [f"it is told {printed[-2:]}"]


def pointers(command):
    """How many hold each port in the tables of docs/CLOSING.md, against the rows in front of the line that closes, and
    behind it."""
    script = (EXAMPLES / "closing-client.script").read_bytes().splitlines(True)
    text = (DOCS / "CLOSING.md").read_text(encoding="utf-8")
    found = [rows for _, head, rows in tables(text) if head == ["Port", "Held by", "Pointers"]]
    for lines, ports in zip((20, 21), found):
        _, printed, _ = running.run([*command, "states"], b"".join(script[:lines]))
        rows = [json.loads(it) for it in printed.splitlines() if it.startswith(b"{")]
        stand = {it["kind"]: it["pointers"] for it in rows if it.get("kind") in ("connection", "server", "client")}
        for port, _, count in ports:
            told = stand.get(port.split()[0])
            yield f"CLOSING.md: who holds the {port} behind line {lines}", [] if str(told) == count else [f"{told} do"]


def views_of_a_server(command):
    """The run of docs/RESIDENT.md that offers a view, behind the first five lines of the run above it."""
    blocks = [it.text for it in blocks_of(DOCS / "RESIDENT.md") if "turn 24\n" in it.text]
    front = "".join(blocks[0].splitlines(True)[:5])
    printed = replayed(command, (front + blocks[1]).encode())[0].splitlines()
    for line, shown, _ in table_of("RESIDENT.md", "Line", "Printed, without its number"):
        told = [it.partition(" ")[2] for it in printed if it.startswith(f"{int(line) + 5} ")]
        entry, *wakes = CODE.findall(shown)
        wanted = [entry, *(["*"] if "thread " in shown else [])]
        good = len(told) == len(wanted) and told[0] == entry
        woken = re.search(r"thread (\d+) wakes with", shown)
        good = good and (not woken or told[1].startswith(f"*{woken[1]} "))
        good = good and all(told[1].endswith(it) for it in wakes)
        yield f"RESIDENT.md, a view: line {line}", [] if good else [f"it prints {told}"]


def storm_lines(command):
    """The lines of the storms of docs/STORM.md."""
    for words, line in ((it[0].strip("`"), it[1].strip("`| ")) for it in rows_of("STORM.md", "Words", "Line")):
        status, printed, _ = running.run([*command, *words.split()])
        good = (printed, status) == (f"{line}\n".encode(), 0)
        yield f"STORM.md: {words}", [] if good else [f"it prints {printed[:160]}"]


def unquoted(text):
    """The text that a string of the specs stands for."""
    return re.sub(r"\\(.)", lambda found: "\n" if found[1] == "n" else found[1], text)


def terminals(command):
    """What docs/CHECK_YOUR_OWN.md shows of a terminal, against what its commands print, in a folder that looks like the
    root of the checkout and takes what they write."""
    shown = "".join(it.text for it in blocks_of(DOCS / "CHECK_YOUR_OWN.md") if it.kind == "console")
    env = {**os.environ, "NTLPC": os.path.abspath(shutil.which(command[0]))}
    with tempfile.TemporaryDirectory() as folder:
        for entry in ROOT.iterdir():
            os.symlink(entry, os.path.join(folder, entry.name))
        commands = COMMAND.findall(shown)
        prompts = (DOCS / "CHECK_YOUR_OWN.md").read_text(encoding="utf-8").count("\n$ ")
        wrong = [] if len(commands) == prompts > 0 else [f"{len(commands)} of {prompts} were read"]
        yield "CHECK_YOUR_OWN.md: the commands are read", wrong
        for line, wanted in commands:
            ran = subprocess.run(["sh", "-c", line], cwd=folder, env=env, stdout=subprocess.PIPE, timeout=60)
            printed = ran.stdout.decode("utf-8", "backslashreplace")
            yield f"CHECK_YOUR_OWN.md: {line}", [] if printed == wanted else [f"it prints another text:\n{printed}"]


def bytes_of(block):
    """The bytes of a script that a block shows."""
    text = block.text.encode()
    if block.kind != "script-escaped":
        return text
    return ESCAPE.sub(lambda found: bytes([int(found[1], 16)]) if found[1] else ESCAPED[found[2]], text)


def replayed(command, script):
    """What the program prints for a script, and its status."""
    status, printed, _ = running.run([*command, "replay"], script)
    return printed.decode("utf-8", "backslashreplace"), status


def faults(command):
    """The scripts of docs/FAULTS.md: a faulty one stops at its last line, a lawful one prints the transcript behind."""
    blocks = list(blocks_of(DOCS / "FAULTS.md"))
    for at, block in enumerate(blocks):
        name = f"FAULTS.md, {block.heading}: {block.text.splitlines()[-1]}"
        printed, status = replayed(command, bytes_of(block)) if block.kind != "transcript" else ("", 0)
        if block.kind in ("script", "script-escaped"):
            kind = re.match(r"Kind (\d+): ", block.heading)
            wanted = f"stop {block.text.count(chr(10))} {kind[1]}" if kind else "a section for a kind"
            last = (printed.splitlines() or ["nothing"])[-1]
            yield name, [f"its last line is {last}, wanted is {wanted}"] * ((last, status) != (wanted, 2))
        elif block.kind == "lawful":
            wanted = blocks[at + 1] if at + 1 < len(blocks) else block
            good = wanted.kind == "transcript" and (printed, status) == (wanted.text, 0)
            yield name, [] if good else [f"its transcript is another one:\n{printed}"]


# What is put behind the C code of docs/CONVERSATION.md: a line that is answered twice, a call, and a faulty line, behind
# which the program has ended.
ASKING = r"""
#include <signal.h>
static void tell(const char *entry) { fputs(entry, stdout); }
int main(void) {
    signal(SIGPIPE, SIG_IGN);
    if (start()) return 9;
    int booted = ask("boot 20 24", tell), made = ask("24 NtCreatePort -", tell);
    int faulty = ask("unknown", tell), ended = ask("24 NtClose 4", tell);
    printf("%d %d %d %d\n", booted, made, faulty, ended);
    return 0;
}
"""


def conversations(command):
    """The code of docs/CONVERSATION.md, run as it stands there, with the program as `ntlpc` on the path."""
    code = {it.kind: it.text for it in blocks_of(DOCS / "CONVERSATION.md")}
    told = "1 - boot 00000000\n3 24 NtCreatePort 00000000 h=4\n"
    with tempfile.TemporaryDirectory() as folder:
        here = pathlib.Path(folder)
        (here / "ntlpc").write_text('#!/bin/sh\nexec "$NTLPC" "$@"\n')
        (here / "ntlpc").chmod(0o755)
        path = os.pathsep.join((folder, os.environ["PATH"]))
        env = {**os.environ, "PATH": path, "NTLPC": os.path.abspath(shutil.which(command[0])),
               "PYTHONPATH": str(ROOT / "tools"), "PYTHONDONTWRITEBYTECODE": "1"}

        def printed(name, words, wanted):
            ran = subprocess.run(words, cwd=folder, env=env, capture_output=True, timeout=60, text=True)
            told = f"it prints {ran.stdout[:200]!r}, and to its standard error {ran.stderr[-200:]!r}"
            wrong = [] if (ran.stdout, ran.returncode) == (wanted, 0) else [told]
            return f"CONVERSATION.md: the code for {name}", wrong

        ((line, wanted),) = COMMAND.findall(code["console"])
        yield printed("one turn", ["sh", "-c", line], wanted)
        yield printed("a shell", ["bash", "-c", code["bash"]], told)
        yield printed("Python", [sys.executable, "-c", code["python"]], "00000000 4\nend 4 4 3\n")
        if not compiler():
            print("left out: CONVERSATION.md: the code for C: there is no C compiler here")
            return
        (here / "asking.c").write_text(code["c"] + ASKING)
        build = [compiler(), "-Wall", "-Werror", "-o", str(here / "asking"), str(here / "asking.c")]
        built = subprocess.run(build, capture_output=True, timeout=60, text=True)
        yield "CONVERSATION.md: the code for C is compiled", [built.stderr] * (built.returncode != 0)
        yield printed("C", [str(here / "asking")], f"{told}0 0 2 1\n")


def counted(group, *given):
    """The checks of a group, and that it made as many as there are."""
    count = 0
    try:
        for check in group(*given):
            count += 1
            yield check
    except (running.Wrong, LookupError, OSError, ValueError, subprocess.SubprocessError) as why:
        # What goes wrong over what a program printed is wrong with the program.
        yield group.__name__, [f"{type(why).__name__}: {why}"]
    wanted = COUNTS.get(group.__name__)
    if wanted:
        yield f"{group.__name__}: {wanted} checks", [] if count == wanted else [f"{count} were made"]


def checks(command):
    """All checks: each with its name and what it found wrong."""
    for group in (links, version, manual, examples_of_services, worked_examples, exercises, fields_of_views):
        yield from counted(group)
    for group in (processes, endings, drawings):
        yield from counted(group)
    behind = views_of_a_server, storm_lines
    for group in (faults, terminals, conversations, access_lists, pointers, *behind) if command else ():
        yield from counted(group, command)


def main(command):
    if command and not shutil.which(command[0]):
        print("usage: tests/pages.py [PROGRAM [WORDS..]]", file=sys.stderr)
        return 64
    return tally(checks(command))


if __name__ == "__main__":
    sys.exit(main(sys.argv[1:]))
