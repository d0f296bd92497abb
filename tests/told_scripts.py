"""What docs/SCRIPTS.md and docs/FAULTS.md tell of words, lines, faults and entries, against the definitions. What the
faults of their examples are, tests/reading.py says, which is held against the suite here."""
import re

import definitions
import pages
import reading
from pages import CODE, table_of, tables

from ntlpc_tool import forms

PAGE = "SCRIPTS.md"
# The definitions that read a word, by its name in docs/SCRIPTS.md, with those that they need.
READ_BY = {
    "Number": ("number_word",),
    "MSG": ("message_word",),
    "INFO": ("info_word",),
    "QOS": ("qos_word", "tracking_word"),
    "VIEW": ("view_word",),
    "DACL": ("dacl_word", "entry_kind"),
    "ACCESS": ("access_word",),
    "`accept`, `refuse`": ("accept_word",),
    "`handled`, `unhandled`": ("handled_word",),
}
# At which bytes a definition parts its text, as the forms of the page have them.
PARTED = {
    "MSG": ("reply_message", "r:P.T.M:HEX", {58: 1, 46: 2}),
    "QOS": ("quality_parts", "q:L:s", {58: 1}),
    "VIEW": ("view_numbers", "w:H:OFFSET:SIZE", {58: 2}),
    "DACL": ("entry_form", "A/MASK/SID", {47: 2}),
}
# How many words a definition takes, at least and at most.
TAKEN = {
    "no_words": (0, 0), "one_word": (1, 1), "two_words": (2, 2), "three_words": (3, 3), "four_words": (4, 4),
    "one_or_two_words": (1, 2), "two_or_three_words": (2, 3), "two_and_more_words": (2, 18),
}
# The constructors of the entries, by the names of their rows.
ENTRIES = {
    "answer": "Answer", "wait": "Waits", "wake": "Wakes", "died": "Died", "busy": "Busy", "nothread": "NoThread",
    "directive": "Directive",
}
# What a part of an entry prints, as the page calls it.
PRINTED = {"by_text": "TID CALL", "status_text": " STATUS", "decimal": "TID", "word_text": "WORD", "fields_text": ""}
# The definitions whose letters a kind of fault is about; those of a number are behind the first letters of others.
FAULT_READERS = "qos_word", "tracking_word", "view_word", "dacl_word", "entry_kind", "accept_word", "handled_word"
NUMBERED = ["r:", "w:", "q:", "acl:", "same", "self"]
# What each kind is about, in its heading in docs/FAULTS.md and in its row: the faults by their names.
ABOUT = {
    "Byte": "a byte", "Word": "a word", "Call": "no such call", "Count": "words", "Number": "a number",
    "Hex": "digits that aren't HEX", "Message": "a message", "Sid": "a SID", "Long": "a line that is too long",
    "Lines": "too many lines",
}
# The statuses of the program that docs/FAULTS.md tells of, and what README.md says of them begins so.
STATUSES = {"3": "the input failed", "4": "the output failed", "5": "memory ran out", "64": "the words are wrong"}


def same(what, found, wanted):
    """The check that a page tells what is wanted."""
    return what, [] if found == wanted else [f"it tells {found}, wanted is {wanted}"]


def said_in(what, cell, sentences):
    """The check that a cell has some sentences."""
    return f"{PAGE}: {what}", [f"it doesn't say {it}" for it in sentences if it not in cell]


def read_as_worked():
    """The lines of the suite and of examples/: each has the fault that its transcript tells, and no other line one."""
    wrong, faulty = [], 0
    for file in [*pages.ROOT.glob("conformance/*/*.script"), *pages.ROOT.glob("examples/**/*.script")]:
        last = file.with_suffix(".transcript").read_text(encoding="utf-8").splitlines()[-1:]
        stop = re.fullmatch(r"stop (\d+) (\d+)", last[0]) if last else None
        lines = file.read_bytes().decode("latin-1").split("\n")
        for at, line in enumerate(lines[: int(stop[1]) if stop else len(lines)], 1):
            wanted = int(stop[2]) if stop and at == int(stop[1]) else 0
            faulty += wanted > 0
            # (a script of too many lines has no line with this fault)
            if reading.kind_of(line) != wanted and wanted != reading.kinds()["Lines"]:
                wrong.append(f"line {at} of {file.name} is read as {reading.kind_of(line)}, it is {wanted}")
    yield "what tests/reading.py finds in the suite", wrong
    yield "there are faulty lines in the suite", [] if faulty > 700 else [f"{faulty} were read"]


def literals(*names):
    """The texts that definitions look for."""
    texts = definitions.bodies("lpc_model")
    return [it for name in names for it in re.findall(r'codes "([^"]*)"', texts[name][1])]


def word_forms():
    """The table of the forms of words: their letters, separators and bounds."""
    rows, most = dict(table_of(PAGE, "Word", "Spelling")), reading.bounds()
    texts = definitions.bodies("lpc_model")
    cell = lambda name: rows.get(name, "")
    yield said_in("a Number", cell("Number"), [
        f"decimal without leading zeros (`0`, `24`), or a lower-case `{literals('number_word')[0]}` with 1 to "
        f"{most['digits']} hexadecimal digits in either case",
        f"; from 0 to {most['highest']}",
    ])
    for name, readers in READ_BY.items():
        code = " ".join(CODE.findall(f"{name} {cell(name)}"))
        missing = [it for it in literals(*readers) if not re.search(rf"(?:^|[ :/]){re.escape(it)}", code)]
        yield said_in(f"the letters of {name}", "", missing)
    for name, (definition, form, separators) in PARTED.items():
        parted = {int(it) for it in re.findall(r"(?:parts|split_once) (\d+)", texts[definition][1])}
        wrong = [] if set(separators) == parted else [f"{definition} parts at {parted}"]
        front = form.partition(":")[2] if form[1] == ":" else form
        wrong += [f"{form} has another form" for byte, count in separators.items() if front.count(chr(byte)) != count]
        yield f"{PAGE}: the parts of {name}", wrong + [f"it doesn't say {form}"] * (f"`{form}`" not in cell(name))
    only, both = (texts[it][1].rpartition(" ")[2] for it in ("PAGE_READONLY", "PAGE_READWRITE"))
    yield said_in("PROT", cell("PROT"), [f"{only} for what may be read alone, {both} for what may be written too"])
    yield said_in("DACL", cell("DACL"), [f"and 0 to {most['entries']} entries parted by `,`"])
    yield said_in("SID", cell("SID, USER, GROUP"), [
        f"`S-1-`, a number below 2^{most['authority']}, and 1 to {most['parts']} numbers of {most['part']} bits",
    ])
    yield said_in("TOKEN", cell("TOKEN"), [f"1 to {most['name']} letters, digits or `_`"])
    ids = f"a Number from 1 to {most['number']}"
    yield said_in("PID, TID", cell("PID, TID"), [ids])
    yield from word_examples(cell)
    yield from fixed_words(cell, texts)


def word_examples(cell):
    """The words of two cells that are told whole, and the examples of others."""
    yield same(f"{PAGE}: INFO", cell("INFO"), "the bytes of a connect: `-` or `d:` for none, or `d:HEX`")
    yield said_in("QOS", cell("QOS"), ["`q:L:s` (static) or `q:L:d` (dynamic)", "or `-` for `q:2:d`"])
    (none,) = re.findall(r"`(\w+)` is none", cell("Number"))
    for name, line, spans in (
        ("Number", "24 NtClose {}", [it for it in CODE.findall(cell("Number")) if it not in ("0x", none)]),
        ("PID, TID", "{}", CODE.findall(cell("PID, TID"))),
        ("SID", "token t {}", [it for it in CODE.findall(cell("SID, USER, GROUP")) if len(it) > 4]),
    ):
        wrong = [it for it in spans if reading.kind_of(line.format(it))]
        yield f"{PAGE}: the examples of {name}", [f"{it} is none" for it in wrong] + ["there is none"] * (not spans)
    found = reading.kind_of(f"24 NtClose {none}") == reading.kinds()["Number"]
    yield f"{PAGE}: what is no Number", [] if found else [f"{none} is one"]


def fixed_words(cell, texts):
    """The words that stand for themselves, and the calls in which `self` may stand."""
    words = definitions.text_of("lpc_model", "specs", "antt")
    fixed = re.findall(r'fixed_word \(codes "(\w+)"\)', words)
    yield same(f"{PAGE}: the words that stand for themselves", cell(", ".join(f"`{it}`" for it in fixed)), "this word")
    for name in "`accept`, `refuse`", "`handled`, `unhandled`":
        yield same(f"{PAGE}: {name}", cell(name), "one of these two words")
    calls = re.split(r"^call_words (\w+) others = do$", texts["call_words"][1], flags=re.M)[1:]
    targets = [
        name for name, body in zip(calls[::2], calls[1::2])
        if any("target_word" in texts[it][1] for it in re.findall(r"\w+", body) if it in texts) or "target_word" in body
    ]
    told = re.search(r"stand for the H of (.*)$", cell("H, PORT, CTX, CODE"))[1]
    yield same(f"{PAGE}: where `self` may stand", re.findall(r"\w*Nt\w+", told), targets)


def message_forms():
    """The table of the forms of messages, and the words that they want."""
    header = definitions.profile()[0]["HEADER_SIZE"]
    texts = definitions.bodies("lpc_model")
    made = "data_size = length bytes; message_size = HEADER_SIZE + length bytes; kind = 0; ranges_offset = 0;"
    wrong = [] if made in texts["made_message"][1] else ["it is another one: the table is to be looked at"]
    yield "a message that is made is defined so", wrong
    forms_of = re.findall(r'begins \(codes "(\w:)"\) word then (\w+)', texts["message_word"][1])
    wanted = [("m:", "hex_word"), ("d:", "hex_message"), ("r:", "reply_message")]
    yield same("the forms of messages in the definitions", forms_of, wanted)
    yield same(f"{PAGE}: the forms of messages", table_of(PAGE, "Form", "The message"), [
        ["`m:HEX`", "exactly these bytes, header and data, lawful or not"],
        ["`d:HEX`", f"these data behind a header with their DataSize, MessageSize {header} + DataSize, and zeros"],
        ["`r:P.T.M:HEX`", "the same with ClientId P.T and MessageId M, each a Number from 0"],
    ])


def taken(body, texts):
    """How many words the definition of a call's or directive's words takes, by the first that it names."""
    for word in re.findall(r"\w+", body):
        if word in TAKEN:
            return TAKEN[word]
        if word in texts and texts[word][0].startswith("List (List ℕ) →"):
            return taken(texts[word][1].partition("=")[2], texts)
    return None


def lines():
    """The table of lines: of each as many words as the definitions take, and examples that are of its form."""
    texts = definitions.bodies("lpc_model")
    rows = table_of(PAGE, "Line", "Words")
    calls, directives = (
        re.split(rf"^{name} (?:word\.)?(\w+) others = do$", texts[name][1], flags=re.M)[1:]
        for name in ("call_words", "directive_words")
    )
    bodies = {"raise" if it == "Raise" else it: body for it, body in zip(calls[::2], calls[1::2])}
    bodies |= {it.lower(): body for it, body in zip(directives[::2], directives[1::2])}
    yield same(f"{PAGE}: the lines", sorted(pages.name_of(row[0].strip("`")) for row in rows), sorted(bodies))
    for line, does in rows:
        words, name = line.strip("`").split(), pages.name_of(line.strip("`"))
        least, most = taken(bodies[name], texts)
        further = re.search(r"[Pp]erhaps with (?:up to (\d+) further words|a further word)", does)
        more = int(further[1] or 1) if further else 0
        counted = len(words) - (2 if words[0] == "TID" else 1)
        wrong = [] if (counted, counted + more) == (least, most) else [f"it takes {least} to {most} words"]
        examples = [it for it in CODE.findall(does) if " " in it]
        wrong += [f"{it} is no line of it" for it in examples if name not in it.split()]
        wrong += [f"{it} has a fault of kind {reading.kind_of(it)}" for it in examples if reading.kind_of(it)]
        form = [it for it in forms.named(name) if it[0] != "["]
        wrong += [f"its form is {form}"] * (form != [form_word(it, does) for it in words])
        yield f"{PAGE}: the line {line}", wrong


def classes():
    """The classes that the table of lines names, against the definitions."""
    texts, rows = definitions.bodies("lpc_model"), dict(table_of(PAGE, "Line", "Words"))
    number = lambda name: texts[name][1].rpartition(" ")[2]
    for line, sentence in {
        "`TID NtSetInformationProcess H CLASS PORT`": f"sets the debug port (CLASS {number('DEBUG_CLASS')}) or the "
        f"exception port ({number('EXCEPTION_CLASS')}) of a process.",
        "`TID NtSetInformationThread CLASS null`": f"with CLASS {number('THREAD_IMPERSONATION_TOKEN')} has the thread "
        "act as itself again:",
        "`TID NtQueryInformationToken H CLASS`": f"tells a token's user ({number('TOKEN_USER')}), its groups "
        f"({number('TOKEN_GROUPS')}), or the level at which a thread acted with it "
        f"({number('TOKEN_IMPERSONATION_LEVEL')}):",
    }.items():
        yield said_in(f"the classes of {line}", rows.get(line, ""), [sentence])


def form_word(word, does):
    """A word of a line's form as the tools call it, with what may stand in its place by the cell behind it."""
    other = re.search(rf"`(\w+)` in place of `?{word}`?\b", does)
    if word == "ACCESS":
        return "ACCESS|same"
    return f"{word}|{other[1]}" if other else word


def letters_of(kind):
    """The letters and words that a kind of fault is about, in order."""
    fixed = re.findall(r'fixed_word \(codes "(\w+)"\)', definitions.text_of("lpc_model", "specs", "antt"))
    messages, kinds = literals("message_word"), reading.kinds()
    return {
        kinds["Word"]: [*literals(*FAULT_READERS), *fixed],
        kinds["Number"]: NUMBERED,
        # Behind the last form of a message numbers follow, and then come the bytes of a connect.
        kinds["Message"]: [*messages, messages[-1], *literals("info_word")],
    }.get(kind, [])


def examples():
    """The table of faults: the words that each kind names, and its examples, which have this fault."""
    rows = table_of(PAGE, "Kind", "The fault")
    for kind, fault, shown in rows:
        wrong = []
        for example in CODE.findall(shown):
            line = example
            if re.match(r"[mdrx]:", example):
                line = f"24 NtRequestPort 4 {example}"
            elif example == "0":
                line = "0 NtListenPort 4"
            found = reading.kind_of(line)
            wrong += [f"{example} has {found}"] * (found != int(kind))
        wanted, found = letters_of(int(kind)), CODE.findall(fault)
        wrong += [f"it names {found}, wanted are {wanted}"] * (wanted != found)
        yield f"{PAGE}: the examples of kind {kind}", wrong
    cells = {int(kind): fault for kind, fault, _ in rows}
    low, high = re.findall(r"\d+", definitions.bodies("lpc_model")["is_printable"][1])
    kinds = reading.kinds()
    yield same(f"{PAGE}: a byte", cells[kinds["Byte"]], f"a byte outside {low} to {high}")
    most = reading.bounds()["entries"]
    yield said_in("the entries of a list", cells[kinds["Word"]], [f"has more than {most} entries"])


def entries():
    """The table of entries: what each prints, against the definitions."""
    text = definitions.text_of("lpc_model", "specs", "antt")
    rows = {row[0]: row[1] for row in table_of(PAGE, "Entry", "Text")}
    yield same(f"{PAGE}: the entries", sorted(rows), sorted(ENTRIES))
    for name, constructor in ENTRIES.items():
        body = re.search(rf"^rest_text \({constructor} [\w ]+\) = (.*)$", text, re.M)[1]
        parts = [re.fullmatch(r'codes "(.*)"', it) or it.split()[0] for it in body.split(" ++ ")]
        printed = "".join(it if isinstance(it, str) else it[1] for it in (
            PRINTED[part] if isinstance(part, str) else part for part in parts))
        wanted = f"`LINE {printed}`" + " and fields" * ("fields_text" in body)
        yield same(f"{PAGE}: the entry {name}", rows.get(name), wanted)


def faults():
    """The index of docs/FAULTS.md, and its headings: each number leads to its part."""
    text = (pages.DOCS / "FAULTS.md").read_text(encoding="utf-8")
    (rows,) = (them for _, head, them in tables(text) if head == ["You see", "Look at"])
    links = re.findall(r"\[([^\]]*)\]\(#([\w-]+)\)", " ".join(cell for row in rows for cell in row))
    headings = re.findall(r"^## (.*)$", text, re.M)
    kinds = reading.kinds()
    for name, number in kinds.items():
        (heading,) = (it for it in headings if it.startswith(f"Kind {number}: "))
        yield f"FAULTS.md: kind {number}", [] if ABOUT[name] in heading else [f"it is about {ABOUT[name]}"]
        leads = [anchor for shown, anchor in links if shown == str(number) and anchor.startswith("kind-")]
        yield same(f"FAULTS.md: the link to kind {number}", leads, [anchor_of(heading)])
    for number, about in STATUSES.items():
        wanted = anchor_of(f"Status {number}: {about}")
        shown_as = number, f"status {number}"
        leads = [anchor for shown, anchor in links if shown in shown_as and anchor.startswith("status-")]
        yield same(f"FAULTS.md: the link to status {number}", leads, [wanted])
    anchors = [anchor for _, anchor in links]
    missing = [it for it in headings if anchor_of(it) not in anchors]
    yield "FAULTS.md: the index has each part", [f"{it} isn't there" for it in missing]
    for shown, anchor in links:
        if anchor.startswith(("busy-", "nothread-")):
            yield same(f"FAULTS.md: the link {shown}", anchor.partition("-")[0], shown)
        elif re.match(r"c[0-9a-f]{7}-|raise-", anchor):
            (heading,) = (it for it in headings if anchor_of(it) == anchor)
            wanted = heading.partition(": ")[2]
            good = shown == wanted or (shown, wanted) == ("a raise that ends its process", "the process ends")
            yield f"FAULTS.md: the link {shown}", [] if good else [f"it leads to {heading}"]


def anchor_of(heading):
    """The name by which a link leads to a heading."""
    return re.sub(r"[^\w\- ]", "", heading.lower()).replace(" ", "-")


def exercises():
    """The indexes of the exercises: each has its number, its part, and all parts."""
    for page in "EXERCISES.md", "EXERCISES_CONNECTIONS.md":
        text = (pages.DOCS / page).read_text(encoding="utf-8")
        headings = re.findall(r"^## (\d+\..*)$", text, re.M)
        wanted = [f"[{it.partition('.')[0]}](#{anchor_of(it)})" for it in headings]
        yield same(f"{page}: the index", [row[0] for row in table_of(page, "Exercise", "Shows")], wanted)


GROUPS = read_as_worked, word_forms, message_forms, lines, classes, examples, entries, faults, exercises


def checks():
    """All checks: each with its name and what it found wrong."""
    for group in GROUPS:
        yield from group()
