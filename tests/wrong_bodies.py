"""The wrong bodies of the gate, and the wrong definitions, as docs/WRONG_BODIES.md tells them: each stands where its row
says, and what the row says is false of it is a clause. A part of tests/tables.py.
"""
import re

import definitions
import pages
from pages import CODE
from tally import pinned

from ntlpc_tool.pages import tables

# The tables of docs/WRONG_BODIES.md, by their heads, and how the pages tell how many wrong bodies the gate tries.
EDITS = ["Crate", "Edit", "What the wrong body does", "In", "False of it", "When"]
FURTHER = ["Crate", "In", "A further wrong body", "False of it", "When"]
DEFINED = ["File", "In", "A wrong definition", "False of it", "When"]
DEFINED_COUNT = 17
TRIED = re.compile(r"[Tt]he gate tries (\d+) wrong bodies")
# What is false of a wrong body, in a cell: the one clause of its function, an invariant, or named clauses, of its
# function or of another one, which promises them or asks them.
FALSE_OF = re.compile(r"the one clause|the invariant of `(\w+)`|(`\w+`(?:, `\w+`)*)(?: (of|that) `(\w+)`( asks)?)?")
# Where a line stands: in a type's functions, in a function, or as a constant.
PLACE = re.compile(r"^\s*(?:pub(?:\(crate\))? )?(?:const )?(?:fn|const) (\w+)")


def filled(rows):
    """The rows of a table whose first cell is left out where it is that of the row above."""
    crate = ""
    for row in rows:
        crate = row[0].strip("`") or crate
        yield crate, *(it.strip("`") for it in row[1:3]), *row[3:]


def edits():
    """The files of the wrong bodies, by their crates and names."""
    files = sorted(definitions.CRATES.glob("*/must-fail/*.edit"))
    return {(it.parent.parent.name, it.stem): it.read_text(encoding="utf-8") for it in files}


def place_of(crate, edit):
    """The function in which an edit changes a line, with its type where it has one, or the constant."""
    file, old = (re.search(rf"^{word}: (.*)$", edit, re.M)[1] for word in ("file", "old"))
    text = (definitions.CRATES / crate / file).read_text(encoding="utf-8")
    owner, name = "", ""
    for line in text[: text.index(old) + len(old)].splitlines():
        of, head = definitions.OWNER.match(line), PLACE.match(line)
        if of:
            owner = f"{of[1]}::"
        elif line.startswith("}"):
            owner = ""
        if head:
            name = owner + head[1]
    return name


def wrong_with(crate, place, cell):
    """What a cell names as false of a wrong body of a function, and isn't there: its place is given with its type."""
    promised = definitions.clauses(crate)
    text = definitions.text_of(crate, "src", "rt")
    for part in cell.split("; "):
        found = FALSE_OF.fullmatch(part)
        if not found or (found[3] == "that") != bool(found[5]):
            yield f"{part} names no clause"
        elif found[1]:
            model = re.search(rf"^impl(?:<.*>)? Model for {found[1]}\b.*?^}}", text, re.M | re.S)
            if not model or "ghost invariant" not in model[0]:
                yield f"{found[1]} of {crate} has no invariant"
        else:
            word, function = "requires" if found[5] else "ensures", found[4] or place
            for name in CODE.findall(found[2]) if found[2] else [""]:
                if (word, name) not in promised.get(function, ()):
                    yield f"{function} of {crate} has no clause {word} {name}"


def checks():
    """The tables of docs/WRONG_BODIES.md, against the wrong bodies of the gate and the contracts."""
    page = (pages.DOCS / "WRONG_BODIES.md").read_text(encoding="utf-8")
    found, tried, further, defined = edits(), [], [], []
    for _, head, rows in tables(page):
        if head == EDITS:
            tried += filled(rows)
        elif head == FURTHER:
            further += filled(rows)
        elif head == DEFINED:
            defined += filled(rows)
    named = [row[:2] for row in tried]
    yield "WRONG_BODIES.md has each wrong body", [f"{it} isn't there" for it in sorted(set(found) - set(named))]
    yield "WRONG_BODIES.md has no other", [f"{it} is none" for it in sorted(set(named) - set(found))]
    yield "WRONG_BODIES.md has each once", [f"{it} is there again" for it in sorted(set(named)) if named.count(it) > 1]
    for crate, edit, _, function, false, _ in (row for row in tried if row[:2] in found):
        place = place_of(crate, found[crate, edit])
        other = [] if place.rpartition("::")[2] == function.strip("`") else [f"the edit changes {place}"]
        yield f"WRONG_BODIES.md: {crate}, {edit}", other + list(wrong_with(crate, place, false))
    for crate, function, _, false, _ in further:
        yield f"WRONG_BODIES.md: {crate}, {function}", list(wrong_with(crate, function, false))
    yield pinned("wrong definitions", len(defined), DEFINED_COUNT)
    for file, name, what, false, _ in defined:
        missing = [] if is_defined(file, name) else [f"{file} defines no {name}"]
        yield f"WRONG_BODIES.md: {file}, {name}: {what}", missing + list(wrong_with("lpc_model", "", false))
    untried = [it for it in crates_with_functions() if it not in {crate for crate, _ in found}]
    missing = [f"{it} has no row" for it in untried if it not in {row[0] for row in further}]
    yield "WRONG_BODIES.md has a row for each crate without wrong bodies", missing
    for name in "ARCHITECTURE.md", "WRONG_BODIES.md":
        told = TRIED.findall((pages.DOCS / name).read_text(encoding="utf-8"))
        yield f"{name}: how many wrong bodies are tried", [] if told == [str(len(found))] else [f"it tells {told}"]


def is_defined(file, name):
    """Whether a file of the definitions of lpc_model has a definition of the name."""
    path = definitions.CRATES / "lpc_model" / "specs" / file
    return path.exists() and bool(re.search(rf"^\w+ pub {name} : ", path.read_text(encoding="utf-8"), re.M))


def crates_with_functions():
    """The crates that have functions but tests and laws: of those alone a body can be wrong."""
    for line in (pages.ROOT / "crates.txt").read_text(encoding="utf-8").splitlines():
        crate = line.partition(":")[0]
        if line.startswith("#") or not line or crate.endswith("_tests"):
            continue
        if any(not name.startswith("law_") for name in definitions.clauses(crate) if "::" not in name):
            yield crate
