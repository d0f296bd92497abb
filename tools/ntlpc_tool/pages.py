"""How the tools find the pages of the documentation, and how they read the tables in them."""
import collections
import gzip
import re

from ntlpc_tool import CHECKOUT, FOLDER, inputs

# Those of this checkout, then those that were installed with the tools.
PLACES = (CHECKOUT / "docs", FOLDER.parent / "docs", FOLDER.parent.parent / "doc" / "ntlpc")


def text_of(name):
    """The text of a page, as `SERVICES.md`."""
    for place in PLACES:
        for found in (place, place / "docs"):
            if (found / name).is_file():
                return (found / name).read_text(encoding="utf-8")
            if (found / f"{name}.gz").is_file():
                return gzip.decompress((found / f"{name}.gz").read_bytes()).decode("utf-8")
    raise inputs.Misuse(f"the page {name} is missing; it should be in one of {', '.join(map(str, PLACES))}")


def anchors(text):
    """The headings of a page, each with the name by which a link leads to it: a name that comes again is numbered."""
    found, seen, fenced = {}, collections.Counter(), False
    for line in text.splitlines():
        fenced ^= line.startswith("```")
        heading = None if fenced else re.fullmatch(r"#+\s+(.*?)\s*", line)
        if heading:
            name = re.sub(r"[^\w\- ]", "", heading[1].lower()).replace(" ", "-")
            found.setdefault(heading[1], f"{name}-{seen[name]}" if seen[name] else name)
            seen[name] += 1
    return found


def tables(text):
    """The tables of a page: for each its heading, the cells of its first row, and the cells of each row behind that."""
    heading, rows = "", []
    for line in [*text.splitlines(), ""]:
        if line.startswith("|"):
            cells = re.split(r"(?<!\\)\|", line.strip().strip("|"))
            rows.append([it.strip() for it in cells])
        elif rows:
            yield heading, rows[0], rows[2:]
            rows = []
        if line.startswith("#"):
            heading = line.lstrip("#").strip()
