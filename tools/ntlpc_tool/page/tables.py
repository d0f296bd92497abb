"""The tables of the machine's rows: as they stand at the end, what each step changes in them in words, and all of it as
data, from which the page's script makes the tables behind each step."""
import itertools
import json

from ntlpc_tool import inputs
from ntlpc_tool.page import cells
from ntlpc_tool.page.kinds import KINDS
from ntlpc_tool.page.markup import Markup, element, joined

# How long the text of one value is at most where a change is told in words.
MOST_TOLD = 120
# Which names are so long that they may take several lines.
LONG_NAME = 40
# In data these are spelled by their numbers: what could end a script, or begin markup.
SPELLED = {ord(it): f"\\u{ord(it):04x}" for it in "<>&"}


class Tables:
    """The tables of a history."""

    def __init__(self, history):
        self.history = history

    def at_end(self):
        """A table for each kind of rows that there ever is; one that is empty at the end is hidden."""
        groups = itertools.groupby(self.history.rows, lambda it: it.kind)
        return joined((self._table(KINDS[kind], list(rows)) for kind, rows in groups), "\n")

    def changes(self, at):
        """What became of the rows in a step, in words; nothing where nothing did."""
        told = [self._told(it) for it in self.history.steps[at]]
        if not told:
            return ""
        return element("div", element("h4", "What it changed"), element("ul", *told), class_="told changes")

    def data(self):
        """All steps as JSON. Of each row that came in it there are all cells, of one that changed those that differ, by
        column, and null of one that went; in front stands the row's number."""
        steps = [[[it.row.number, self._behind(it)] for it in step] for step in self.history.steps]
        return Markup(json.dumps(steps, separators=(",", ":")).translate(SPELLED))

    # Markup.

    def _table(self, kind, rows):
        """A table. A column in which all cells are empty is hidden."""
        left = [(it, self.history.end[it]) for it in rows if it in self.history.end]
        unused = [None if any(given[at] for _, given in left) else "" for at in range(len(kind.columns))]
        head = element("tr", *(element("th", it.name, scope="col", hidden=no) for it, no in zip(kind.columns, unused)))
        body = joined((self._row(it, given, unused) for it, given in left), "\n")
        table = element("table", element("thead", head), element("tbody", body), aria_label=kind.heading)
        summary = element("summary", f"{kind.heading} ", element("span", len(left), class_="count"))
        hidden = None if left else ""
        return element("details", summary, table, class_="rows", open="", hidden=hidden, data_rows=len(rows))

    def _row(self, row, given, unused):
        """The row of a table."""
        inner = [joined(map(self._part, it)) for it in given]
        name = element("th", inner[0], scope="row", class_="long" if len(plain(given[0])) > LONG_NAME else None)
        others = (element("td", it, hidden=no) for it, no in zip(inner[1:], unused[1:]))
        return element("tr", name, *others, id=f"row-{row.number}", tabindex=-1)

    def _part(self, part):
        """A part of a cell."""
        row = self._leads_to(part)
        return plain([part]) if row is None else self._anchor(row, part.text)

    def _anchor(self, row, text):
        """A link to a row. It leads there where the row stands at the end; the page's script sees to other steps."""
        href = f"#row-{row.number}" if row in self.history.end else None
        return element("a", text, href=href, data_row=row.number)

    def _leads_to(self, part):
        """The row to which a part of a cell leads; None where it is a text, or the tables never have its row."""
        return self.history.known.get(part.name) if isinstance(part, cells.Link) else None

    def _told(self, delta):
        """What became of a row, in words."""
        kind, word = KINDS[delta.row.kind], "went" if delta.behind is None else "changed" if delta.before else "came"
        name = self._anchor(delta.row, kind.noun + plain((delta.behind or delta.before)[0]))
        if word == "came":
            told = [f"{it.name} {_short(cell)}" for it, cell in zip(kind.columns[1:], delta.behind[1:]) if cell]
        else:
            old, new = (list(map(_short, it or ())) for it in (delta.before, delta.behind))
            told = [f"{kind.columns[it].name} {old[it]} \u2192 {new[it]}" for it in delta.columns]
        beside = element("span", f": {'; '.join(told)}", class_="values") if told else ""
        return element("li", name, f" {word}", beside, class_=word)

    # Data.

    def _behind(self, delta):
        """What the data tell of a row."""
        if delta.behind is None:
            return None
        if delta.before is None:
            return [self._cell(it) for it in delta.behind]
        return {at: self._cell(delta.behind[at]) for at in delta.columns}

    def _cell(self, cell):
        """A cell: a text, or a list of texts and of pairs, each a row's number and the text that leads there."""
        rows = [self._leads_to(it) for it in cell]
        if all(it is None for it in rows):
            return plain(cell)
        return [plain([part]) if row is None else [row.number, part.text] for part, row in zip(cell, rows)]


def plain(cell):
    """The text of a cell."""
    return "".join(it.text if isinstance(it, cells.Link) else it for it in cell)


def _short(cell):
    return inputs.cut(plain(cell), MOST_TOLD) or "nothing"
