"""The rows of the machine behind each step of a script, as far as they differ from those behind the step before.

A row of a table may hold several rows of the machine: that of a thread has its wait and its mark too.
"""
import bisect
import collections
import dataclasses
from typing import Optional, Tuple

from ntlpc_tool import inputs, states
from ntlpc_tool.page import cells
from ntlpc_tool.page.kinds import KINDS

# The kinds of rows that stand in those of threads, and the kinds of those that are called by numbers.
OF_THREADS, NUMBERED = ("wait", "mark"), ("process", "thread")
# Rows stand with those of the process or of the queue that they belong to; handles there by value, names by path, and
# all others as they came.
PROCESS_OF, QUEUE_OF = ("thread", "handle", "view"), ("message",)


@dataclasses.dataclass(eq=False)
class Row:
    """A row of a table: its kind, the name of the machine's row, the name of that to which it belongs, its place by
    value, and as which of all it came first. `number` is its place in the tables among all that they ever have."""

    kind: Optional[str]
    name: str
    owner: Optional[str]
    value: object
    came: int
    number: int = -1


@dataclasses.dataclass(frozen=True)
class Delta:
    """What became of a row in a step: its cells before and behind it, None where it wasn't there, and the columns that
    differ."""

    row: Row
    before: Optional[Tuple]
    behind: Optional[Tuple]
    columns: Tuple[int, ...] = ()


class History:
    """`steps` has the deltas of each step, `rows` has all rows in the order of the tables, `known` the newest of each
    name, and `end` the cells of those that are left, by row."""

    def __init__(self, changes, lines):
        """The changes in their order, and the line of each step; None stands for the step behind all lines."""
        self.book = cells.Book(_numbers(changes))
        self.raw, self.known, self.end, self.rows = {}, {}, {}, []
        # By the names of threads those of their waits, also of those that ended; a thread has one at most.
        self.waits = {}
        told = [it for it in lines if it is not None]
        groups = collections.defaultdict(list)
        for change in changes:
            groups[min(bisect.bisect_left(told, change.line), len(lines) - 1)].append(change)
        self.steps = [self._step(groups[at]) if at in groups else [] for at in range(len(lines))]
        self.rows.sort(key=self._place)
        for number, row in enumerate(self.rows):
            row.number = number

    def _step(self, changes):
        """The deltas of a step; each row has one at most."""
        before = {}
        for change in changes:
            home = self._home(change.name)
            before.setdefault(home, self._values(home))
            if change.word == "went":
                self.raw.pop(change.name, None)
            else:
                self.raw[change.name] = change.values
            if _word(change.name) == "wait" and change.word != "went":
                self.waits[home] = change.name
        return [it for it in map(self._delta, before, before.values()) if it]

    def _delta(self, name, old):
        """What became of a row whose values were these; None where nothing did."""
        new = self._values(name)
        if old is None and new is None:
            return None
        try:
            row = self._come(name, new) if old is None else self.known[name]
            was, behind = self.end.pop(row, None), new and KINDS[row.kind].cells(self.book, row.name, new)
        except (AttributeError, IndexError, KeyError, TypeError, ValueError):
            told = inputs.cut(cells.shown(name), 90)
            raise states.Malformed(f"the values of {told} aren't of the forms that they have to be of") from None
        if new is None:
            return Delta(row, was, None)
        self.end[row] = behind
        differ = _differ(KINDS[row.kind], old, new, was, behind) if old else ()
        return Delta(row, was, behind, differ) if differ or old is None else None

    def _come(self, name, values):
        """The row of a name that comes. A message is another one each time, and all else is what it was before."""
        row = self.known.get(name)
        if row is None or row.kind == "message":
            kind = _word(name) if _word(name) in KINDS else None
            owner = self.book.numbers.get(("process", values["process"])) if kind in PROCESS_OF else None
            owner = values["queue"] if kind in QUEUE_OF else owner
            value = name.split("\\") if kind == "name" else int(values["value"]) if kind == "handle" else 0
            row = self.known[name] = Row(kind, name, owner, value, len(self.rows))
            self.rows.append(row)
        return row

    def _home(self, name):
        """The row of a table in which a row of the machine stands."""
        number = _number(name) if _word(name) in OF_THREADS else None
        return self.book.numbers.get(("thread", number), name)

    def _values(self, name):
        """The values of a row of a table, by the keys of its columns; None where it isn't there."""
        kind, values = _word(name), self.raw.get(name)
        if values is None or kind not in KINDS:
            return None if values is None else {"values": values}
        values = {**values, "name": name}
        if kind == "thread":
            wait = self.raw.get(self.waits.get(name), {})
            values.update((f"wait {key}", value) for key, value in wait.items())
            values["mark"] = "not handled" if f"mark {values.get('number')}" in self.raw else None
        return values

    def _place(self, row):
        """Where a row stands among all."""
        owner = self.known.get(row.owner)
        return list(KINDS).index(row.kind), owner.came if owner else 0, row.value, row.came


def _differ(kind, old, new, was, behind):
    """The columns whose values differ. A cell may be the same for two values of which it shows a part; where it is
    empty for both it tells of neither."""
    columns = enumerate(kind.columns)
    found = [at for at, it in columns if any(old.get(key) != new.get(key) for key in it.keys)]
    return tuple(at for at in found if was[at] or behind[at])


def _word(name):
    """The word with which the name of a row begins, which tells its kind."""
    return name.partition(" ")[0]


def _number(name):
    """The number behind that word, which is that of a thread; None where there is none."""
    number = name.partition(" ")[2].partition(".")[0]
    return int(number) if number.isascii() and number.isdigit() and len(number) < 12 else None


def _numbers(changes):
    """The names of the processes and threads, by kind and number."""
    told = ((_word(it.name), it.values.get("number"), it.name) for it in changes if _word(it.name) in NUMBERED)
    return {(kind, number): name for kind, number, name in told if type(number) is int}
