"""The kinds of rows that the machine has, each with the columns of its table on the page.

The waits and marks of threads stand in the rows of their threads: the values of a wait are called `wait ..` there.
"""
import dataclasses
import json
from typing import Callable, Tuple

from ntlpc_tool import message
from ntlpc_tool.page import cells
from ntlpc_tool.page.cells import Book


@dataclasses.dataclass(frozen=True)
class Column:
    """A column: the values of whose keys it tells, and how. It is empty where the first of them is missing or null."""

    name: str
    show: Callable
    keys: Tuple[str, ...]

    def cell(self, book, values):
        given = [values.get(it) for it in self.keys]
        return () if given[0] is None else tuple(self.show(book, *given))


@dataclasses.dataclass(frozen=True)
class Kind:
    """A kind of rows: the heading of its table, how a row is called, the columns, and what stands before a row's name
    where it is told apart from its table."""

    heading: str
    title: Callable
    columns: Tuple[Column, ...]
    noun: str

    def cells(self, book, name, values):
        """A row's cells; the first one has what it is called."""
        return (self.title(book, name, values), *(it.cell(book, values) for it in self.columns[1:]))


def _kind(heading, first, *columns, title=None, noun=""):
    """A kind whose rows are called by their names, or otherwise."""
    named = title or (lambda book, name, values: (book.title(name),))
    first = Column(first, None, ())
    return Kind(heading, named, (first, *(Column(name, show, tuple(keys)) for name, show, *keys in columns)), noun)


def _message(book, name, values):
    """A message is called as the drawing calls it."""
    kind = message.TYPES.get(values["type"], "message")
    return (f"{kind} {values['process']}.{values['thread']}.{values['identifier']}",)


def _path(book, name, values):
    return (cells.shown(name.partition(" ")[2]),)


def _all_values(book, values):
    """A row of which no more is known."""
    return (cells.shown(json.dumps(values)),)


COUNTS = (("Handles", cells.text, "handles"), ("Pointers", cells.text, "pointers"))
TOKEN = (("User", cells.user, "token"), ("Groups", cells.groups, "token"))
KINDS = {
    "process": _kind(
        "Processes", "Process",
        ("Made as", cells.birth, "name"),
        ("Made by", Book.process, "maker"),
        ("Token", cells.token_of, "token"),
        ("Debug port", Book.row, "debug_port"),
        ("Exception port", Book.row, "exception_port"),
        ("Ended unhandled with", cells.code, "doom"),
        *COUNTS,
    ),
    "thread": _kind(
        "Threads", "Thread",
        ("Made as", cells.birth, "name"),
        ("Process", Book.process, "process"),
        ("Life", cells.ended, "live"),
        ("Waits in", cells.text, "wait call"),
        ("On", Book.row, "wait port"),
        ("Queue", cells.queue_beside, "wait queue", "wait port"),
        ("For", cells.awaited, "wait for", "wait identifier", "wait received", "wait message", "wait offer",
         "wait accepted", "wait exception"),
        ("Mark", cells.text, "mark"),
        ("Next identifier", cells.text, "next_identifier"),
        ("Next object", cells.text, "next_ordinal"),
        ("Its end is told to", Book.rows, "registrations"),
        ("Acts as", cells.leveled, "acts_as"),
        *COUNTS,
    ),
    "port": _kind(
        "Ports", "Port",
        ("Kind", cells.text, "kind"),
        ("Connection port", Book.row, "connection"),
        ("Other end", Book.row, "pair"),
        ("Context", cells.context_of_end, "context", "kind"),
        ("Completed", cells.completed, "completed", "kind"),
        ("Made by connect", cells.creator, "creator"),
        ("Allows", cells.security, "security"),
        *COUNTS,
    ),
    "handle": _kind(
        "Handles", "Handle",
        ("Process", Book.process, "process"),
        ("Object", Book.object, "object"),
        ("Access", cells.text, "access"),
    ),
    "message": _kind(
        "Queued messages", "Message",
        ("Queue", Book.row, "queue"),
        ("Sent on", Book.row, "sender"),
        ("Context", cells.text, "context"),
        ("Data", cells.data, "data"),
        ("Header", cells.sizes, "type", "data_size", "message_size", "ranges_offset", "section_size"),
        title=_message, noun="queued ",
    ),
    "name": _kind("Names", "Name", ("Leads to", cells.leads, "is", "port", "target"), title=_path, noun="name "),
    "section": _kind(
        "Sections", "Section",
        ("Made by", Book.process, "process"),
        ("Size", cells.text, "size"),
        ("May be written", cells.flag, "writable"),
        ("Bytes", cells.stretches, "bytes"),
        *COUNTS,
    ),
    "view": _kind(
        "Views", "View",
        ("Process", Book.process, "process"),
        ("Size", cells.text, "size"),
        ("Section", Book.row, "section"),
        ("From", cells.text, "offset"),
        ("May be written", cells.flag, "writable"),
        ("Owner", Book.row, "owner"),
    ),
    "token": _kind("Tokens", "Token", *TOKEN, ("Level", cells.level, "level"), *COUNTS),
    "token_name": _kind("Names of tokens", "Name", *TOKEN, title=_path, noun="name of a token "),
    None: _kind("Other rows", "Row", ("Values", _all_values, "values")),
}  # fmt: skip
