"""Writes a transcript as JSON: one object a line for each entry, and one for the last line.

The keys of an entry's object, in their order:

  line         the number of the script's line
  kind         answer, wait, wake, died, busy, nothread or directive
  thread       the thread's number; null in a directive's entry
  call         the call, or the directive's word; null where the thread died, was busy or is none
  status       8 hexadecimal digits, the code where the thread died; null where the call waits, and where the thread was
               busy or is none
  status_name  the status's name; null where there is no status or it has no name here
  fields       an object: h, thread, id, max, size, handles and pointers are numbers; the others are text as it is
               printed
  message      where there is a field msg: an object with data_size, message_size, type, type_name (null for a number
               that is no type), ranges_offset, ranges (pairs of base and size; null where the table doesn't lie in the
               data), process, thread, message_id, section_size, data (hexadecimal digits) and text (null where the data
               are no text)

The last line's object has kind `end` with lines, entries and objects, or kind `stop` with line and fault. A transcript
without a last line gives no such object. Exit status: 0; 2 where the transcript can't be read.
"""
import dataclasses
import json

from ntlpc_tool import describe, statuses, transcript

NAME = "json"
CLOSING_KEYS = {"end": ("lines", "entries", "objects"), "stop": ("line", "fault")}


def add_arguments(parser):
    parser.add_argument("transcript", metavar="TRANSCRIPT", nargs="?", default="-", help=transcript.FILE)


def run(arguments):
    found = transcript.load(arguments.transcript)
    for entry in found.entries:
        print(json.dumps(of_entry(entry)))
    if found.closing:
        print(json.dumps(of_closing(found.closing)))
    return 0


def of_entry(entry):
    """An entry as what JSON can write."""
    told = {
        "line": entry.line,
        "kind": entry.kind,
        "thread": entry.thread,
        "call": entry.call,
        "status": entry.status,
        "status_name": entry.status and statuses.name_of(entry.status),
        "fields": {name: _value(name, value) for name, value in entry.fields},
    }
    message = entry.message()
    return {**told, "message": of_message(message)} if message else told


def of_message(message):
    """A message as what JSON can write."""
    told = {**dataclasses.asdict(message), "data": message.data.hex()}
    told["type_name"], told["ranges"] = message.type_name(), message.ranges()
    told["text"] = describe.text_of(message.data)
    order = ["data_size", "message_size", "type", "type_name", "ranges_offset", "ranges"]
    return {key: told[key] for key in [*order, *(it for it in told if it not in order)]}


def of_closing(closing):
    """The last line as what JSON can write."""
    return {"kind": closing.word, **dict(zip(CLOSING_KEYS[closing.word], closing.numbers))}


def _value(name, value):
    return int(value) if transcript.FIELDS[name][0] == transcript.DECIMAL else value
