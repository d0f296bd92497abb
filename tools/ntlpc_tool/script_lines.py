"""The words of a script's lines, beside a transcript that tells what each line did.

Nothing here tells whether a line is well formed: that is the program's to say. What is read stands in lines of which a
transcript has an entry.
"""
from ntlpc_tool import inputs, statuses

# The places of the process and the thread among a line's words; those of what a call makes.
DIRECTIVES_OF_THREADS = {"boot": (1, 2), "thread": (2, 1)}
CALLS_OF_THREADS = {"NtCreateProcess": (2, 3), "NtCreateThread": (3,)}


class Script:
    """A script; its lines are numbered from 1."""

    def __init__(self, data):
        self.lines = inputs.lines_of(data)

    def text(self, line):
        """The text of a line, as it can be printed; None where there is no such line."""
        return inputs.shown(self.lines[line - 1]) if 1 <= line <= len(self.lines) else None

    def words(self, line):
        """The words of a line; none where there is no such line, and none of a comment."""
        text = self.text(line) or ""
        return [] if text.startswith("#") else [it for it in text.split(" ") if it]

    def processes(self, transcript):
        """The process of each thread that a directive or a call made, where the transcript tells that it did."""
        found, handles = {}, {}
        for entry in transcript.entries:
            places = DIRECTIVES_OF_THREADS.get(entry.call)
            words = self.words(entry.line)
            if entry.status != statuses.SUCCESS:
                continue
            if places and entry.kind == "directive" and len(words) > 2:
                process, thread = (number(words[it]) for it in places)
                found[thread] = process
            elif entry.kind == "answer" and len(words) == 4:
                _follow(entry, words, found, handles)
        return found


def _follow(entry, words, found, handles):
    """Adds what a call made: the process of a thread, and the process that a handle of the caller's process names.

    A handle that is closed needs no care: a call that takes it for one to a process is refused.
    """
    owner, value = found.get(entry.thread), entry.field("h")
    named = owner if words[2] == "self" else handles.get((owner, number(words[2])))
    if entry.call == "NtCreateProcess":
        named = found[number(words[3])] = number(words[2])
    if entry.call == "NtCreateThread" and named is not None:
        found[number(words[3])] = named
    elif entry.call in ("NtCreateProcess", "NtDuplicateObject") and value is not None:
        handles[owner, int(value)] = named


def made_by(words):
    """Those of a line's words that name the processes and threads which it makes."""
    directives = {"boot": (1, 2), "thread": (1,)}
    if words[0] in directives:
        return [words[it] for it in directives[words[0]] if it < len(words)]
    return [words[it] for it in CALLS_OF_THREADS.get(words[1], ())] if len(words) == 4 else []


def number(word):
    """The value of a Number; None where the word is none."""
    try:
        return int(word, 0)
    except ValueError:
        return None
