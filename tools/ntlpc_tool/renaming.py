"""Which names one transcript has for what another one names in its own way.

Handles are named by their process, and identifiers by the thread that drew them. A renaming is consistent where one
name stands for one other name and no two for the same. A handle's name is free again once the script closes it; where
no script is given that isn't known, and a name stands for one other name to the end.
"""
import dataclasses

from ntlpc_tool import facts, script_lines, statuses

# The fields that show a new handle.
HANDLES = ("h", "thread")


class Bijection:
    """Pairs of a wanted name and the got one, by whose names they are."""

    def __init__(self):
        self.got_of, self.wanted_of, self.ever = {}, {}, {}

    def fit(self, owner, wanted, got, new=False):
        """Adds a pair, or tells why it doesn't fit the pairs that stand. A pair that is new doesn't stand already."""
        known, other = self.got_of.get((owner, wanted)), self.wanted_of.get((owner, got))
        if (known, other) == (got, wanted) and not new:
            return None
        if known is not None and known != got:
            return f"{wanted} stands for {known}, got {got}"
        if other is not None and other != wanted:
            return f"{wanted} is wanted, got {got}, which stands for {other}"
        self.got_of[owner, wanted], self.wanted_of[owner, got] = got, wanted
        self.ever.setdefault(owner, []).append((wanted, got))
        return None

    def free(self, owner, wanted):
        """Ends the pair of a name."""
        got = self.got_of.pop((owner, wanted), None)
        self.wanted_of.pop((owner, got), None)


class Renaming:
    """Puts wanted names for got ones, entry by entry in the order of the wanted transcript."""

    def __init__(self, transcripts, script=None):
        self.handles, self.identifiers = Bijection(), Bijection()
        self.process_of = facts.processes(transcripts, script)
        self.script = script

    def fit(self, wanted, got):
        """The got entry with wanted names, and what doesn't fit."""
        problems, fields = [], []
        for name, value in got.fields:
            right = wanted.field(name)
            if name in (*HANDLES, "id") and right is not None:
                bijection, whose, told = self._kind(name, wanted)
                wrong = bijection.fit(whose, int(right), int(value), new=name in HANDLES and self.script is not None)
                problems += [f"{told}: {wrong}"] if wrong else []
                value = value if wrong else right
            fields.append((name, value))
        entry = dataclasses.replace(got, fields=tuple(fields))
        return self._fit_message(wanted, entry, problems)

    def _kind(self, name, entry):
        """The bijection of a field's names, whose names they are, and how both are told."""
        if name == "id":
            return self.identifiers, entry.thread, f"an identifier of thread {entry.thread}"
        process = self.process_of.get(entry.thread)
        whose = f"process {process}" if process is not None else f"the process of thread {entry.thread}"
        return self.handles, whose, f"a handle of {whose}"

    def _fit_message(self, wanted, got, problems):
        """The entry with the wanted name for the identifier of its message, where the messages have one sender."""
        here, there = wanted.message(), got.message()
        if here and there and (here.process, here.thread) == (there.process, there.thread):
            wrong = self.identifiers.fit(here.thread, here.message_id, there.message_id)
            if wrong:
                return got, [*problems, f"the MessageId of a message of thread {here.thread}: {wrong}"]
            shown = dataclasses.replace(there, message_id=here.message_id).to_bytes().hex()
            fields = tuple((name, shown if name == "msg" else value) for name, value in got.fields)
            got = dataclasses.replace(got, fields=fields)
        return got, problems

    def close(self, entry):
        """Frees the name of a handle where an entry of the wanted transcript tells that the script closed it."""
        if self.script is None or entry.call != "NtClose" or entry.status != statuses.SUCCESS:
            return
        words = self.script.words(entry.line)
        if len(words) == 3:
            self.handles.free(self._kind("h", entry)[1], script_lines.number(words[2]))

    def told(self):
        """The renaming, a line for each process and thread whose names differ."""
        lines = []
        for kind, bijection in (("handles of", self.handles), ("identifiers of thread", self.identifiers)):
            for owner, pairs in bijection.ever.items():
                differ = [f"{wanted} is {got}" for wanted, got in dict.fromkeys(pairs) if wanted != got]
                lines += [f"{kind} {owner}: {', '.join(differ)}"] if differ else []
        return lines
