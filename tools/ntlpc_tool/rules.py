"""Which statuses, faults, entries, fields and last lines the pages name, and which of them transcripts reach.

A pair is a group (a call, a directive, `fault`, `entry`, `field`, `last line`) and an outcome: a status alone is an
answer, `wait` a wait, a star before the status a wake.
"""
import collections
import re

from ntlpc_tool import forms, inputs, pages, transcript

STATUS = re.compile(r"\b[0-9A-F]{8}\b")
NEVER = "can't come about yet"
NOT_YET = re.compile(NEVER, re.I)


class Rules:
    """What the pages name: `wanted` has for each group its outcomes in order; of the pairs of both, `not_yet` has those
    that can't come about yet."""

    def __init__(self):
        self.wanted = collections.defaultdict(dict)
        self.not_yet = set()

    def add(self, group, outcome, comes=True):
        """Adds a pair. A status that comes about by one of its causes does come about."""
        known = self.wanted[group].get(outcome, False)
        self.wanted[group][outcome] = known or comes
        (self.not_yet.discard if known or comes else self.not_yet.add)((group, outcome))


def of_pages():
    """The rules of docs/SERVICES.md and docs/SCRIPTS.md."""
    rules = Rules()
    _read_services(rules)
    _read_scripts(rules)
    return rules


def _refusals(text, causes, shared):
    """The refusals that a cell names, each as a status and whether it can come about. The page tells that none of them
    can in `causes`, or of one of them in the cell itself, behind its status."""
    found = []
    for part in text.split(";"):
        word = part.strip().removeprefix("then ")
        told = zip(STATUS.findall(part), STATUS.split(part)[1:])
        found += shared.get(word) or [(it.lower(), not NOT_YET.search(behind)) for it, behind in told]
    return [(it, comes and not NOT_YET.search(causes)) for it, comes in found]


def _read_services(rules):
    """Reads docs/SERVICES.md."""
    shared, printed = {}, []
    for heading, head, rows in pages.tables(pages.text_of("SERVICES.md")):
        for row in rows:
            if head[0] == "Word":
                shared[row[0]] = _refusals(row[1], "", {})
            elif head[:2] == ["Line", "Refusals in their order"]:
                for status, comes in _refusals(row[1], "", shared):
                    rules.add(row[0].strip("`").split()[0], status, comes)
            elif head == ["Refusal", "Cause"]:
                for status, comes in _refusals(row[0], row[1], shared):
                    rules.add(heading.split()[0], status, comes)
            elif head[:2] == ["Line", "Printed"]:
                printed += re.findall(r"`([^`]*)`", row[1])
    for line in printed:
        for group, outcome in sorted(outcomes(line.encode())):
            # (a call may have no refusal)
            if group in rules.wanted or group in forms.CALLS:
                rules.add(group, outcome)


def _read_scripts(rules):
    """Reads docs/SCRIPTS.md."""
    groups = {"Entry": "entry", "Field": "field", "Kind": "fault"}
    text = pages.text_of("SCRIPTS.md")
    for _, head, rows in pages.tables(text):
        if head[0] in groups and len(head) == 3:
            for row in rows:
                rules.add(groups[head[0]], row[0].strip("`"))
    for word in re.findall(r"^- `([a-z]+) [A-Z ]+`", text, re.M):
        rules.add("last line", word)


def outcomes(line):
    """The pairs that a line of a transcript shows."""
    last = re.fullmatch(rb"(end|stop) \d+ (\d+)(?: \d+)?", line)
    if last:
        found = {("last line", last[1].decode())}
        return found | {("fault", last[2].decode())} if last[1] == b"stop" else found
    entry = transcript.loosely(inputs.shown(line))
    if not entry:
        return set()
    found = {("entry", entry.kind)} | {("field", name) for name, _ in entry.fields}
    if entry.call:
        found.add((entry.call, "*" * (entry.kind == "wake") + (entry.status or "wait")))
    return found


def reached_by(texts):
    """In how many of the transcripts each pair is printed."""
    found = collections.Counter()
    for text in texts:
        found.update(set().union(*map(outcomes, text.splitlines())))
    return found


def tell(rules, reached, only_missing=False):
    """Prints each pair, and returns how many are reached, how many are missing, and how many no page names."""
    missing = 0
    for group, found in rules.wanted.items():
        lines = []
        for outcome, comes in found.items():
            count = reached[group, outcome]
            missing += comes and not count
            if not only_missing or comes and not count:
                lines.append(f"    {outcome:12} {count if count else 'MISSING' if comes else NEVER}")
        if lines:
            print(group, *lines, sep="\n")
    named = {(group, outcome) for group, found in rules.wanted.items() for outcome in found} - rules.not_yet
    others = sorted(set(reached) - named)
    if others:
        print("printed, but not named by the pages as something that comes about")
        for group, outcome in others:
            print(f"    {group} {outcome}", reached[group, outcome])
    return len(named) - missing, missing, len(others)
