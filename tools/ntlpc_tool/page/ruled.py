"""The rules that an entry follows, in the words of ntlpc_tool.reasons, and links to where the pages have them."""
import os
import re
import urllib.parse

from ntlpc_tool import differences, inputs, pages, reasons, statuses

# What the address of the pages may begin with, where it is no path.
SCHEMES = ("file", "http", "https")
SCHEME = re.compile("([A-Za-z][A-Za-z0-9+.-]*):")
# What stays as it is in an address; a space and all that is no ASCII are spelled by their numbers.
KEPT = "%/:?#[]@!$&'()*+,;="
NO_RULE = reasons.rule("", "wakes nobody")


class Pages:
    """The links into the pages. `base` is the path or the address of their folder."""

    def __init__(self, base):
        base = urllib.parse.quote(os.fsencode(base), safe=KEPT)
        scheme = SCHEME.match(base)
        if scheme and scheme[1].lower() not in SCHEMES:
            raise inputs.Misuse(f"--docs wants a path, or an address of file:, http: or https:, not of {scheme[0]}")
        self.base = f"{base.rstrip('/')}/" if base else ""
        self.anchors = {}

    def link(self, place):
        """The address of a place, as `SERVICES.md, NtClose`: the heading that it names, or whose first words it has."""
        page, _, name = place.partition(", ")
        if page not in self.anchors:
            self.anchors[page] = pages.anchors(pages.text_of(page))
        headings = self.anchors[page]
        names = [it for it in headings if it == name or it.startswith((f"{name} ", f"{name}:"))]
        anchor = f"#{urllib.parse.quote(headings[min(names, key=len)])}" if name and names else ""
        return f"{self.base}{page}{anchor}"


def folder():
    """The address of the folder of the pages that stand beside the tools."""
    folders = (it for place in pages.PLACES for it in (place, place / "docs"))
    return next((it.resolve().as_uri() for it in folders if any(it.glob(f"{reasons.SERVICES}*"))), "docs")


def of_entry(entry, step):
    """The rules of an entry, which is one of a line's: pairs of a sentence and its place. A place whose sentence is
    empty tells more."""
    found = [*_of_kind(entry, differences.Step(step).maker()), *_of_fields(entry)]
    if entry.call and not any(place == reasons.of_call(entry.call) for _, place in found):
        found.append(("", reasons.of_call(entry.call)))
    return list(dict.fromkeys(found))


def of_closing(closing):
    """The rules of a last line."""
    if closing.word == "end":
        return [reasons.rule("end", "OBJECTS")]
    return [reasons.rule("stop", "LINE"), reasons.rule("stop", "KIND"), ("", f"FAULTS.md, Kind {closing.numbers[1]}")]


def _of_kind(entry, maker):
    """The rules of what came about; `maker` is the call of the line, as far as it is told."""
    if entry.kind in ("busy", "nothread"):
        return [reasons.rule("*", entry.kind)]
    if entry.kind == "died":
        return [reasons.rule("died", "who"), reasons.rule("died", "code")]
    if entry.kind == "wake":
        rule = differences.rule_of_wake(maker, entry)
        return [rule if rule != NO_RULE else reasons.rule("*", "order")]
    cause = reasons.causes(entry.call, entry.status) if entry.status != statuses.SUCCESS else None
    if cause:
        return [(f"{entry.call} is refused with {entry.status} where {cause}.", reasons.of_call(entry.call))]
    waits = reasons.RULES.get((entry.call, "waits"))
    return [waits] if waits else []


def _of_fields(entry):
    """The rules of an entry's fields, but for those of the message."""
    found = (reasons.rule(entry.call, name) for name, _ in entry.fields if name != "msg")
    return [it for it in found if it]
