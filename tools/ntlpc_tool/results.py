"""How scripts with known transcripts ended, and the files and lists that tell it."""
import dataclasses
import json
import os
import re
import stat
import xml.etree.ElementTree as xml
from typing import Optional, Tuple

from ntlpc_tool import describe, judge

NO_XML = re.compile("[^\t\n\r\x20-\ud7ff\ue000-\ufffd\U00010000-\U0010ffff]")


@dataclasses.dataclass(frozen=True)
class Result:
    """How the case at a path ended. `lacks` names the calls and directives for want of which it wasn't run; one that
    was run passed where there is no failure. `about` is what the script says of itself, `size` its lines without
    comments."""

    path: str
    seconds: float
    lacks: Tuple[str, ...] = ()
    failure: Optional[judge.Failure] = None
    about: Tuple[str, ...] = ()
    size: int = 0

    def outcome(self):
        """The result in a word."""
        return "skipped" if self.lacks else "failed" if self.failure else "passed"

    def block(self):
        """The lines that tell how a case failed, behind its name."""
        return [*self.about, *self.failure.told]


def count(results, outcome):
    """How many cases ended so."""
    return sum(it.outcome() == outcome for it in results)


def groups(failed):
    """Failed cases by their cause, those with the most first; of each the shortest script first."""
    found = {}
    for result in failed:
        found.setdefault(result.failure.cause, []).append(result)
    sorted_ones = [sorted(it, key=lambda one: (one.size, one.path)) for it in found.values()]
    return sorted(sorted_ones, key=lambda group: (-len(group), group[0].path))


def tell_groups(results):
    """Prints each group of failed cases: how many, what they have in common, the rule, and the shortest script."""
    for group in groups([it for it in results if it.failure]):
        first = group[0]
        rule = first.failure.cause.lines()
        told = (*first.about, *(it for it in first.failure.told if it not in rule))
        print(f"{describe.counted(len(group), 'script')}: {first.failure.cause.means}")
        print(*(f"    {it}" for it in rule), sep="\n", end="\n" * bool(rule))
        print(f"    the shortest is {first.path}", *(f"        {it}" for it in told), "", sep="\n")


class Sink:
    """A file for results. It is opened before the scripts are run, and what it had stays until there are results."""

    def __init__(self, path):
        self.path = path
        self.file = os.fdopen(os.open(path, os.O_WRONLY | os.O_CREAT, 0o666), "wb")

    def write(self, data):
        """Puts data in place of what the file has."""
        with self.file as file:
            if stat.S_ISREG(os.fstat(file.fileno()).st_mode):
                file.truncate(0)
            file.write(data)


def as_junit(results):
    """The results as JUnit writes them."""
    failed, skipped = (str(count(results, it)) for it in ("failed", "skipped"))
    counts = {"tests": str(len(results)), "failures": failed, "errors": "0", "skipped": skipped}
    counts["time"] = f"{sum(it.seconds for it in results):.3f}"
    top = xml.Element("testsuite", name="conformance", **counts)
    for result in results:
        folder, _, name = result.path.rpartition("/")
        place = {"classname": folder or "conformance", "name": name, "time": f"{result.seconds:.3f}"}
        case = xml.SubElement(top, "testcase", place)
        if result.lacks:
            xml.SubElement(case, "skipped", message=f"needs {', '.join(result.lacks)}")
        elif result.failure:
            text = NO_XML.sub("?", "\n".join(result.block()))
            xml.SubElement(case, "failure", message=text.split("\n")[0]).text = text
    return xml.tostring(top, encoding="utf-8", xml_declaration=True)


def as_json(results):
    """The results as one object of JSON."""
    whole = {it: count(results, it) for it in ("passed", "failed", "skipped")}
    whole["scripts"] = [_object(it) for it in results]
    return (json.dumps(whole, indent=1) + "\n").encode()


def _object(result):
    """One case as JSON has it."""
    found = {"script": result.path, "result": result.outcome(), "seconds": round(result.seconds, 3)}
    if result.lacks:
        found["needs"] = list(result.lacks)
    failure = result.failure
    if failure:
        found.update(line=failure.line, wanted=failure.wanted, printed=failure.printed)
        found.update(means=failure.cause.means, rule=failure.cause.rule, page=failure.cause.page)
        found["told"] = result.block()
    return found
