"""docs/WAITS.md: each row stands in the transcript that it names, and the page has all statuses of all wakes."""
import re
import unittest

import support
from ntlpc_tool import pages, rules, transcript

PAGE = "WAITS.md"
HEAD = ["What ends it", "Returns", "Rule", "Shown by"]
STATUS = re.compile(r"[0-9A-F]{8}")


def rows():
    """Of each row that tells what ends a wait: the call, what it returns, and the transcript that shows it."""
    for call, head, cells in pages.tables(pages.text_of(PAGE)):
        for row in cells if head == HEAD else ():
            script = support.ROOT / "docs" / re.search(r"\(([^)]*)\.script\)", row[3])[1]
            yield call, row[1], transcript.load(f"{script.resolve()}.transcript")


def statuses_told():
    """The statuses that the rows tell, by call."""
    told = {}
    for call, returns, _ in rows():
        told.setdefault(call, set()).update(it.lower() for it in STATUS.findall(returns.partition(";")[0]))
    return told


class Waits(unittest.TestCase):
    def test_each_row_stands_in_its_transcript(self):
        for call, returns, found in rows():
            with self.subTest(call, returns=returns):
                shown = self.woke(call, returns, found) if STATUS.match(returns) else self.died_waiting(call, found)
                self.assertTrue(shown)

    def woke(self, call, returns, found):
        """Whether a wake has the status and the fields of a row, an empty `info` where it says so."""
        wanted, empty = (returns[:8].lower(), re.findall("`([a-z]+)`", returns)), "empty `info`" in returns
        wakes = [it for it in found.entries if (it.kind, it.call) == ("wake", call)]
        fitting = [it for it in wakes if (it.status, [name for name, _ in it.fields]) == wanted]
        return any(not empty or it.field("info") == "" for it in fitting)

    def died_waiting(self, call, found):
        """Whether a thread died that waited in a call."""
        waits = {}
        for entry in found.entries:
            if entry.kind == "died" and waits.get(entry.thread) == call:
                return True
            if entry.kind in ("wait", "wake"):
                waits[entry.thread] = entry.call if entry.kind == "wait" else None
        return False

    def test_it_has_each_status_of_each_wake(self):
        wanted = {}
        for call, outcomes in rules.of_pages().wanted.items():
            found = {it[1:] for it in outcomes if it.startswith("*")}
            wanted.update({call: found} if found else {})
        self.assertEqual(statuses_told(), wanted)

    def test_the_last_table_says_the_same(self):
        found = [(head, cells) for _, head, cells in pages.tables(pages.text_of(PAGE)) if head[0] == "Call"]
        self.assertEqual(len(found), 1)
        head, cells = found[0]
        table = {row[0].strip("`"): {it.lower() for it, cell in zip(head[1:], row[1:]) if cell} for row in cells}
        self.assertEqual(table, statuses_told())


if __name__ == "__main__":
    unittest.main()
