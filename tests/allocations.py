#!/usr/bin/env python3
"""Refuses each allocation of the program in turn, over the examples and the scripts of tests/worked.

    tests/allocations.py PROGRAM

A run in which one allocation is refused, or that one and each later one, ends with status 5, and has printed some first
lines of the transcript, each whole and none of them the last one; or it ends as it does with all its memory. The same
holds of what the form `states` prints, and of the usage line. Where memory runs out before the words are known, the
status is 5 too.

How many allocations the smallest script makes is told in docs/PROOFS.md, and compared.

Each check that fails has a line, and the last line is `N passed, M failed`. Where there is no C compiler all is left
out, with a line. The exit status is 0 where every check passed, 1 where not, and 64 without PROGRAM.
"""
import pathlib
import re
import sys

sys.dont_write_bytecode = True
from failing import tried
from tally import counted

ROOT = pathlib.Path(__file__).resolve().parent.parent
FOLDERS = "examples", "tests/worked"
SMALLEST = ROOT / "examples" / "first-request.script"
TOLD = re.compile(r"in a replay of `examples/first-request\.script` these are (\d+)\b")
OUT_OF_MEMORY = 5
# How many checks there are: who adds a script or a form changes the number.
CHECKS = 75
USAGE = b"usage: ntlpc COMMAND [WORDS]\n"


def is_front(printed, whole):
    """Whether a text is some first lines of another, and not all of them."""
    return whole.startswith(printed) and (not printed or printed.endswith(b"\n")) and printed != whole


def wrong_with(run, status, text):
    """What is wrong with a run in which memory ran out; nothing where it ended as it should."""
    if run.status is None:
        return run.said.decode()
    if run.said:
        return f"it wrote to its standard error: {run.said[-200:]!r}"
    if (run.status, run.printed) == (status, text):
        return ""
    if run.status != OUT_OF_MEMORY:
        return f"it ended with status {run.status}, and printed {run.printed[-160:]!r}"
    return "" if is_front(run.printed, text) else f"it printed {run.printed[-160:]!r}"


def refusals(program, words, source, status, text):
    """Refuses each allocation in turn; how many there are, how many runs wanted for memory, and what was wrong."""
    whole = program.run(*words, source=source)
    if (whole.status, whole.printed) != (status, text):
        return 0, 0, [wrong_with(whole, status, text) or f"with all its memory it ended with status {whole.status}"]
    wanting, wrong = 0, []
    for number in range(1, whole.allocations + 1):
        for more in {}, {"FAIL_FROM": 1}:
            run = program.run(*words, source=source, FAIL_ALLOCATION=number, **more)
            wanting += run.status == OUT_OF_MEMORY
            found = wrong_with(run, status, text)
            if found:
                wrong.append(f"allocation {number}{' and all later ones' * bool(more)}: {found}")
    return whole.allocations, wanting, wrong


def all_checks(program):
    """All checks, and that there are as many."""
    yield from counted("the allocations", checks(program), CHECKS)


def checks(program):
    """Each check with its name and what it found wrong."""
    page = (ROOT / "docs" / "PROOFS.md").read_text(encoding="utf-8")
    for script in (it for folder in FOLDERS for it in sorted((ROOT / folder).glob("*.script"))):
        text = script.with_suffix(".transcript").read_bytes()
        status = 2 if text.splitlines()[-1].startswith(b"stop ") else 0
        count, wanting, wrong = refusals(program, ["replay"], script.read_bytes(), status, text)
        yield f"{script.name}, {count} allocations", wrong
        # Most allocations of a replay are such that it can't do without them.
        few = [f"{wanting} of {2 * count} runs wanted for memory"] if not 0 < wanting >= count else []
        yield f"{script.name}: a refused allocation is told", few
        if script == SMALLEST:
            told = TOLD.search(page)
            good = told and int(told[1]) == count
            yield "the number in docs/PROOFS.md", [] if good else [f"there are {count} allocations"]
    for file in sorted((ROOT / "examples").rglob("*.states")):
        script, text = file.with_suffix(".script").read_bytes(), file.read_bytes()
        count, wanting, wrong = refusals(program, ["states"], script, 0, text)
        yield f"{file.name}, {count} allocations", wrong
        few = [f"{wanting} of {2 * count} runs wanted for memory"] if not 0 < wanting >= count else []
        yield f"{file.name}: a refused allocation is told", few
    for words in [], ["unknown"], ["replay", "unknown"], ["states", "unknown"]:
        count, wanting, wrong = refusals(program, words, b"", 64, USAGE)
        yield f"other words, {words}, {count} allocations", wrong


if __name__ == "__main__":
    sys.exit(tried("tests/allocations.py", all_checks, sys.argv[1:]))
