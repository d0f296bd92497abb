#!/usr/bin/env python3
"""Tries the tools of the suite: they have to tell each kind of difference, and to print what docs/CONFORMANCE.md shows.
What measures the gate has to leave a command as it is.

    tests/tools.py

Each check that fails has a line, and the last line is `N passed, M failed`. The exit status is 0 where all passed.
"""
import pathlib
import subprocess
import sys
import tempfile
import xml.etree.ElementTree as xml

ROOT = pathlib.Path(__file__).resolve().parent.parent
PAGE = (ROOT / "docs" / "CONFORMANCE.md").read_text(encoding="utf-8")
COMMAND = "conformance/run --only 'thread/*' python3 conformance/example.py"
# One script, for which other programs stand in.
TRANSCRIPT = min((ROOT / "conformance" / "boot").glob("*.transcript"))
CASE, WANTED = f"boot/{TRANSCRIPT.stem}", TRANSCRIPT.read_bytes()
# One that says nothing of itself.
UNCOMMENTED = "lines/an-empty-script"


def run(*words):
    """Runs the suite with these words, and returns its status and what it printed."""
    ran = subprocess.run([ROOT / "conformance" / "run", *words], cwd=ROOT, capture_output=True, text=True)
    return ran.returncode, ran.stdout


def of_printer(text, status=0):
    """Runs one case against a program that prints a text, whatever it reads, and ends with a status."""
    code = f"import sys; sys.stdout.buffer.write({text!r}); sys.exit({status})"
    return run("--only", CASE, sys.executable, "-c", code)


def example_is_as_told():
    told = PAGE.split(COMMAND, 1)[1].split("```\n", 2)[1]
    return run("--only", "thread/*", "python3", "conformance/example.py") == (1, told)


def example_put_right_is_as_told():
    wrong = (ROOT / "conformance" / "example.py").read_text(encoding="utf-8")
    begin, limit = wrong.index("    if list(process_of"), wrong.index("    if thread in process_of:\n        return")
    end = wrong.index("    process_of[thread] = process\n    return")
    with tempfile.NamedTemporaryFile("w", suffix=".py") as file:
        file.write(wrong[:begin] + wrong[limit:end] + wrong[begin:limit] + wrong[end:])
        file.flush()
        closing = run("--only", "thread/*", "python3", file.name)[1].splitlines()[-1]
    return f"`{closing}` is left" in PAGE


def junit_has_failures():
    with tempfile.NamedTemporaryFile() as file:
        run("--junit", file.name, "--only", CASE, "true")
        top = xml.parse(file.name).getroot()
    return top.get("tests") == top.get("failures") == "1" and top.find("testcase/failure") is not None


def shards_are_the_whole():
    counts = [run("--only", "boot/*", "--shard", it, "true")[1].split()[-2] for it in ("1/2", "2/2")]
    whole = run("--only", "boot/*", "true")[1].split()[-2]
    return sum(map(int, counts)) == int(whole) > 1


def measuring_changes_nothing():
    with tempfile.NamedTemporaryFile() as file:
        told = "echo told; echo warned >&2; exit 3"
        words = [ROOT / "tests" / "gate_seconds.py", "--to", file.name, "sh", "-c", told]
        ran = subprocess.run(words, capture_output=True, text=True)
    return (ran.returncode, ran.stdout, ran.stderr) == (3, "told\n", "warned\n")


CHECKS = {
    "the page shows what the example prints": example_is_as_told,
    "the page tells what is left once the example is right": example_put_right_is_as_told,
    "the right transcript passes": lambda: of_printer(WANTED) == (0, "1 passed, 0 failed\n"),
    "another status fails": lambda: "status 2, status 0 is wanted" in of_printer(WANTED, 2)[1],
    "a byte that differs fails": lambda: of_printer(WANTED.replace(b"0", b"O", 1))[0] == 1,
    "a last byte that is missing fails": lambda: "without byte 10" in of_printer(WANTED[:-1])[1],
    "a further line fails": lambda: "(nothing)" in of_printer(WANTED + b"end 0 0 0\n")[1],
    "no output fails": lambda: of_printer(b"")[0] == 1,
    "a script without comments fails too": lambda: run("--only", UNCOMMENTED, "true")[1].startswith(UNCOMMENTED),
    "a signal fails": lambda: "signal 9" in run("--only", CASE, "sh", "-c", "kill -9 $$")[1],
    "output without an end fails": lambda: "more and more" in run("--only", CASE, "sh", "-c", "yes")[1],
    "no end fails": lambda: "did not end" in run("--timeout", "0.2", "--only", CASE, "sh", "-c", "sleep 30; true")[1],
    "no script fails": lambda: run("--only", "none", "true") == (1, "no script was run\n0 passed, 0 failed\n"),
    "no program is wrong usage": lambda: run()[0] == 64,
    "a shard outside is wrong usage": lambda: run("--shard", "3/2", "true")[0] == 64,
    "shards are the whole": shards_are_the_whole,
    "JUnit's form has failures": junit_has_failures,
    "a measured command stays as it is": measuring_changes_nothing,
}


def main():
    failed = [name for name, check in CHECKS.items() if not check()]
    for name in failed:
        print(f"FAILED: {name}")
    print(f"{len(CHECKS) - len(failed)} passed, {len(failed)} failed")
    return 1 if failed else 0


if __name__ == "__main__":
    sys.exit(main())
