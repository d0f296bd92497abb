#!/usr/bin/env python3
"""Runs the unit tests of the companion tools, those below tools/tests.

    tests/companions.py [PROGRAM]

PROGRAM is the program that the tools run; without it that which NTLPC names, or crates/ntlpc/out/ntlpc. Each test that
fails is told, and the last line is `N passed, M failed`. A test for which a command of another package is missing is left
out, and told. The exit status is 0 where all others passed and there is a program, 1 where not, and 64 where PROGRAM
can't be run.
"""
import os
import pathlib
import shutil
import sys
import unittest

sys.dont_write_bytecode = True
TOOLS = pathlib.Path(__file__).resolve().parent.parent / "tools"
sys.path.insert(0, str(TOOLS))
from ntlpc_tool import program

# How many tests there are, those that are left out too: who adds one changes the number.
TESTS = 433
# How the reason ends for which a test is left out where a command of another package is missing.
NOT_INSTALLED = "isn't installed"


class Result(unittest.TextTestResult):
    """Counts the tests that passed."""

    def __init__(self, *given, **named):
        super().__init__(*given, **named)
        self.passed = 0

    def addSuccess(self, test):
        super().addSuccess(test)
        self.passed += 1

    def failed(self):
        """How many tests failed, each counted once however many of its parts did."""
        wrong = [test for test, _ in (*self.failures, *self.errors)] + self.unexpectedSuccesses
        return len({getattr(test, "test_case", test).id() for test in wrong})


def main(words):
    if len(words) > 1 or words and not shutil.which(words[0]):
        print("usage: tests/companions.py [PROGRAM]", file=sys.stderr)
        return 64
    if words:
        os.environ[program.VARIABLE] = os.path.abspath(shutil.which(words[0]))
    tests = unittest.defaultTestLoader.discover(str(TOOLS / "tests"))
    result = unittest.TextTestRunner(stream=sys.stdout, verbosity=0, resultclass=Result).run(tests)
    failed = result.failed() + sum(not why.endswith(NOT_INSTALLED) for _, why in result.skipped)
    if result.testsRun < TESTS:
        failed += 1
        print(f"FAILED: {result.testsRun} tests were run, at least {TESTS} are wanted")
    for why in sorted({why for _, why in result.skipped}):
        print(f"left out: {why}")
    print(f"{result.passed} passed, {failed} failed")
    return 1 if failed or not result.passed else 0


if __name__ == "__main__":
    sys.exit(main(sys.argv[1:]))
