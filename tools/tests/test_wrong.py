"""`compare` over what ten wrong programs print: the first difference is found, and the rule that is broken is named.

Each program is ntlpc with one change of its code, which the table tells. tests/wrong/NAME.transcript is what it prints
for a script of the suite. The line and the rule were worked out from the change and the script.
"""
import dataclasses
import unittest

import support
from ntlpc_tool import differences, reasons, transcript

WRONG = support.TOOLS / "tests" / "wrong"
SUITE = support.ROOT / "conformance"


@dataclasses.dataclass(frozen=True)
class Program:
    """A wrong program: its change, a script of the suite, the script's first line that is told otherwise, and the rule,
    as a key of the rules or as what its sentence says."""

    change: str
    case: str
    line: int
    rule: tuple


PROGRAMS = {
    "the-way-is-tested-before-the-message": Program(
        "a send looks for the queue that the message will enter before it reads the message",
        "NtRequestWaitReplyPort/no-way-comes-behind-the-message",
        18,
        ("NtRequestWaitReplyPort tests c000000d", "before c0000037"),
    ),
    "a-reply-draws-an-identifier": Program(
        "NtReplyPort draws an identifier of the thread that replies",
        "NtReplyPort/a-reply-wakes-the-asker",
        12,
        ("*", "id"),
    ),
    "the-newest-waiter-wakes": Program(
        "of the waits that take a message the last in the order of waiting is found",
        "NtListenPort/several-listens-are-woken-in-their-order",
        14,
        ("NtConnectPort", "wakes NtListenPort"),
    ),
    "the-newest-message-is-taken": Program(
        "of the messages in a queue the last is found",
        "thread/a-further-thread-of-a-process",
        11,
        ("*", "which message"),
    ),
    "a-free-value-is-not-given-again": Program(
        "a new handle is 4 above the greatest one that stands",
        "NtClose/the-least-free-value-is-given-again",
        12,
        ("*", "h"),
    ),
    "a-servers-message-has-the-context": Program(
        "what is sent on a server port gets the context of its connection too",
        "NtConnectPort/one-thread-has-two-connections-to-one-port",
        20,
        ("*", "ctx"),
    ),
    "a-clients-end-is-not-told": Program(
        "the last step of a closing, which posts the message of type 5, is left out",
        "closing/port-closed-stands-behind-what-was-sent",
        22,
        ("*", "port closed"),
    ),
    "a-queued-request-ends-with-c0000037": Program(
        "a request in the queue of the port that closes, or sent on its other end, ends with c0000037",
        "closing/a-client-ports-queue-is-emptied-first",
        18,
        ("NtClose", "wakes NtRequestWaitReplyPort"),
    ),
    "a-reply-keeps-type-1": Program(
        "a reply is shown with type 1",
        "NtReplyPort/a-reply-wakes-the-asker",
        10,
        ("NtRequestWaitReplyPort", "which type"),
    ),
    "connects-end-before-queued-requests": Program(
        "a closing ends the connects that aren't accepted before the requests in the queue",
        "closing/a-connection-ports-waits-then-requests-then-queue-then-connects",
        18,
        ("NtClose", "order"),
    ),
}


class WrongPrograms(unittest.TestCase):
    def test_there_are_ten(self):
        self.assertEqual(sorted(it.stem for it in WRONG.glob("*.transcript")), sorted(PROGRAMS))
        self.assertEqual(len(PROGRAMS), 10)

    def test_the_rule_that_each_breaks_is_named(self):
        for name, wrong in PROGRAMS.items():
            with self.subTest(name):
                paths = SUITE / f"{wrong.case}.transcript", WRONG / f"{name}.transcript"
                first = differences.between(*(transcript.read(it.read_bytes()) for it in paths))[0]
                self.assertEqual(first.line, wrong.line)
                if wrong.rule in reasons.RULES:
                    self.assertEqual(first.rule, reasons.RULES[wrong.rule])
                else:
                    for part in wrong.rule:
                        self.assertIn(part, first.rule[0])

    def test_each_is_told_with_its_script(self):
        for name, wrong in PROGRAMS.items():
            with self.subTest(name):
                paths = SUITE / f"{wrong.case}.transcript", WRONG / f"{name}.transcript"
                script = SUITE / f"{wrong.case}.script"
                ran = support.inside("compare", *paths, "--script", script)
                self.assertEqual((ran.returncode, ran.stderr), (1, ""))
                self.assertIn(f"line {wrong.line} of the script", ran.stdout.splitlines()[0])
                text = script.read_text().splitlines()[wrong.line - 1]
                self.assertEqual(ran.stdout.splitlines()[1], f"    script:  {text}")


if __name__ == "__main__":
    unittest.main()
