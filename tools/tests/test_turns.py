"""What the server on a thread did in the line of a turn. What is to be told was worked by hand from the page's table."""
import unittest

import support  # noqa: F401
from ntlpc_tool import transcript, turns

FRONT = b"1 - boot 00000000\n"
WAKE = (
    b"1 *36 NtRequestWaitReplyPort 00000000 msg=0000180002000000200000002400000002000000" + b"00000000\n"
)


def told(line, printed):
    """What is told of a line with these words, to which these entries belong."""
    found = transcript.read(printed + b"end 1 %d 0\n" % printed.count(b"\n"))
    return turns.deed(line.split(), list(found.entries))


class Turns(unittest.TestCase):
    def test_each_call_of_the_table(self):
        cases = {
            b"1 24 NtReplyWaitReceivePort wait\n": "the server receives",
            b"1 24 NtReplyWaitReceivePort wait\n" + WAKE: "the server replies to thread 36 and receives",
            b"1 24 NtAcceptConnectPort 00000000 h=8\n": "the server accepts a connect",
            b"1 24 NtAcceptConnectPort 00000000\n": "the server refuses a connect",
            b"1 24 NtAcceptConnectPort c000000b\n": "the server accepts a connect, which is refused",
            b"1 24 NtCompleteConnectPort 00000000\n": "the server completes a connection",
            b"1 24 NtClose 00000000\n": "the server lets a connection go",
        }
        for printed, wanted in cases.items():
            self.assertEqual(told("turn 24", printed), wanted)

    def test_a_turn_without_a_call(self):
        self.assertIsNone(told("turn 24", b"1 - turn c000000b\n"))
        self.assertIsNone(told("turn 24", b"1 24 busy\n"))

    def test_another_line(self):
        self.assertIsNone(told("24 NtClose 8", b"1 24 NtClose 00000000\n"))


if __name__ == "__main__":
    unittest.main()
