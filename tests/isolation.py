#!/usr/bin/env python3
"""Two clients of one server, with and without the lines of one of them: what the other client is told.

usage: tests/isolation.py PROGRAM [WORDS..]

The process 20 serves the clients 32 and 40. In the second script the client 40 sends nothing once it is connected. The law
on two scripts says that the client 32 does and is told the same in both; this prints what both runs tell it, side by
side, and fails where they differ, or where the run with all lines tells 40 anything else than it should.
"""

import shutil
import sys

sys.dont_write_bytecode = True
import running

CLIENT = "36"
CONNECTED = """\
dir \\Windows
boot 20 24
boot 32 36
24 NtCreatePort \\Windows\\ApiPort
36 NtConnectPort \\Windows\\ApiPort - - -
24 NtListenPort 4
24 NtAcceptConnectPort 7 r:32.36.1: accept -
24 NtCompleteConnectPort 8
boot 40 44
44 NtConnectPort \\Windows\\ApiPort - - -
24 NtListenPort 4
24 NtAcceptConnectPort 9 r:40.44.1: accept -
24 NtCompleteConnectPort 12
36 NtRequestWaitReplyPort 4 d:61
24 NtReplyWaitReceivePort 4
"""
# 32 datagrams stand in the server's queue then, and the last one is refused.
OTHERS = "44 NtRequestPort 4 d:62\n" * 33
ANSWERED = """\
24 NtReplyPort 8 r:32.36.2:43
36 NtRequestPort 4 d:63
"""


def transcript(program, script):
    """What the program prints for a script."""
    status, printed, _ = running.run([*program, "replay"], script.encode())
    if status:
        raise running.Wrong("the program ended with status %d" % status)
    return printed.decode(errors="backslashreplace")


def told(text, thread):
    """The entries of a thread, without the numbers of their lines."""
    entries = [line.partition(" ")[2] for line in text.splitlines()[:-1]]
    return [entry for entry in entries if entry.split(" ", 1)[0].lstrip("*") == thread]


def main(program):
    """Runs both scripts; the closing line counts two checks."""
    if not program or not shutil.which(program[0]):
        print(__doc__.strip())
        return 64
    try:
        with_lines, without = (transcript(program, CONNECTED + it + ANSWERED) for it in (OTHERS, ""))
    except running.Wrong as why:
        print("FAILED: %s" % why)
        print("0 passed, 2 failed")
        return 1
    print("what thread %s is told, with and without the other client's lines:" % CLIENT)
    for here, there in zip(told(with_lines, CLIENT), told(without, CLIENT)):
        print("  %s | %s | %s" % ("same" if here == there else "DIFFERS", here, there))
    refused = told(with_lines, "44")[-1:]
    checks = [told(with_lines, CLIENT) == told(without, CLIENT) and len(told(without, CLIENT)) == 5,
              refused == ["44 NtRequestPort c0000044"]]
    print("%d passed, %d failed" % (checks.count(True), checks.count(False)))
    return 0 if all(checks) else 1


if __name__ == "__main__":
    sys.exit(main(sys.argv[1:]))
