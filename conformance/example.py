#!/usr/bin/env python3
"""A small implementation to try the suite on. It knows boot, thread and `NtCreatePort -` alone; one rule is wrong."""
import sys

process_of = {}  # of each thread
ports = {}  # how many each process has made


def boot(process, thread):
    if process in ports or thread in process_of:
        return "c0000035"
    process_of[thread], ports[process] = process, 0
    return "00000000"


def thread(thread, process):
    if process not in ports:
        return "c000000b"
    if list(process_of.values()).count(process) == 64:  # wrong: the next test comes first
        return "c0000044"
    if thread in process_of:
        return "c0000035"
    process_of[thread] = process
    return "00000000"


def create_port(thread):
    if thread not in process_of:
        return "nothread"
    process = process_of[thread]
    if ports[process] == 256:
        return "NtCreatePort c0000044"
    ports[process] += 1
    return f"NtCreatePort 00000000 h={4 * ports[process]}"


def told(words):
    """What a line tells, without its number; None where this implementation doesn't know it."""
    if words[0] in ("boot", "thread"):
        return f"- {words[0]} {globals()[words[0]](*(int(it, 0) for it in words[1:]))}"
    return f"{words[0]} {create_port(int(words[0], 0))}" if words[1:] == ["NtCreatePort", "-"] else None


sys.stdin.reconfigure(encoding="latin-1", newline="\n")
number = entries = 0
for number, line in enumerate(sys.stdin, 1):
    if line.startswith("#") or not line.split():
        continue
    text = told(line.split())
    if text is None:
        print("stop", number, 3 if line.split()[0][0].isdigit() else 2)
        sys.exit(2)
    entries += 1
    print(number, text)
print("end", number, entries, len(process_of) + len(ports) + sum(ports.values()))
