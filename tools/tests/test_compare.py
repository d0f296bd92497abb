"""`compare`: each kind of difference is found, told and explained by the right rule, and names may differ alike."""
import os
import sys
import unittest

import support
from ntlpc_tool import differences, pages, reasons, renaming, rules, script_lines, transcript

HEADER = "{size}00{whole}00{type}000000{process}000000{thread}000000{identifier}00000000000000"


def message(type_, process, thread, identifier, data=""):
    """The digits of a message, as docs/SCRIPTS.md lays it out: no range table and no section."""
    size = len(data) // 2
    numbers = {
        "size": size,
        "whole": 24 + size,
        "type": type_,
        "process": process,
        "thread": thread,
        "identifier": identifier,
    }
    return HEADER.format(**{name: f"{value:02x}" for name, value in numbers.items()}) + data


REQUEST, REPLY = message(1, 20, 24, 1, "4142"), message(2, 20, 24, 1, "43")
# examples/first-request.script and its transcript.
SCRIPT = (support.ROOT / "examples" / "first-request.script").read_bytes()
LINES = [
    "1 - boot 00000000",
    "2 - thread 00000000",
    "3 24 NtCreatePort 00000000 h=4",
    "4 24 NtRequestWaitReplyPort wait id=1",
    f"5 28 NtReplyWaitReceivePort 00000000 ctx=00000000 msg={REQUEST}",
    "6 28 NtReplyPort 00000000",
    f"6 *24 NtRequestWaitReplyPort 00000000 msg={REPLY}",
    "end 6 7 4",
]


def text(lines):
    return "".join(f"{it}\n" for it in lines).encode()


def read(*lines):
    return transcript.read(text(lines))


def between(wanted, got):
    """The differences of two lists of lines."""
    return differences.between(read(*wanted), read(*got))


def changed(at, *lines):
    """The lines of the example with others in the place of one."""
    return [*LINES[:at], *lines, *LINES[at + 1 :]]


class Kinds(unittest.TestCase):
    """One difference from the example at a time."""

    def check(self, got, line, says, rule, means, wanted=LINES):
        found = between(wanted, got)
        self.assertEqual([it.line for it in found], [line], found)
        self.assertEqual((found[0].says, found[0].rule[1], found[0].means), (says, rule, reasons.MEANS[means]))
        return found[0]

    def test_nothing(self):
        self.assertEqual(between(LINES, LINES), [])

    # A close that wakes by frame handlers, dooms a process, and closes the port of another one; and a raise that waits.
    RAISED = ["7 36 raise wait id=1", "8 24 NtClose 00000000", "8 *44 raise 00000000", "8 ~36 died 00000005"]
    RAISED += ["8 *50 raise 00000000", "end 8 5 3"]

    def raised(self, *places):
        """The lines with others in place of some, each a pair of its place and a line, or of a place and None."""
        got = list(self.RAISED)
        for at, line in places:
            got[at] = line
        return [it for it in got if it]

    def test_a_death_before_the_wakes_that_precede_it(self):
        got = self.raised((2, self.RAISED[3]), (3, self.RAISED[2]))
        says = "the wake of thread 44 has to come before the death of thread 36"
        self.check(got, 8, says, reasons.SETTLING, "settles", wanted=self.RAISED)
        got = self.raised((3, self.RAISED[4]), (4, self.RAISED[3]))
        says = "the death of thread 36 has to come before the wake of thread 50"
        self.check(got, 8, says, reasons.SETTLING, "settles", wanted=self.RAISED)

    def test_an_exception_that_is_not_settled(self):
        got = self.raised((3, None), (5, "end 8 4 3"))
        found = between(self.RAISED, got)
        self.assertEqual(found[0].says, "thread 36 has to die")
        self.assertIn("An exception that nothing handles ends all live threads of its process", found[0].rule[0])

    def test_a_raise_that_returns_in_place_of_waiting(self):
        got = self.raised((0, "7 36 raise 00000000"))
        says = "`wait` is wanted, got 00000000 (SUCCESS)"
        self.check(got, 7, says, reasons.CHANCES, "returns", wanted=self.RAISED)

    def test_a_raise_that_is_continued_by_another_reply(self):
        reply = "7 24 NtReplyPort 00000000"
        wanted, got = [reply, "7 *36 raise 00000000"], [reply, "7 *36 raise 00010002"]
        says = "status 00000000 (SUCCESS) is wanted, got 00010002 (DBG_CONTINUE)"
        found = self.check(got, 7, says, reasons.ANSWERS, "ending", wanted=wanted)
        self.assertIn("02000100", found.rule[0])

    def test_an_event_with_another_chance(self):
        shown = "080020000800000020000000240000000200000000000000050000c00%d000000"
        line = "7 24 NtReplyWaitReceivePort 00000000 ctx=00000000 msg=" + shown
        says = "the message: data 050000c002000000 is wanted, got 050000c001000000"
        self.check([line % 1], 7, says, reasons.EVENTS, "which event", wanted=[line % 2])

    def test_an_entry_that_is_missing(self):
        found = self.check(changed(2), 3, "the entry is missing", reasons.TRANSCRIPT, "missing")
        self.assertIsNone(found.got)

    def test_an_entry_too_many(self):
        self.check(LINES, 3, "the entry is one too many", reasons.TRANSCRIPT, "extra", wanted=changed(2))

    def test_a_line_that_is_answered_twice(self):
        got = changed(2, LINES[2], "3 24 NtCreatePort 00000000 h=8")
        self.check(got, 3, "a further entry of the line's own thread", reasons.TRANSCRIPT, "further")

    def test_a_thread_that_wakes_twice(self):
        got = changed(6, LINES[6], LINES[6])
        self.check(got, 6, "a further entry of thread 24", reasons.TRANSCRIPT, "further")

    def test_another_thread(self):
        got = changed(2, "3 28 NtCreatePort 00000000 h=4")
        self.check(got, 3, "thread 24 is wanted, got thread 28", reasons.TRANSCRIPT, "thread")

    def test_another_call(self):
        got = changed(2, "3 24 NtListenPort 00000000 h=4")
        self.check(got, 3, "the call NtCreatePort is wanted, got NtListenPort", reasons.TRANSCRIPT, "call")

    def test_busy(self):
        got = changed(5, "6 28 busy")
        self.check(got, 6, "00000000 (SUCCESS) is wanted, got `busy`", reasons.SHARED, "busy")
        self.check(LINES, 6, "`busy` is wanted, got 00000000 (SUCCESS)", reasons.SHARED, "not busy", wanted=got)

    def test_no_thread(self):
        got = changed(5, "6 28 nothread")
        self.check(got, 6, "00000000 (SUCCESS) is wanted, got `nothread`", reasons.SHARED, "nothread")

    def test_a_refusal_where_none_is_wanted(self):
        got = changed(2, "3 24 NtCreatePort c0000044")
        says = "status 00000000 (SUCCESS) is wanted, got c0000044 (QUOTA_EXCEEDED)"
        found = self.check(got, 3, says, "SERVICES.md, NtCreatePort", "refused")
        self.assertIn("only where the process has 256 handles", found.rule[0])

    def test_a_refusal_that_no_call_has(self):
        found = self.check(
            changed(2, "3 24 NtCreatePort c0000001"),
            3,
            "status 00000000 (SUCCESS) is wanted, got c0000001 (UNSUCCESSFUL)",
            "SERVICES.md, NtCreatePort",
            "refused",
        )
        self.assertEqual(found.rule[0], "NtCreatePort is refused with c0000001 never.")

    def test_a_refusal_that_is_missing(self):
        wanted, got = changed(5, "6 28 NtReplyPort c000021f"), changed(5, "6 28 NtReplyPort 00000000")
        says = "status c000021f (REPLY_MESSAGE_MISMATCH) is wanted, got 00000000 (SUCCESS)"
        found = self.check(got, 6, says, "SERVICES.md, NtReplyPort", "let through", wanted=wanted)
        self.assertIn("the message fits no request and no event through this port", found.rule[0])

    def test_refusals_in_another_order(self):
        # The page has for a reply: handle, message, client, then what fits.
        wanted, got = (changed(5, f"6 28 NtReplyPort {it}") for it in ("c000000b", "c000021f"))
        says = "status c000000b (INVALID_CID) is wanted, got c000021f (REPLY_MESSAGE_MISMATCH)"
        found = self.check(got, 6, says, "SERVICES.md, NtReplyPort", "refused, otherwise", wanted=wanted)
        self.assertRegex(found.rule[0], r"\ANtReplyPort tests c000000b \(.+\) before c000021f \(.+\)\.\Z")
        says = "status c000021f (REPLY_MESSAGE_MISMATCH) is wanted, got c000000b (INVALID_CID)"
        found = self.check(wanted, 6, says, "SERVICES.md, NtReplyPort", "refused, otherwise", wanted=got)
        self.assertRegex(found.rule[0], r"refused with c000000b only where .+ The first refusal that holds is c000021f")

    def test_a_wait_in_place_of_an_answer(self):
        got = changed(4, "5 28 NtReplyWaitReceivePort wait")
        says = "status 00000000 (SUCCESS) is wanted, got `wait`"
        found = self.check(got, 5, says, "SERVICES.md, NtReplyWaitReceivePort", "waits")
        self.assertIn("waits only where the queue is empty", found.rule[0])

    def test_an_answer_in_place_of_a_wait(self):
        got = changed(3, f"4 24 NtRequestWaitReplyPort 00000000 msg={REPLY}")
        says = "`wait` is wanted, got 00000000 (SUCCESS)"
        self.check(got, 4, says, "SERVICES.md, NtRequestWaitReplyPort", "returns")

    def test_another_handle(self):
        self.check(changed(2, "3 24 NtCreatePort 00000000 h=8"), 3, "h=4 is wanted, got h=8", reasons.SHARED, "h=")

    def test_another_identifier(self):
        got = changed(3, "4 24 NtRequestWaitReplyPort wait id=2")
        self.check(got, 4, "id=1 is wanted, got id=2", reasons.SHARED, "id=")

    def test_another_context(self):
        got = changed(4, LINES[4].replace("ctx=00000000", "ctx=00000007"))
        self.check(got, 5, "ctx=00000000 is wanted, got ctx=00000007", reasons.KINDS, "ctx=")

    def test_fields_that_are_missing_or_swapped(self):
        got = changed(4, f"5 28 NtReplyWaitReceivePort 00000000 msg={REQUEST}")
        self.check(got, 5, "the field `ctx` is missing", "SERVICES.md", "fields")
        got = changed(4, f"5 28 NtReplyWaitReceivePort 00000000 msg={REQUEST} ctx=00000000")
        says = "the fields stand in another order: ctx msg is wanted, got msg ctx"
        self.check(got, 5, says, "SERVICES.md", "fields")

    def test_a_reply_that_keeps_its_type(self):
        got = changed(6, LINES[6].replace(REPLY, message(1, 20, 24, 1, "43")))
        says = "the message: type 2 (reply) is wanted, got 1 (request)"
        found = self.check(got, 6, says, reasons.WRITTEN, "header")
        self.assertIn("A reply is shown with type 2", found.rule[0])

    def test_a_header_with_another_size(self):
        got = changed(6, LINES[6].replace("01001900", "01001800"))
        self.check(got, 6, "the message: MessageSize 25 is wanted, got 24", reasons.WRITTEN, "header")

    def test_a_wake_that_is_missing(self):
        found = self.check(changed(6), 6, "thread 24 has to wake", reasons.FITS, "asleep")
        self.assertIn("wakes the thread that asked", found.rule[0])

    def test_a_wake_too_many(self):
        self.check(LINES, 6, "thread 24 must not wake", reasons.FITS, "awake", wanted=changed(6))

    def test_a_wake_before_the_answer(self):
        got = [*LINES[:5], LINES[6], LINES[5], LINES[7]]
        says = "the entry of the line's own thread stands behind a wake"
        self.check(got, 6, says, reasons.TRANSCRIPT, "first")

    def test_the_last_line(self):
        got = changed(7, "end 6 7 5")
        found = self.check(got, 7, "OBJECTS 4 is wanted, got 5", reasons.SHARED, "OBJECTS")
        self.assertIn("A port that nothing names any longer goes", found.rule[0])
        self.check(changed(7, "end 7 7 4"), 7, "LINES 6 is wanted, got 7", reasons.TRANSCRIPT, "LINES")

    def test_a_script_that_stops(self):
        got = [*LINES[:3], "stop 4 5"]
        further = "from there on 3 lines of the script have entries in the {} transcript alone"
        says = f"the script has to run to its end, got `stop 4 5`; {further.format('wanted')}"
        found = self.check(got, 4, says, reasons.FAULTS, "stops")
        told = "A fault of kind 5 is a number out of form or range; "
        self.assertEqual(found.rule[0], told + "no line of the script has one.")
        says = f"the script has to stop at line 4 with fault 5, got `end 6 7 4`; {further.format('got')}"
        found = self.check(LINES, 4, says, reasons.FAULTS, "runs on", wanted=got)
        self.assertEqual(found.rule[0], told + "so the script stops there.")

    def test_one_line_that_stands_on_one_side_alone(self):
        says = "the last line is missing; from there on 1 line of the script has entries in the wanted transcript alone"
        self.check(LINES[:5], 6, says, reasons.TRANSCRIPT, "broken off")

    def test_another_fault(self):
        wanted, got = [*LINES[:3], "stop 4 5"], [*LINES[:3], "stop 4 4"]
        self.check(got, 4, "KIND 5 is wanted, got 4", reasons.FAULTS, "KIND", wanted=wanted)

    def test_a_program_that_ended_early(self):
        says = (
            "the last line is missing; from there on 2 lines of the script have entries in the wanted transcript alone"
        )
        self.check(LINES[:4], 5, says, reasons.TRANSCRIPT, "broken off")


class Queues(unittest.TestCase):
    """Which message is taken, and who wakes in which order."""

    OLD, NEW = message(3, 20, 24, 1, "61"), message(3, 20, 24, 2, "62")

    def test_the_newest_message(self):
        front = ["1 24 NtRequestPort 00000000 id=1", "2 24 NtRequestPort 00000000 id=2"]
        wanted = [
            f"{at} 28 NtReplyWaitReceivePort 00000000 ctx=00000000 msg={it}"
            for at, it in ((3, self.OLD), (4, self.NEW))
        ]
        got = [
            f"{at} 28 NtReplyWaitReceivePort 00000000 ctx=00000007 msg={it}"
            for at, it in ((3, self.NEW), (4, self.OLD))
        ]
        found = between([*front, *wanted], [*front, *got])
        self.assertEqual([it.line for it in found], [3, 4])
        self.assertEqual(found[0].rule, reasons.RULES["*", "which message"])

    def test_messages_that_differ_by_their_identifier_alone(self):
        front = ["1 24 NtRequestPort 00000000 id=1", "2 24 NtRequestPort 00000000 id=2"]
        bare = [message(3, 20, 24, it) for it in (1, 2)]
        sides = [
            [f"{3 + at} 28 NtListenPort 00000000 msg={it}" for at, it in enumerate(one)] for one in (bare, bare[::-1])
        ]
        found = between([*front, *sides[0]], [*front, *sides[1]])
        self.assertEqual(found[0].rule, reasons.RULES["NtListenPort", "which message"])

    def test_another_thread_wakes(self):
        sides = [
            ["4 24 NtRequestPort 00000000 id=1", f"4 *{it} NtReplyWaitReceivePort 00000000 ctx=00000000 msg={self.OLD}"]
            for it in (28, 32)
        ]
        (found,) = between(*sides)
        self.assertEqual(found.says, "thread 28 has to wake, got thread 32 in its place")
        self.assertIn("the thread that has waited longest", found.rule[0])

    def test_a_close_ends_in_another_order(self):
        wakes = [
            "9 *28 NtRequestWaitReplyPort c0000037",
            "9 *32 NtRequestWaitReplyPort c0000253",
            "9 *36 NtConnectPort c0000041 info=",
        ]
        (found,) = between(["9 24 NtClose 00000000", *wakes], ["9 24 NtClose 00000000", wakes[0], wakes[2], wakes[1]])
        self.assertEqual(found.says, "the wakes come in another order: threads 28, 32, 36 are wanted, got 28, 36, 32")
        self.assertEqual(found.rule, reasons.RULES["NtClose", "order"])

    def test_a_close_ends_with_another_status(self):
        sides = [["9 24 NtClose 00000000", f"9 *32 NtRequestWaitReplyPort {it}"] for it in ("c0000253", "c0000037")]
        (found,) = between(*sides)
        self.assertEqual(found.says, "status c0000253 (LPC_REPLY_LOST) is wanted, got c0000037 (PORT_DISCONNECTED)")
        self.assertEqual(found.rule, reasons.RULES["NtClose", "wakes NtRequestWaitReplyPort"])

    def test_a_clients_end_that_is_not_told(self):
        end = message(5, 32, 36, 1, "2400000001000000")
        wanted = f"9 24 NtReplyWaitReceivePort 00000000 ctx=00000007 msg={end}"
        (found,) = between([wanted], ["9 24 NtReplyWaitReceivePort wait"])
        self.assertEqual(found.rule, reasons.RULES["*", "port closed"])
        (found,) = between([wanted], [wanted[:-16] + "2400000002000000"])
        self.assertEqual(found.rule, reasons.RULES["*", "which closing"])


class Deaths(unittest.TestCase):
    """Two threads of a process die; what is told of it, and in which order."""

    DIED = f"{message(6, 32, 40, 0, '0000000028000000')}"
    CLOSED = f"{message(5, 32, 36, 1, '2400000001000000')}"
    LINES = [
        "1 28 NtReplyWaitReceivePort wait",
        "2 ~36 died 00000001",
        "2 ~40 died 00000001",
        f"2 *28 NtReplyWaitReceivePort 00000000 ctx=00000007 msg={DIED}",
        f"3 24 NtReplyWaitReceivePort 00000000 ctx=00000007 msg={CLOSED}",
        "end 3 5 3",
    ]

    def check(self, got, *wanted):
        found = [(it.line, it.says, it.rule[1], it.means) for it in between(self.LINES, got)]
        self.assertEqual(found, [(line, says, rule, reasons.MEANS[means]) for line, says, rule, means in wanted])

    def changed(self, at, *lines):
        return [*self.LINES[:at], *lines, *self.LINES[at + 1 :]]

    def test_a_thread_that_lives_on(self):
        got = self.changed(2)
        self.check(got, (2, "thread 40 has to die", reasons.ENDING, "lives"))

    def test_a_thread_too_many(self):
        got = self.changed(2, self.LINES[2], "2 ~44 died 00000001")
        self.check(got, (2, "thread 44 must not die", reasons.ENDING, "dies"))

    def test_another_code(self):
        got = self.changed(1, "2 ~36 died 00000000")
        self.check(got, (2, "the code 00000001 is wanted, got 00000000", reasons.ENDING, "code"))

    def test_another_order(self):
        got = [self.LINES[it] for it in (0, 2, 1, 3, 4, 5)]
        says = "the threads die in another order: 36, 40 are wanted, got 40, 36"
        self.check(got, (2, says, reasons.ENDING, "order of deaths"))

    def test_an_end_that_is_told_before_all_have_died(self):
        got = [self.LINES[it] for it in (0, 1, 3, 2, 4, 5)]
        self.check(got, (2, "a thread dies behind a wake", reasons.ENDING, "deaths"))

    def test_an_answer_of_who_ends_itself(self):
        got = self.changed(2, "2 40 NtTerminateProcess 00000000")
        says = "the entry is one too many: a thread that ends itself has no answer"
        missing = (2, "thread 40 has to die", reasons.ENDING, "lives")
        self.check(got, (2, says, reasons.ENDING, "answers"), missing)

    def test_an_end_that_is_not_told(self):
        closed = self.LINES[4].split("msg=")[1]
        got = self.changed(3, f"2 *28 NtReplyWaitReceivePort 00000000 ctx=00000007 msg={closed}")
        found = between(self.LINES, got)
        self.assertEqual(found[0].line, 2)
        got = self.changed(3)
        self.check(got, (2, "thread 28 has to wake", reasons.DIED, "asleep"))

    def test_another_thread_in_the_data(self):
        other = message(6, 32, 40, 0, "0000000024000000")
        got = self.changed(3, f"2 *28 NtReplyWaitReceivePort 00000000 ctx=00000007 msg={other}")
        says = "the message: data 0000000028000000 is wanted, got 0000000024000000"
        self.check(got, (2, says, reasons.DIED, "which death"))

    def test_a_refusal_in_place_of_an_end(self):
        wanted, got = ["1 ~24 died 00000001"], ["1 24 NtTerminateThread c0000008"]
        found = between(wanted, got)
        self.assertEqual([it.means for it in found], [reasons.MEANS["answers"], reasons.MEANS["lives"]])


class Alignment(unittest.TestCase):
    def test_one_missing_entry_makes_no_other_line_differ(self):
        wanted = [f"{at} 24 NtRequestPort 00000000 id={at}" for at in range(1, 9)]
        found = between(wanted, [*wanted[:2], *wanted[3:]])
        self.assertEqual([(it.line, it.says) for it in found], [(3, "the entry is missing")])


class EndsOfOthers(unittest.TestCase):
    """A thread ends another process by a handle: its answer, who dies, and who wakes."""

    CLOSED = message(5, 32, 36, 1, "2400000001000000")
    LINES = [
        "1 28 NtReplyWaitReceivePort wait",
        "2 24 NtTerminateProcess 00000000",
        "2 ~36 died 00000001",
        f"2 *28 NtReplyWaitReceivePort 00000000 ctx=00000007 msg={CLOSED}",
        "end 2 4 5",
    ]

    def check(self, got, *wanted):
        found = [(it.says, it.rule, it.means) for it in between(self.LINES, got)]
        self.assertEqual(found, [(says, reasons.RULES[key], reasons.MEANS[means]) for says, key, means in wanted])

    def test_an_answer_behind_a_death(self):
        got = [self.LINES[it] for it in (0, 2, 1, 3, 4)]
        says = "the entry of the line's own thread stands behind a death"
        self.check(got, (says, ("*", "first"), "first"))

    def test_no_answer(self):
        got = [self.LINES[it] for it in (0, 2, 3, 4)]
        self.check(got, ("the entry is missing", ("*", "own"), "missing"))

    def test_an_end_that_is_not_told(self):
        got = [self.LINES[it] for it in (0, 1, 2, 4)]
        self.check(got, ("thread 28 has to wake", ("*", "port closed"), "asleep"))

    def test_a_thread_that_lives_on(self):
        got = [self.LINES[it] for it in (0, 1, 3, 4)]
        self.check(got, ("thread 36 has to die", ("died", "who"), "lives"))

    def test_another_maker_in_the_data(self):
        died = message(6, 32, 36, 0, "1800000002000000")
        wanted = f"3 24 NtReplyWaitReceivePort 00000000 ctx=00000007 msg={died}"
        (found,) = between([wanted], [wanted[:-16] + "0000000024000000"])
        self.assertEqual(found.rule, reasons.RULES["*", "which death"])

    def test_another_handle_to_the_thread(self):
        wanted = "2 24 NtCreateProcess 00000000 h=4 thread=8"
        (found,) = between([wanted], [wanted.replace("thread=8", "thread=12")])
        self.assertEqual(found.rule, reasons.RULES["NtCreateProcess", "thread"])
        self.assertEqual(found.means, reasons.MEANS["thread="])


class Names(unittest.TestCase):
    """--up-to-names."""

    def between(self, wanted, got, script=None):
        sides = read(*wanted), read(*got)
        names = renaming.Renaming(sides, script_lines.Script(script) if script else None)
        return differences.between(*sides, names), names.told()

    def test_names_that_differ_alike(self):
        got = [it.replace("h=4", "h=28").replace("id=1", "id=17") for it in LINES]
        got = [
            it.replace(REQUEST, message(1, 20, 24, 17, "4142")).replace(REPLY, message(2, 20, 24, 17, "43"))
            for it in got
        ]
        self.assertEqual(
            self.between(LINES, got), ([], ["handles of process 20: 4 is 28", "identifiers of thread 24: 1 is 17"])
        )

    def test_an_identifier_that_does_not_fit(self):
        got = changed(3, "4 24 NtRequestWaitReplyPort wait id=17")
        found, _ = self.between(LINES, got)
        self.assertEqual(found[0].says, "the MessageId of a message of thread 24: 1 stands for 17, got 1")
        self.assertEqual((found[0].line, found[0].rule), (5, reasons.RULES["*", "renamed"]))

    def test_two_handles_with_one_name(self):
        wanted = ["1 24 NtCreatePort 00000000 h=4", "2 24 NtCreatePort 00000000 h=8"]
        got = [it.replace("h=8", "h=4") for it in wanted]
        found, _ = self.between(wanted, got)
        self.assertEqual(found[0].says, "a handle of the process of thread 24: 8 is wanted, got 4, which stands for 4")

    CLOSES = b"boot 20 24\n24 NtCreatePort -\n24 NtClose 4\n24 NtCreatePort -\n"
    REUSED = [
        "1 - boot 00000000",
        "2 24 NtCreatePort 00000000 h=4",
        "3 24 NtClose 00000000",
        "4 24 NtCreatePort 00000000 h=4",
    ]

    def test_a_closed_handle_is_free_with_the_script(self):
        got = [*self.REUSED[:3], "4 24 NtCreatePort 00000000 h=8"]
        self.assertEqual(self.between(self.REUSED, got, self.CLOSES), ([], ["handles of process 20: 4 is 8"]))
        found, _ = self.between(self.REUSED, got)
        self.assertEqual([it.line for it in found], [4])

    def test_handles_of_two_processes_have_names_of_their_own(self):
        script = b"boot 20 24\nboot 32 36\n24 NtCreatePort -\n36 NtCreatePort -\n"
        wanted = [
            "1 - boot 00000000",
            "2 - boot 00000000",
            "3 24 NtCreatePort 00000000 h=4",
            "4 36 NtCreatePort 00000000 h=4",
        ]
        got = [*wanted[:2], "3 24 NtCreatePort 00000000 h=8", "4 36 NtCreatePort 00000000 h=12"]
        told = ["handles of process 20: 4 is 8", "handles of process 32: 4 is 12"]
        self.assertEqual(self.between(wanted, got, script), ([], told))

    def test_both_handles_to_what_is_made(self):
        script = b"boot 20 24\n24 NtCreateProcess 32 36\n24 NtClose 8\n24 NtCreateThread 4 40\n40 NtCreatePort -\n"
        wanted = [
            "1 - boot 00000000",
            "2 24 NtCreateProcess 00000000 h=4 thread=8",
            "3 24 NtClose 00000000",
            "4 24 NtCreateThread 00000000 h=8",
            "5 40 NtCreatePort 00000000 h=4",
        ]
        got = [wanted[0], "2 24 NtCreateProcess 00000000 h=20 thread=24", wanted[2]]
        got += ["4 24 NtCreateThread 00000000 h=28", "5 40 NtCreatePort 00000000 h=16"]
        told = ["handles of process 20: 4 is 20, 8 is 24, 8 is 28", "handles of process 32: 4 is 16"]
        self.assertEqual(self.between(wanted, got, script), ([], told))
        got[1] = "2 24 NtCreateProcess 00000000 h=20 thread=20"
        found, _ = self.between(wanted, got, script)
        self.assertEqual(found[0].says, "a handle of process 20: 8 is wanted, got 20, which stands for 4")


class Command(support.WithFolder):
    def test_the_first_difference_is_explained(self):
        paths = [
            self.file(name, data)
            for name, data in (("w", text(LINES)), ("g", text(changed(3, LINES[3].replace("=1", "=2")))))
        ]
        ran = support.run("compare", *paths, "--script", self.file("s", SCRIPT))
        self.assertEqual((ran.returncode, ran.stderr), (1, ""))
        wanted = f"""\
the first difference: line 4 of the script, thread 24, NtRequestWaitReplyPort
    script:  24 NtRequestWaitReplyPort 4 d:4142
    wanted:  4 24 NtRequestWaitReplyPort wait id=1
    got:     4 24 NtRequestWaitReplyPort wait id=2
    differs: id=1 is wanted, got id=2
    means:   {reasons.MEANS["id="]}
    rule:    Each thread draws identifiers of its own, 1, 2 and so on: one for each datagram,
             request and connect that isn't refused, one for each event of its exceptions, and none
             for anything else.
             (SERVICES.md, Rules that all calls share)
1 difference
"""
        self.assertEqual(ran.stdout, wanted)

    def test_further_differences_have_a_line_each(self):
        got = [it.replace("id=1", "id=2").replace("h=4", "h=8") for it in LINES]
        ran = support.run("compare", self.file("w", text(LINES)), "-", source=text(got))
        self.assertEqual(
            ran.stdout.splitlines()[-3:-1],
            [
                "further differences",
                "    line 4 of the script, thread 24, NtRequestWaitReplyPort: id=1 is wanted, got id=2",
            ],
        )
        self.assertEqual(ran.stdout.splitlines()[-1], "2 differences")

    def test_the_same_is_the_same(self):
        path = self.file("w", text(LINES))
        ran = support.run("compare", path, path)
        self.assertEqual((ran.returncode, ran.stdout), (0, "no difference in 7 entries\n"))

    def test_what_cannot_be_compared(self):
        path = self.file("w", text(LINES))
        cases = {
            (): "give WANTED and GOT, or --script and --program",
            (path,): "give WANTED and GOT, or --script and --program",
            (path, path, "--program", "true"): "--program wants --script",
            (path, path, "--program", "true", "--script", path): "GOT and --program can't both be given",
            ("-", "-"): "the standard input can be read once",
            (path, "/nonexistent/file"): "/nonexistent/file can't be read",
            (path, "--script", path, "--program", "/nonexistent/file"): "/nonexistent/file can't be started",
            (path, "--script", path, "--program", "echo"): "what echo printed is no transcript: line 1",
        }
        for words, reason in cases.items():
            ran = support.run("compare", *words)
            self.assertEqual((ran.returncode, ran.stdout), (2, ""), words)
            self.assertIn(reason, ran.stderr)

    def test_another_program(self):
        wrong = self.file("wrong.py", f"import sys\nsys.stdout.write({text(LINES).decode()!r})\nsys.exit(3)\n".encode())
        words = ("compare", self.file("w", text(LINES)), "--script", self.file("s", SCRIPT))
        ran = support.run(*words, "--program", f"{sys.executable} {wrong}")
        self.assertEqual(ran.returncode, 1)
        self.assertIn("ended with status 3; with this last line status 0 is wanted\n", ran.stdout)

    def test_another_oracle(self):
        oracle = self.file("oracle", b'#!/bin/sh\ntest "$*" = replay && cat "$0.transcript"; exit 2\n')
        os.chmod(oracle, 0o755)
        self.file("oracle.transcript", b"stop 1 2\n")
        words = ("compare", "--script", self.file("s", b"reboot\n"), "--oracle", oracle)
        ran = support.run(*words, "--program", f"{oracle}")
        self.assertEqual((ran.returncode, ran.stdout), (0, "no difference in 0 entries\n"))
        ran = support.run(*words, "--program", "printf '1 - reboot 00000000\\nend 1 1 0\\n'")
        self.assertEqual(ran.returncode, 1)
        self.assertIn("the script has to stop at line 1 with fault 2, got `end 1 1 0`", ran.stdout)

    @support.needs_program
    def test_the_program_tells_what_is_right(self):
        got = text(changed(2, LINES[2].replace("h=4", "h=8"))).decode()
        wrong = self.file("wrong.py", f"import sys\nsys.stdout.write({got!r})\n".encode())
        ran = support.run("compare", "--script", self.file("s", SCRIPT), "--program", f"{sys.executable} {wrong}")
        self.assertEqual(ran.returncode, 1)
        self.assertIn("    differs: h=4 is wanted, got h=8\n", ran.stdout)

    def test_each_example_is_itself(self):
        for script in support.EXAMPLES:
            path = script.with_suffix(".transcript")
            for further in ((), ("--up-to-names",)):
                ran = support.inside("compare", path, path, "--script", script, *further)
                self.assertEqual(ran.returncode, 0, (path, ran.stdout))


class Rules(unittest.TestCase):
    def test_refusals_have_the_order_of_the_page(self):
        shared, named = {}, {}
        for heading, head, rows in pages.tables(pages.text_of("SERVICES.md")):
            for row in rows:
                if head[0] == "Word":
                    shared[row[0]] = [it.lower() for it in rules.STATUS.findall(row[1])]
                elif head[:2] == ["Line", "Refusals in their order"]:
                    named[row[0].strip("`").split()[0]] = statuses_in(row[1], shared)
                elif head == ["Refusal", "Cause"]:
                    named.setdefault(heading.split()[0], []).extend(statuses_in(row[0], shared))
        self.assertEqual(named, {call: [it for it, _ in found] for call, found in reasons.REFUSALS.items()})

    def test_each_rule_has_a_heading_of_its_page(self):
        headings = {"SERVICES.md": [], "SCRIPTS.md": []}
        for page, found in headings.items():
            found += [it.lstrip("#").strip() for it in pages.text_of(page).splitlines() if it.startswith("#")]
        for key, (sentence, place) in reasons.RULES.items():
            page, _, heading = place.partition(", ")
            self.assertTrue(sentence.endswith("."), key)
            for name in heading.split(", and ") if heading else ():
                self.assertTrue(any(it == name or it.startswith(f"{name} ") for it in headings[page]), (key, name))


def statuses_in(cell, shared):
    """The statuses that a cell of refusals names, in their order."""
    found = []
    for part in cell.split(";"):
        found += shared.get(part.strip().removeprefix("then ")) or [it.lower() for it in rules.STATUS.findall(part)]
    return found


if __name__ == "__main__":
    unittest.main()
