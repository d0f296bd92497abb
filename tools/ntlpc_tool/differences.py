"""What differs between two transcripts of one script, line by line of the script.

Entries are put side by side by the script's line that made them: the entry of the line's own thread, and the wakes by
their thread. So an entry that is missing on one side makes no other line differ.
"""
import dataclasses
from typing import Optional, Tuple, Union

from ntlpc_tool import describe, facts, faults, message, reasons, statuses
from ntlpc_tool.transcript import Closing, Entry

# Parts of a message's header: the name as docs/SCRIPTS.md spells it, the field of Message, and what rules it.
HEADER = (
    ("DataSize", "data_size", "which bytes"),
    ("MessageSize", "message_size", "which bytes"),
    ("type", "type", "which type"),
    ("VirtualRangesOffset", "ranges_offset", "which bytes"),
    ("ClientId, process", "process", "which client"),
    ("ClientId, thread", "thread", "which client"),
    ("MessageId", "message_id", "which identifier"),
    ("SectionSize", "section_size", "which section"),
    ("data", "data", "which bytes"),
)
# What rules the data of the messages that the machine makes.
MADE = {
    message.PORT_CLOSED: "which closing",
    message.CLIENT_DIED: "which death",
    message.EXCEPTION: "which event",
    message.DEBUG_EVENT: "which event",
}
# The messages that tell of an end, and what rules whether there is one.
ENDS = {message.PORT_CLOSED: "port closed", message.CLIENT_DIED: "client died"}
FOREVER = 1 << 62


@dataclasses.dataclass(frozen=True)
class Difference:
    """One thing that differs: the script's line, what stands on each side (None: nothing), what differs in words, the
    rule that tells what is right, as a sentence and its page, and what the difference means."""

    line: int
    wanted: Optional[Union[Entry, Closing]]
    got: Optional[Union[Entry, Closing]]
    says: str
    rule: Optional[Tuple[str, str]]
    means: str


class Step:
    """The entries of one line of the script: `own` is that of the line's thread, `deaths` and `wakes` have the others
    by thread, and `further` has what is told of a thread a second time."""

    def __init__(self, entries):
        self.own, self.deaths, self.wakes, self.further = None, {}, {}, []
        for entry in entries:
            if entry.kind in ("died", "wake"):
                known = (self.deaths if entry.kind == "died" else self.wakes).setdefault(entry.thread, entry)
            else:
                known = self.own = self.own or entry
            if known is not entry:
                self.further.append(entry)
        self.first = entries[0] if entries else None
        self.others = [(it.kind, it.thread) for it in entries if it is not self.own]
        kinds = [it for it, _ in self.others]
        self.deaths_are_first = kinds == sorted(kinds, key=lambda it: it != "died")

    def maker(self):
        """The call or directive of the line, as far as it is told; `died` where the line ends threads."""
        return "died" if self.deaths else self.own.call if self.own else None


def steps(transcript):
    """The entries of a transcript by the line of the script."""
    found = {}
    for entry in transcript.entries:
        found.setdefault(entry.line, []).append(entry)
    return {line: Step(entries) for line, entries in found.items()}


class Context:
    """What an entry is compared with beside its other side: `names` puts wanted names for got ones, or is None;
    `wanted` and `got` have the messages that each transcript shows to who receives them."""

    def __init__(self, wanted, got, names=None):
        self.names = names
        self.wanted, self.got = ({marks_of(it) for it in facts.received(side)} for side in (wanted, got))


def marks_of(shown):
    """What tells a message from all others: its type, its sender and its identifier."""
    return shown.type, shown.process, shown.thread, shown.message_id


def between(wanted, got, names=None):
    """The differences of two transcripts in the order of the script's lines. `names` is a Renaming where names may
    differ."""
    sides, context = (steps(wanted), steps(got)), Context(wanted, got, names)
    found, ends = [], [_ends_at(it) for it in (wanted, got)]
    for line in sorted({*sides[0], *sides[1]}):
        step = [it.get(line, Step([])) for it in sides]
        if line < min(ends):
            found += _of_step(line, *step, context)
        if names and step[0].own:
            names.close(step[0].own)
    return found + _of_closing(wanted, got, sides, ends)


def _ends_at(transcript):
    """The first line of the script that a transcript tells nothing of: the faulty one, or that behind its last entry
    where it breaks off; past all lines where it has its whole end."""
    closing = transcript.closing
    if closing:
        return closing.numbers[0] if closing.word == "stop" else FOREVER
    return transcript.entries[-1].line + 1 if transcript.entries else 1


def _of_step(line, wanted, got, context):
    """The differences of one line of the script."""
    maker = wanted.maker() or got.maker()
    found = _of_own(line, wanted, got, context) + _of_deaths(line, wanted, got)
    for entry in got.further[len(wanted.further) :]:
        whose = f"of thread {entry.thread}" if entry.kind in ("died", "wake") else "of the line's own thread"
        rule, means = reasons.rule("*", "own"), reasons.MEANS["further"]
        found.append(Difference(line, None, entry, f"a further entry {whose}", rule, means))
    if wanted.own and wanted.own is wanted.first and got.own and got.own is not got.first:
        says = f"the entry of the line's own thread stands behind a {'wake' if got.first.kind == 'wake' else 'death'}"
        found.append(Difference(line, wanted.own, got.own, says, reasons.rule("*", "first"), reasons.MEANS["first"]))
    found += _of_wakes(line, wanted, got, maker, context)
    return found or _of_deaths_among_wakes(line, wanted, got)


def _of_deaths_among_wakes(line, wanted, got):
    """The difference of two steps that tell the same deaths and the same wakes, each in the same order."""
    at = next((at for at, pair in enumerate(zip(wanted.others, got.others)) if pair[0] != pair[1]), None)
    if at is None:
        return []
    kinds = {"died": "the death", "wake": "the wake"}
    (kind, thread), (other, another) = wanted.others[at], got.others[at]
    says = f"{kinds[kind]} of thread {thread} has to come before {kinds[other]} of thread {another}"
    here = (wanted.deaths if kind == "died" else wanted.wakes)[thread]
    there = (got.deaths if other == "died" else got.wakes)[another]
    return [Difference(line, here, there, says, reasons.rule("died", "settles"), reasons.MEANS["settles"])]


def _of_deaths(line, wanted, got):
    """The differences of what two steps tell of the threads that die."""
    here, there = wanted.deaths, got.deaths
    rule, found = reasons.rule("died", "who"), []
    for thread, entry in here.items():
        other = there.get(thread)
        if not other:
            means = reasons.MEANS["lives"]
            found.append(Difference(line, entry, None, f"thread {thread} has to die", rule, means))
        elif entry.status != other.status:
            says = f"the code {entry.status} is wanted, got {other.status}"
            found.append(Difference(line, entry, other, says, reasons.rule("died", "code"), reasons.MEANS["code"]))
    for thread, entry in there.items():
        if thread not in here:
            means = reasons.MEANS["dies"]
            found.append(Difference(line, None, entry, f"thread {thread} must not die", rule, means))
    both = [[it for it in one if it in other] for one, other in ((here, there), (there, here))]
    if both[0] != both[1]:
        order = [", ".join(map(str, it)) for it in both]
        says = f"the threads die in another order: {order[0]} are wanted, got {order[1]}"
        pair = here[both[0][0]], there[both[1][0]]
        found.append(Difference(line, *pair, says, reasons.rule("died", "who"), reasons.MEANS["order of deaths"]))
    if here and wanted.deaths_are_first and not got.deaths_are_first:
        first = next(iter(there.values()), None)
        means = reasons.MEANS["deaths"]
        says = "a thread dies behind a wake"
        found.append(Difference(line, next(iter(here.values())), first, says, reasons.rule("died", "first"), means))
    return found


def _of_own(line, here, there, context):
    """The differences of the two entries of a line's own thread."""
    wanted, got = here.own, there.own
    if not wanted and got and here.deaths:
        says, means = "the entry is one too many: a thread that ends itself has no answer", reasons.MEANS["answers"]
        return [Difference(line, None, got, says, reasons.rule("died", "own"), means)]
    if not wanted or not got:
        if wanted is got:
            return []
        says = "the entry is missing" if wanted else "the entry is one too many"
        return [
            Difference(
                line, wanted, got, says, reasons.rule("*", "own"), reasons.MEANS["missing" if wanted else "extra"]
            )
        ]
    if wanted.thread != got.thread:
        says = f"thread {_who(wanted)} is wanted, got thread {_who(got)}"
        return [Difference(line, wanted, got, says, reasons.rule("*", "thread"), reasons.MEANS["thread"])]
    for kind in ("busy", "nothread"):
        if (wanted.kind == kind) != (got.kind == kind):
            says = (
                f"`{kind}` is wanted, got {_told(got)}"
                if wanted.kind == kind
                else f"{_told(wanted)} is wanted, got `{kind}`"
            )
            means = reasons.MEANS[kind] if got.kind == kind else reasons.MEANS[f"not {kind}"]
            return [Difference(line, wanted, got, says, reasons.rule("*", kind), means)]
    if wanted.call != got.call:
        says = f"the call {wanted.call} is wanted, got {got.call}"
        return [Difference(line, wanted, got, says, reasons.rule("*", "call"), reasons.MEANS["call"])]
    if wanted.status != got.status:
        rule, means = _rule_of_statuses(wanted, got), _statuses_mean(wanted, got)
        return [Difference(line, wanted, got, _statuses_say(wanted, got), rule, means)]
    return _of_fields(line, wanted, got, context)


def _who(entry):
    """The thread of an entry as it is printed."""
    return "-" if entry.thread is None else entry.thread


def _told(entry):
    """What an entry tells, in short."""
    if entry.kind in ("busy", "nothread"):
        return f"`{entry.kind}`"
    return "`wait`" if entry.kind == "wait" else _status(entry.status)


def _status(status):
    """A status with its name in brackets."""
    name = statuses.name_of(status)
    return f"{status} ({name})" if name else f"{status} (no status of the profile)"


def _statuses_mean(wanted, got):
    """What another status means, one of which may be a wait."""
    refused, refuses = (it.status not in (None, statuses.SUCCESS) for it in (wanted, got))
    if refused or refuses:
        return reasons.MEANS["refused, otherwise" if refused and refuses else "refused" if refuses else "let through"]
    return reasons.MEANS["waits" if got.kind == "wait" else "returns"]


def _statuses_say(wanted, got):
    """What two statuses say, one of which may be a wait."""
    what = "status " * (wanted.kind != "wait")
    return f"{what}{_told(wanted)} is wanted, got {_told(got)}"


def _rule_of_statuses(wanted, got):
    """The rule where one call was answered in two ways."""
    call, right, wrong = wanted.call, wanted.status, got.status
    refused, refuses = (it not in (None, statuses.SUCCESS) for it in (right, wrong))
    if refused and refuses:
        return _order(call, right, wrong), reasons.of_call(call)
    if refused:
        return f"{call} is refused with {right} where {reasons.causes(call, right)}.", reasons.of_call(call)
    if refuses:
        cause = reasons.causes(call, wrong)
        where = f"only where {cause}; that isn't so here" if cause else "never"
        return f"{call} is refused with {wrong} {where}.", reasons.of_call(call)
    shown = next((it for it in (wanted.message(), got.message()) if it), None)
    if shown and shown.type in ENDS:
        return reasons.rule("*", ENDS[shown.type])
    return reasons.rule(call, "waits")


def _order(call, right, wrong):
    """The rule where a call was refused for another reason than wanted."""
    cause, other = reasons.causes(call, right), reasons.causes(call, wrong)
    if cause is None:
        return f"The refusals of {call} are tested in the order of its table."
    if other is None:
        return f"{call} is never refused with {wrong}. It is with {right} where {cause}."
    if reasons.comes_before(call, right, wrong):
        return f"{call} tests {right} ({cause}) before {wrong} ({other})."
    not_so = f"{call} is refused with {wrong} only where {other}; that isn't so here."
    return f"{not_so} The first refusal that holds is {right}: {cause}."


def _of_fields(line, wanted, got, context):
    """The differences of the fields of two entries with the same call and status."""
    printed, problems = got, []
    if context.names:
        got, problems = context.names.fit(wanted, got)
    if problems:
        rule = reasons.rule("*", "renamed")
        return [Difference(line, wanted, printed, it, rule, reasons.MEANS["renamed"]) for it in problems]
    here, there = dict(wanted.fields), dict(got.fields)
    if list(here) != list(there):
        rule = reasons.rule(wanted.call, "fields")
        return [Difference(line, wanted, got, _names_say(list(here), list(there)), rule, reasons.MEANS["fields"])]
    differ = [it for it, value in here.items() if value != there[it]]
    found = [_of_field(line, wanted, got, it) for it in differ if it != "msg"]
    if "msg" in differ:
        other = _of_messages(line, wanted, got, context)
        # The context is that of the message. So where it is another message, that is all that differs.
        found = (
            [other]
            if other.means in [reasons.MEANS[it] for it in ("which message", *ENDS.values())]
            else [*found, other]
        )
    return [dataclasses.replace(it, got=printed) for it in found]


def _names_say(here, there):
    """What the names of two entries' fields say."""
    missing, extra = [it for it in here if it not in there], [it for it in there if it not in here]
    told = [f"the field `{it}` is missing" for it in missing] + [f"the field `{it}` is one too many" for it in extra]
    return "; ".join(told) or f"the fields stand in another order: {' '.join(here)} is wanted, got {' '.join(there)}"


def _of_field(line, wanted, got, name):
    """The difference of one field, a message aside."""
    value, other = wanted.field(name) or "(nothing)", got.field(name) or "(nothing)"
    says = f"{name}={value} is wanted, got {name}={other}"
    means = reasons.MEANS.get(f"{name}=", reasons.MEANS["value"])
    return Difference(line, wanted, got, says, reasons.rule(wanted.call, name), means)


def _of_messages(line, wanted, got, context):
    """The difference of two messages."""
    here, there = wanted.message(), got.message()
    differ = [it for it in HEADER if getattr(here, it[1]) != getattr(there, it[1])]
    says = "; ".join(f"{name} {_part(here, field)} is wanted, got {_part(there, field)}" for name, field, _ in differ)
    another = wanted.kind == "answer" and marks_of(here) != marks_of(there) and marks_of(there) in context.wanted
    what = "which message" if another else _ruled_by(wanted, here, differ)
    if what == "which message" and here.type in ENDS and marks_of(here) not in context.got:
        what = ENDS[here.type]
    means = reasons.MEANS.get(what, reasons.MEANS["header"])
    return Difference(line, wanted, got, f"the message: {says}", reasons.rule(wanted.call, what), means)


def _part(shown, field):
    """A part of a message as it is told."""
    value = getattr(shown, field)
    if field == "data":
        return value.hex() or "(none)"
    return f"{value} ({message.TYPES[value]})" if field == "type" and value in message.TYPES else value


def _ruled_by(wanted, here, differ):
    """What the rule rules that tells which message is right. One that was taken from a queue is another message where
    its sender or its identifier differs and something else beside."""
    marks = [it for it in differ if it[1] in ("type", "process", "thread", "message_id")]
    whose = [it for it in marks if it[1] != "type"]
    if wanted.kind == "answer" and whose and (len(marks) > 1 or any(it[1] == "data" for it in differ)):
        return "which message"
    first = differ[0]
    if here.type in MADE and first[1] == "data":
        return MADE[here.type]
    return (marks or [first])[0][2]


def _of_wakes(line, wanted, got, maker, context):
    """The differences of the wakes of a line."""
    found, extra = [], [it for thread, it in got.wakes.items() if thread not in wanted.wakes]
    for thread, entry in wanted.wakes.items():
        other = got.wakes.get(thread)
        if other:
            found += _of_wake(line, entry, other, maker, context)
        elif extra:
            woken = extra.pop(0)
            says, rule = f"thread {thread} has to wake, got thread {woken.thread} in its place", rule_of_wake(
                maker, entry, woken
            )
            found.append(Difference(line, entry, woken, says, rule, reasons.MEANS["woken"]))
        else:
            rule = rule_of_wake(maker, entry)
            found.append(Difference(line, entry, None, f"thread {thread} has to wake", rule, reasons.MEANS["asleep"]))
    for entry in extra:
        says, rule = f"thread {entry.thread} must not wake", rule_of_wake(maker, entry)
        found.append(Difference(line, None, entry, says, rule, reasons.MEANS["awake"]))
    return found + _of_order(line, wanted.wakes, got.wakes, maker)


def rule_of_wake(maker, entry, instead=None):
    """The rule that tells which wakes a line makes; `instead` is a wake in the place of this one."""
    shown = entry.message()
    if maker in ("NtClose", "died") and shown and shown.type in ENDS:
        return reasons.rule("*", "taker" if instead else ENDS[shown.type])
    return reasons.rule(maker, f"wakes {entry.call}", "wakes nobody")


def _of_wake(line, wanted, got, maker, context):
    """The differences of two wakes of one thread."""
    if wanted.call != got.call:
        says = f"the wake of {wanted.call} is wanted, got one of {got.call}"
        return [Difference(line, wanted, got, says, reasons.rule("*", "call"), reasons.MEANS["call"])]
    if wanted.status != got.status:
        says, rule = _statuses_say(wanted, got), rule_of_wake(maker, wanted)
        return [Difference(line, wanted, got, says, rule, reasons.MEANS["ending"])]
    return _of_fields(line, wanted, got, context)


def _of_order(line, here, there, maker):
    """The difference of the order in which the threads wake that do so on both sides."""
    wanted, got = ([it for it in one if it in other] for one, other in ((here, there), (there, here)))
    at = next((at for at, pair in enumerate(zip(wanted, got)) if pair[0] != pair[1]), None)
    if at is None:
        return []
    order = [", ".join(map(str, it)) for it in (wanted, got)]
    says = f"the wakes come in another order: threads {order[0]} are wanted, got {order[1]}"
    return [
        Difference(line, here[wanted[at]], there[got[at]], says, reasons.rule(maker, "order"), reasons.MEANS["order"])
    ]


def _of_closing(wanted, got, sides, ends):
    """The difference of the last lines, with what stands behind the one that ends before the other."""
    here, there = wanted.closing, got.closing
    if (here and here.raw) == (there and there.raw):
        return []
    line = min(*ends, _last_line(wanted) + 1, _last_line(got) + 1)
    behind = [sum(it >= ends[not side] for it in sides[side]) for side in (0, 1)]
    says = _closings_say(here, there)
    if behind[0] or behind[1]:
        side, have = "wanted" if behind[0] else "got", "has" if max(behind) == 1 else "have"
        lines = describe.counted(max(behind), "line")
        says += f"; from there on {lines} of the script {have} entries in the {side} transcript alone"
    return [Difference(line, here, there, says, _rule_of_closings(here, there), _closings_mean(here, there))]


def _last_line(transcript):
    """The last line of the script that a transcript tells of."""
    closing = transcript.closing
    return closing.numbers[0] if closing else max((it.line for it in transcript.entries), default=0)


def _closings_say(here, there):
    """What two last lines say."""
    if not here or not there:
        return "the last line is missing" if here else "no last line is wanted: the input failed, or memory ran out"
    if here.word != there.word:
        return f"the script has to {_ending(here)}, got `{there.raw}`"
    named = zip(
        ("LINES", "ENTRIES", "OBJECTS") if here.word == "end" else ("LINE", "KIND"), here.numbers, there.numbers
    )
    return "; ".join(f"{name} {value} is wanted, got {other}" for name, value, other in named if value != other)


def _ending(closing):
    """How a script ends that has a last line."""
    if closing.word == "end":
        return "run to its end"
    return "stop at line {} with fault {}".format(*closing.numbers)


def _closings_mean(here, there):
    """What other last lines mean."""
    if not here or not there:
        return reasons.MEANS["broken off" if here else "not broken off"]
    if here.word != there.word:
        return reasons.MEANS["stops" if there.word == "stop" else "runs on"]
    names = ("LINES", "ENTRIES", "OBJECTS") if here.word == "end" else ("LINE", "KIND")
    return next(reasons.MEANS[name] for name, one, other in zip(names, here.numbers, there.numbers) if one != other)


def _rule_of_closings(here, there):
    """The rule for two last lines."""
    if not here or not there:
        return reasons.rule("*", "last line")
    if here.word != there.word:
        kind = (here if here.word == "stop" else there).numbers[1]
        has = "so the script stops there" if here.word == "stop" else "no line of the script has one"
        return f"A fault of kind {kind} is {faults.name_of(kind)}; {has}.", reasons.FAULTS
    names = ("LINES", "OBJECTS", "ENTRIES") if here.word == "end" else ("LINE", "KIND")
    places = {"LINES": 0, "ENTRIES": 1, "OBJECTS": 2, "LINE": 0, "KIND": 1}
    for name in names:
        if here.numbers[places[name]] != there.numbers[places[name]]:
            return reasons.rule(here.word, name)
    return None
