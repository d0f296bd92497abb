"""Pictures of who sends what to whom, as text: Mermaid's language, and that of PlantUML."""
import re

from ntlpc_tool import sequence

# What a language doesn't take as it is in a text: it is spelled by its number.
NOT_MERMAIDS = re.compile(r"""[^A-Za-z0-9 .,:=()"'_/*+@-]""")
NOT_PLANTUMLS = re.compile(r"[^A-Za-z0-9 .,:=()]")


def mermaid(picture):
    """A picture as a sequence diagram of Mermaid."""
    return "\n".join(["sequenceDiagram", *(f"    {it}" for it in _Mermaid(picture).lines())]) + "\n"


def plantuml(picture):
    """A picture as a sequence diagram of PlantUML."""
    return (
        "\n".join(["@startuml", "hide footbox", "skinparam shadowing false", *_PlantUml(picture).lines(), "@enduml"])
        + "\n"
    )


class _Language:
    """What both languages have in common: one line for each event."""

    ARROWS = {}
    BREAK = ""

    def __init__(self, picture):
        self.picture = picture

    def lines(self):
        """The participants, then the events."""
        yield from map(self.participant, self.picture.participants)
        for event in self.picture.events:
            if isinstance(event, sequence.Note):
                yield from self.note(event)
            elif isinstance(event, sequence.Arrow):
                yield self.arrow(event.source, event.kind, event.target, event.text)
            elif isinstance(event, sequence.Waits):
                yield from self.waits(event)
            elif isinstance(event, sequence.Stays):
                yield from self.stays(event)
            else:
                yield f"deactivate {self.name(event.thread)}"

    def arrow(self, source, kind, target, text):
        """An arrow of a kind from one thread to another."""
        return f"{self.name(source)}{self.ARROWS[kind]}{self.name(target)}: {self.text(text)}"

    def name(self, thread):
        """The name of a thread in the diagram's text."""
        return f"T{thread}"

    def title(self, participant):
        """What is written above a thread."""
        process = "process unknown" if participant.process is None else f"process {participant.process}"
        return f"thread {participant.thread}{self.BREAK}{process}"

    def over(self, event):
        """Where a note stands; None where there is no thread to put it over."""
        if event.thread is not None:
            return self.name(event.thread)
        ends = self.picture.participants[:1] + self.picture.participants[1:][-1:]
        return ",".join(self.name(it.thread) for it in ends)


class _Mermaid(_Language):
    ARROWS = {"send": "->>", "answer": "-->>", "end": "--x"}
    BREAK = "<br/>"

    def participant(self, participant):
        return f"participant {self.name(participant.thread)} as {self.title(participant)}"

    def note(self, event):
        text = self.BREAK.join(map(self.text, event.lines))
        over = self.over(event)
        yield f"Note over {over}: {text}" if over else f"%% {text}"

    def waits(self, event):
        if event.text:
            yield f"Note over {self.name(event.thread)}: {self.text(event.text)}"
        yield f"activate {self.name(event.thread)}"

    def stays(self, event):
        yield f"Note over {self.name(event.thread)}: {self.text(event.text)}"
        yield f"deactivate {self.name(event.thread)}"

    def text(self, text):
        return NOT_MERMAIDS.sub(lambda found: f"#{ord(found[0])};", text)


class _PlantUml(_Language):
    ARROWS = {"send": " -> ", "answer": " --> ", "end": " -[#C00000]>x "}
    COLOURS = {"call": "#FFFFFF", "died": "#FFFFFF", "refused": "#FFE0E0", "all": "#F4F4F4", "stays": "#E8F0FF"}
    BREAK = r"\n"

    def participant(self, participant):
        return f'participant "{self.title(participant)}" as {self.name(participant.thread)}'

    def note(self, event):
        text = self.BREAK.join(map(self.text, event.lines))
        over = self.over(event)
        yield f"note over {over} {self.COLOURS[event.kind]} : {text}" if over else f"' {text}"

    def waits(self, event):
        # A bar begins at the arrow above it, so that a wait without one gets an arrow to itself.
        if event.text:
            yield self.arrow(event.thread, "send", event.thread, event.text)
        yield f"activate {self.name(event.thread)}"

    def stays(self, event):
        # The bar goes on to the end.
        yield f"note over {self.name(event.thread)} {self.COLOURS['stays']} : {self.text(event.text)}"

    def text(self, text):
        return NOT_PLANTUMLS.sub(lambda found: f"<U+{ord(found[0]):04X}>", text)
