"""A picture of ntlpc_tool.sequence as SVG: a lane for each thread, those of a process side by side, and time downwards.

Forms tell arrows apart, and no colour is needed for it. Each line of the script has a group of its own, which says
where it stands, so that the page's script can mark it.
"""
from ntlpc_tool import inputs, sequence
from ntlpc_tool.page import strokes
from ntlpc_tool.page.markup import element, joined

WIDE, NARROW, FEW, MARGIN, LEAST = 190, 140, 4, 30, 520
LETTER, LEADING, MOST_TEXT = 7.4, 16, 96
HEAD, PROCESS, GAP, ARROW, TURN = 58, 26, 8, 30, 26
BAR, LOOP, CROSS = 10, 34, 6


class Lanes:
    """The head, with the names, and the body of the drawing. `turns` has for each line that is the turn of a server its
    thread and what it did there, `last` is the key of the part that tells of the transcript's end."""

    def __init__(self, picture, turns, last):
        self.picture, self.turns = picture, turns
        threads = [it.thread for it in picture.participants]
        self.lane = WIDE if len(threads) <= FEW else NARROW
        self.places = {it: MARGIN + self.lane * at + self.lane // 2 for at, it in enumerate(threads)}
        self.width = max(LEAST, 2 * MARGIN + self.lane * len(threads))
        # How far the drawing goes down, and where a wait ends or begins that the last thing drawn ends or begins; the
        # bars of waits, where those begin that are open, where lanes end, and the groups of the lines.
        self.bottom = self.at = GAP
        self.bars, self.open, self.ends, self.parts = [], {}, {}, []
        for line, events in picture.parts.items():
            self._part(str(line), events, line)
        count = sum(map(len, picture.parts.values()))
        self._part(last, picture.events[count:], None)

    def head(self):
        """The names of the processes and the threads."""
        shapes = []
        for process, first, last in self._processes():
            left, right = (self.places[it] for it in (first, last))
            name = "process unknown" if process is None else f"process {process}"
            half = self.lane // 2 - 4
            shapes.append(strokes.box("process", left - half, 4, right - left + 2 * half, PROCESS))
            shapes.append(element("text", name, class_="name", x=left - half + 8, y=PROCESS - 5))
        for thread, x in self.places.items():
            name = f"thread {thread}"
            shapes.append(element("text", name, class_="name thread", x=x, y=HEAD - 10, text_anchor="middle"))
        return strokes.svg(joined(shapes), self.width, HEAD, class_="head", aria_hidden="true")

    def body(self, label):
        """All that happened among the threads."""
        self.bars += [(it, top, self.bottom + GAP) for it, top in self.open.items()]
        height = self.bottom + 2 * GAP
        bars = (strokes.box("wait", self._place(it) - BAR // 2, top, BAR, end - top) for it, top, end in self.bars)
        # What marks a step, and what lies over all that comes behind it.
        mark, veil = (element("rect", id=it, x=0, y=0, width=self.width, height=0) for it in ("mark", "veil"))
        inner = joined([mark, *self._lines(height), *bars, *self.parts, veil])
        return strokes.svg(inner, self.width, height, class_="body", role="img", aria_label=label)

    def _processes(self):
        """Each process with the first and the last of its threads. Threads of unknown processes stand alone."""
        found = []
        for it in self.picture.participants:
            if found and it.process is not None and found[-1][0] == it.process:
                found[-1][2] = it.thread
            else:
                found.append([it.process, it.thread, it.thread])
        return found

    def _lines(self, height):
        """The lanes, down to where their threads end."""
        for thread, x in self.places.items():
            yield element("line", class_="lane", x1=x, y1=0, x2=x, y2=self.ends.get(thread, height))

    def _place(self, thread):
        """Where the lane of a thread is. One without a lane, as a dead one that a transcript wakes, is at the edge."""
        return self.places.get(thread, MARGIN)

    # Parts.

    def _part(self, key, events, line):
        """Draws the events of a line."""
        top, shapes, self.used = self.bottom, [], []
        if line in self.turns:
            shapes.append(self._turn(line, *self.turns[line]))
        for event in events:
            shapes += _EVENTS[type(event)](self, event)
        left, right = min(self.used, default=0), max(self.used, default=0)
        given = {"data_top": top, "data_bottom": self.bottom, "data_left": left, "data_right": right}
        self.parts.append(element("g", *shapes, class_="part", id=f"part-{key}", **given))

    def _down(self, size):
        """Takes so much of the height, and returns where it begins."""
        top = self.bottom
        self.bottom += size
        return top

    def _turn(self, line, thread, deed):
        """That a line is a turn of the server on a thread."""
        text, x = inputs.cut(f"{line} turn: {deed}", MOST_TEXT), self._place(thread)
        top, width = self._down(TURN), len(text) * LETTER + 24
        left = self._across(x - 14, width)
        return joined([strokes.six_sided(left, top, width, TURN - 6), strokes.text(text, left + 12, top + 14)])

    def _across(self, left, width):
        """Takes so much of the width from a place on, and returns the place. The drawing is as wide as it has to be."""
        self.used += (left, left + width)
        self.width = max(self.width, round(left + width) + GAP)
        return left

    def _note(self, event):
        lines = [inputs.cut(it, MOST_TEXT) for it in event.lines]
        height, width = LEADING * len(lines) + 6, max(map(len, lines)) * LETTER + 16
        top, x = self._down(height + GAP), self._place(event.thread)
        left, self.at = self._across(x - 12, width), top + height
        texts = [strokes.text(it, left + 8, top + 15 + LEADING * at) for at, it in enumerate(lines)]
        yield joined([strokes.note(event.kind, left, top, width, height), *texts])
        if event.kind == "died":
            self._end(event.thread, top + height)
            self.ends[event.thread] = top + height + GAP
            yield strokes.cross(x, top + height + GAP, CROSS)
            self.bottom += GAP

    def _arrow(self, event):
        begin, end = map(self._place, (event.source, event.target))
        text = inputs.cut(event.text, MOST_TEXT)
        top = self._down(ARROW + (LEADING if begin == end else 0))
        width = len(text) * LETTER
        left = self._across(min(begin, end) + 10, width)
        self.used += (begin, end)
        self.at = top + LEADING + 5
        drawn = strokes.loop(event.form, begin, self.at, LOOP, LEADING) if begin == end else None
        yield drawn or strokes.arrow(event.form, begin, end, self.at)
        yield strokes.text(text, left, top + LEADING - 3, True)

    def _waits(self, event):
        x, top = self._place(event.thread), self.at
        if event.text:
            text = inputs.cut(event.text, MOST_TEXT)
            top = self._down(LEADING + 8)
            yield strokes.text(text, self._across(x + 10, len(text) * LETTER), top + 15, True)
            self.at = top + LEADING
        self.open[event.thread] = top

    def _wakes(self, event):
        self._end(event.thread, self.at)
        return ()

    def _stays(self, event):
        text, x = inputs.cut(event.text, MOST_TEXT), self._place(event.thread)
        top = self._down(LEADING + 6)
        yield strokes.text(text, self._across(x + 10, len(text) * LETTER), top + 15, True)

    def _end(self, thread, at):
        """Ends the bar of a wait."""
        if thread in self.open:
            top = self.open.pop(thread)
            self.bars.append((thread, top, max(at, top + 4)))


_EVENTS = {
    sequence.Note: Lanes._note,
    sequence.Arrow: Lanes._arrow,
    sequence.Waits: Lanes._waits,
    sequence.Wakes: Lanes._wakes,
    sequence.Stays: Lanes._stays,
}
