"""The shapes of a drawing as SVG: boxes, texts, and an arrow of another form for each thing that is sent.

A line is whole, dashed, dotted, double or a zigzag, and its head is full, open, a diamond, a square, a bar or a cross.
"""
from ntlpc_tool import sequence
from ntlpc_tool.page.markup import element, joined

# Of each form: its line, its head, and what it is called.
FORMS = {
    "request": ("whole", "full", "request"),
    sequence.REPLY: ("dashed", "open", "reply"),
    "datagram": ("dotted", "full", "datagram"),
    "connection request": ("double", "diamond", "connection request"),
    sequence.CONNECTION_ANSWER: ("double dashed", "diamond", "accept, or the connect returns"),
    "event": ("zigzag", "square", "event of an exception"),
    sequence.EVENT_ANSWER: ("dashed zigzag", "square", "the exception is handled or continued"),
    "end": ("chain", "bar", "a port or a thread ended"),
    sequence.FAILURE: ("whole thin", "cross", "a wait fails, or a connect is refused"),
    sequence.MESSAGE: ("whole", "open", "a message of another type"),
}
PERIOD, SWING, SIZE = 8, 3, 9


def svg(inner, width, height, **attributes):
    """A picture of a size."""
    return element("svg", inner, width=width, height=height, viewBox=f"0 0 {width} {height}", **attributes)


def text(words, x, y, free=False):
    """A line of text that begins at a place. A free one stands in no box, and what it crosses gives way to it."""
    return element("text", words, class_="free" if free else None, x=_short(x), y=_short(y))


def box(kind, left, top, width, height):
    """A rectangle."""
    sizes = {"width": _short(width), "height": _short(height)}
    return element("rect", class_=kind, x=_short(left), y=_short(top), rx=3, **sizes)


def note(kind, left, top, width, height):
    """The box of a note. That of a refused call has a corner cut off, that of a death a second line below."""
    right, bottom = left + width, top + height
    if kind == "refused":
        around = f"{left},{top} {right - 10},{top} {right},{top + 10} {right},{bottom} {left},{bottom}"
        return element("polygon", class_=kind, points=around)
    below = line("died", left, bottom + 3, right, bottom + 3) if kind == "died" else ""
    return joined([box(kind, left, top, width, height), below])


def six_sided(left, top, width, height):
    """The box of a turn of a server."""
    right, middle, bottom = left + width, top + height / 2, top + height
    above, below = ((left + 8, top), (right - 8, top)), ((right - 8, bottom), (left + 8, bottom))
    points = ((left, middle), *above, (right, middle), *below)
    return element("polygon", class_="turn", points=" ".join(f"{_short(x)},{_short(y)}" for x, y in points))


def line(kind, x1, y1, x2, y2):
    """A straight line."""
    return element("line", class_=kind, x1=_short(x1), y1=_short(y1), x2=_short(x2), y2=_short(y2))


def cross(x, y, size):
    """A cross where a lane ends."""
    left, right, top, bottom = x - size, x + size, y - size, y + size
    return element("path", class_="cross", d=f"M{left} {top}L{right} {bottom}M{left} {bottom}L{right} {top}")


def arrow(form, begin, end, y):
    """An arrow from one lane to another. It ends before the lane, where its head touches it."""
    style, head, _ = FORMS[form]
    to = 1 if end > begin else -1
    stop = end - to * (SIZE if head in ("full", "square", "diamond") else 2)
    kinds = style.split()
    if "zigzag" in kinds:
        drawn = element("path", class_=style, d=_zigzag(begin, stop, y))
    elif "double" in kinds:
        drawn = joined([line(style, begin, y - 2, stop, y - 2), line(style, begin, y + 2, stop, y + 2)])
    else:
        drawn = line(style, begin, y, stop, y)
    return element("g", drawn, _head(head, end, y, to), class_="arrow", data_form=form)


def loop(form, x, y, width, height):
    """An arrow from a lane to itself."""
    style, head, _ = FORMS[form]
    right, bottom, kinds = x + width, y + height, style.split()
    first = _zigzag(x, right, y) if "zigzag" in kinds else f"M{x} {y}H{right}"
    paths = [f"{first}V{bottom}H{x + SIZE}"]
    if "double" in kinds:
        paths.append(f"M{x} {y + 4}H{right - 4}V{bottom - 4}H{x + SIZE}")
    drawn = joined(element("path", class_=style, d=it) for it in paths)
    return element("g", drawn, _head(head, x, bottom, -1), class_="arrow", data_form=form)


def _head(kind, x, y, to):
    """The head of an arrow whose point is at a place; `to` is 1 where it looks to the right, and else -1."""
    back, half = x - to * SIZE, SIZE // 2
    points = {
        "full": f"{x},{y} {back},{y - 5} {back},{y + 5}",
        "diamond": f"{x},{y} {x - to * half},{y - 5} {back},{y} {x - to * half},{y + 5}",
        "square": f"{x},{y - 5} {back},{y - 5} {back},{y + 5} {x},{y + 5}",
    }
    if kind in points:
        return element("polygon", class_=f"tip {kind}", points=points[kind])
    paths = {
        "open": f"M{back} {y - 5}L{x - to} {y}L{back} {y + 5}",
        "bar": f"M{x - to * 3} {y - 7}V{y + 7}M{x - to * 7} {y - 7}V{y + 7}",
        "cross": f"M{back} {y - 5}L{x - to} {y + 5}M{back} {y + 5}L{x - to} {y - 5}",
    }
    return element("path", class_="tip", d=paths[kind])


def _zigzag(begin, end, y):
    """The path of a zigzag line."""
    to = 1 if end > begin else -1
    count = max(1, abs(end - begin) // PERIOD - 1)
    turns = (f"L{begin + to * PERIOD * (at + 1)} {y + (SWING if at % 2 else -SWING)}" for at in range(count))
    return f"M{begin} {y}{''.join(turns)}L{end} {y}"


def _short(number):
    """A number with one digit behind its point at most."""
    return f"{number:.1f}".removesuffix(".0")
