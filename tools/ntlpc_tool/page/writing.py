"""Puts the steps and the drawing into the page, with its style and its script."""
import base64
import hashlib
import itertools
import string

import ntlpc_tool
from ntlpc_tool import describe, sequence, turns
from ntlpc_tool.page import history, lanes, steps, strokes, tables
from ntlpc_tool.page.markup import Markup, element, joined

HERE = ntlpc_tool.FOLDER / "page"
STYLES, CODES = ("page.css", "tables.css"), ("tables.js", "page.js")
SAMPLE, SAMPLE_HEIGHT = 64, 16
DRAWING = "Who sends what to whom, a lane for each thread; the lines tell the same in words"
SHAPES = (
    ("call", "a call that isn't drawn otherwise"),
    ("all", "a directive, or the end"),
    ("refused", "a call that is refused, or a line without effect"),
    ("died", "a thread dies: its lane ends"),
    ("turn", "a turn of the server on a thread"),
    ("wait", "a thread waits"),
)


def page(name, found, script, links, changes):
    """The bytes of the page of a script and its transcript. `changes` are what became of the machine's rows, or tell
    why that isn't known."""
    items = list(steps.of(found, script))
    shown = [it for it in items if isinstance(it, steps.Step)]
    picture = sequence.Picture(found, script)
    taken = {int(it.key): (turns.thread_of(script.words(int(it.key))), it.deed) for it in shown if it.deed}
    drawn = lanes.Lanes(picture, taken, next(it.key for it in shown if it.last))
    told = None if isinstance(changes, str) else tables.Tables(history.History(changes, list(map(line_of, shown))))
    style, code = (joined(map(text_of, it)) for it in (STYLES, CODES))
    parts = {
        "title": f"{name}, step by step",
        "name": name,
        "policy": policy(style, code),
        "style": style,
        "code": code,
        "about": about(found, script, picture),
        "untold": "" if told else element("p", changes, class_="untold"),
        "count": str(len(shown)),
        "steps": steps_told(items, links, told),
        "head": drawn.head(),
        "body": drawn.body(DRAWING),
        "legend": legend(picture, taken),
        "machine": machine(told, links) if told else "",
        "kind": "with-machine" if told else "without-machine",
        "version": ntlpc_tool.VERSION,
    }
    template = string.Template(text_of("page.html"))
    return template.substitute({key: joined([value]) for key, value in parts.items()}).encode()


def text_of(name):
    """A file beside this one, as markup."""
    return Markup((HERE / name).read_text(encoding="utf-8"))


def policy(style, code):
    """What the page may load: its own style and its own script, and nothing else."""
    style, code = (base64.b64encode(hashlib.sha256(it.encode()).digest()).decode() for it in (style, code))
    own = f"style-src 'sha256-{style}'; script-src 'sha256-{code}'"
    return f"default-src 'none'; {own}; base-uri 'none'; form-action 'none'"


def about(found, script, picture):
    """How much there is."""
    processes = {it.process for it in picture.participants if it.process is not None}
    counts = ((len(script.lines), "line"), (len(found.entries), "entry"), (len(picture.participants), "thread"))
    told = [describe.counted(*it) for it in counts]
    return f"{', '.join(told)}, {len(processes)} process{'' if len(processes) == 1 else 'es'}"


# The lines.


def line_of(step):
    """The number of a step's line, None behind all lines."""
    return None if step.key == steps.END else int(step.key)


def steps_told(items, links, told):
    """The steps, and the lines between them."""
    numbers = itertools.count()
    return joined((of_item(it, links, told, numbers) for it in items), "\n")


def of_item(item, links, told, numbers):
    """A step, or a line between steps."""
    if isinstance(item, steps.Step):
        return of_step(item, links, told.changes(next(numbers)) if told else "")
    number = element("span", item.number, class_="number")
    behind = "" if item.comment else element("span", "no entry", class_="kind")
    return element("p", number, element("code", item.text), behind, class_="silent", id=f"line-{item.number}")


def of_step(step, links, changes):
    """A step: its line, its entries with what they mean, what that changes, and who waits."""
    name = f"line-{step.key}" if step.text is not None else step.key
    number = step.key if step.text is not None else "end"
    text = element("code", step.text) if step.text is not None else "behind the last line"
    deed = element("span", f"({step.deed})", class_="deed") if step.deed else ""
    link = element("a", element("span", number, class_="number"), text, href=f"#{name}")
    parts = [element("h3", link, deed), *(of_entry(it, links) for it in step.told)]
    if step.last:
        parts.append(of_last(step.last, links))
    parts += [changes, of_waits(step.waits)]
    return element("article", joined(parts, "\n"), class_="step", id=name, data_key=step.key)


def of_entry(told, links):
    """An entry as it is printed, and what it means."""
    entry = told.entry
    return of_printed(entry.raw, entry.kind, told, links)


def of_last(last, links):
    """The last line of the transcript, and what it means."""
    return of_printed(last.closing.raw if last.closing else None, "last line", last, links)


def of_printed(raw, kind, told, links):
    """What is printed, where anything is, and below it what it means and its rules."""
    printed = element("p", element("span", kind, class_="kind"), element("code", raw, class_="raw")) if raw else ""
    first, *others = told.means
    fields = element("pre", "\n".join(it[4:] for it in others)) if others else ""
    rules = element("ul", *(of_rule(*it, links) for it in told.rules), class_="rules") if told.rules else ""
    means = element("div", element("p", first), fields, rules, class_="told")
    return element("div", printed, means, class_=f"entry {kind.split()[0]}")


def of_rule(sentence, place, links):
    """A rule, and a link to its place."""
    return element("li", f"{sentence} " if sentence else "", element("a", place, href=links.link(place)))


def of_waits(waits):
    """Who waits behind a line."""
    if not waits:
        return element("div", element("p", "Behind it no thread waits."), class_="told waits")
    told = element("ul", *(element("li", it) for it in waits))
    return element("div", element("h4", "Who waits behind it"), told, class_="told waits")


# The machine's rows.


def machine(told, links):
    """The tables of the machine's rows, and the data from which the page's script makes them."""
    parts = {"tables": told.at_end(), "data": told.data(), "docs": links.link("STEPPING.md, The machine behind a line")}
    return Markup(string.Template(text_of("machine.html")).substitute({key: joined([it]) for key, it in parts.items()}))


# What the drawing's forms mean.


def legend(picture, taken):
    """The forms that the drawing has, each with a sample."""
    arrows = {it.form for it in picture.events if isinstance(it, sequence.Arrow)}
    kinds = {it.kind for it in picture.events if isinstance(it, sequence.Note)}
    kinds |= {"turn"} if taken else set()
    kinds |= {"wait"} if any(isinstance(it, sequence.Waits) for it in picture.events) else set()
    forms = {it: name for it, (_, _, name) in strokes.FORMS.items() if it in arrows}
    samples = [(strokes.arrow(it, 4, SAMPLE - 4, 8), name) for it, name in forms.items()]
    samples += [(sample(kind), name) for kind, name in SHAPES if kind in kinds]
    drawn = ((strokes.svg(it, SAMPLE, SAMPLE_HEIGHT, aria_hidden="true"), name) for it, name in samples)
    return joined(element("li", it, name) for it, name in drawn)


def sample(kind):
    """The shape of a note, a turn or a wait."""
    if kind == "turn":
        return strokes.six_sided(14, 1, 36, 14)
    return strokes.box("wait", 14, 3, 36, 10) if kind == "wait" else strokes.note(kind, 14, 1, 36, 11)
