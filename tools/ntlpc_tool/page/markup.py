"""Markup that no text can break out of: whatever isn't Markup is escaped where it is put into an element."""
import html


class Markup(str):
    """Text that is markup already."""


def escaped(given):
    """Markup as it is, and anything else as text."""
    return given if isinstance(given, Markup) else Markup(html.escape(str(given), quote=True))


def joined(parts, between=""):
    """Parts one behind the other."""
    return Markup(between.join(map(escaped, parts)))


def element(name, *inner, **attributes):
    """An element. In the name of an attribute `_` stands for a dash, and one at its end for nothing, as in `class_`. An
    attribute whose value is None is left out."""
    given = ((key.rstrip("_").replace("_", "-"), value) for key, value in attributes.items() if value is not None)
    told = "".join(f' {key}="{html.escape(str(value), quote=True)}"' for key, value in given)
    return Markup(f"<{name}{told}>{joined(inner)}</{name}>")
