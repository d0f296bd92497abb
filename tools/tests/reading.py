"""A page of HTML as a tree, for the tests of what the tools write. Reading is strict: each tag has to be closed."""
import html.parser

VOID = ("meta", "input")


class Node:
    """An element: its name, its attributes, and its elements and texts in their order."""

    def __init__(self, tag, attributes):
        self.tag, self.attributes, self.inner = tag, attributes, []

    def text(self):
        """All text inside."""
        return "".join(it if isinstance(it, str) else it.text() for it in self.inner)

    def all(self, tag=None, kind=None):
        """The elements below this one of a name, and of a class."""
        for it in self.inner:
            if isinstance(it, Node):
                if tag in (None, it.tag) and (kind is None or kind in it.attributes.get("class", "").split()):
                    yield it
                yield from it.all(tag, kind)

    def one(self, name):
        """The element with an id."""
        (found,) = [it for it in self.all() if it.attributes.get("id") == name]
        return found

    def skeleton(self):
        """The names of all elements, and of their attributes."""
        return [(it.tag, *it.attributes) for it in self.all()]


class _Reader(html.parser.HTMLParser):
    """Reads a page, and says where a tag isn't closed, or is closed that isn't open."""

    def __init__(self):
        super().__init__()
        self.root = Node("", {})
        self.open = [self.root]

    def handle_starttag(self, tag, attributes):
        names = [name for name, _ in attributes]
        assert len(names) == len(set(names)), f"{tag} has an attribute twice"
        node = Node(tag, {name: value or "" for name, value in attributes})
        self.open[-1].inner.append(node)
        if tag not in VOID:
            self.open.append(node)

    def handle_endtag(self, tag):
        assert self.open[-1].tag == tag, f"</{tag}> where {self.open[-1].tag} is open"
        self.open.pop()

    def handle_data(self, data):
        self.open[-1].inner.append(data)

    def handle_comment(self, data):
        raise AssertionError("the page has a comment")


def tree(text):
    """The tree of a page."""
    reader = _Reader()
    reader.feed(text)
    reader.close()
    assert reader.open == [reader.root], f"{reader.open[-1].tag} isn't closed"
    return reader.root
