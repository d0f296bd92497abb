"""What the companion tools of ntlpc share, and below `words` the tools themselves.

A module is imported by its own name, as in `from ntlpc_tool import transcript`. None needs more than Python 3.9.
"""
import pathlib

FOLDER = pathlib.Path(__file__).resolve().parent
# The checkout has the package at tools/ntlpc_tool. Installed, it stands beside what the checkout has at its root.
CHECKOUT = FOLDER.parent.parent


def _version():
    for folder in (FOLDER.parent, CHECKOUT):
        file = folder / "VERSION"
        if file.is_file():
            return file.read_text(encoding="ascii").strip()
    return "unknown"


VERSION = _version()
