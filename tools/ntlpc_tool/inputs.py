"""How the tools read their words and files, and how they show bytes that may be anything."""
import argparse
import sys


class Misuse(Exception):
    """Why a tool can't do what it was asked for: its words are wrong, or what it has to read can't be read."""


class Parser(argparse.ArgumentParser):
    """A parser whose help isn't lost without a word where it can't be written."""

    def _print_message(self, message, file=None):
        if file is sys.stdout:
            file.write(message)
        else:
            super()._print_message(message, file)


def read(path):
    """The bytes of a file; `-` is standard input."""
    try:
        if path == "-":
            if sys.stdin is None:
                raise Misuse("the standard input is closed")
            return sys.stdin.buffer.read()
        with open(path, "rb") as file:
            return file.read()
    except (OSError, ValueError) as error:
        raise Misuse(f"{name_of(path)} can't be read: {getattr(error, 'strerror', None) or error}") from None


def name_of(path):
    """How a file is named in a message."""
    return "the standard input" if path == "-" else path


def lines_of(data):
    """The lines of a script or a transcript, without the bytes 10 that end them. A rest that is empty is no line."""
    lines = data.split(b"\n")
    if not lines[-1]:
        lines.pop()
    return lines


def shown(line):
    """Bytes as text that can be printed, whatever they are."""
    text = line.decode("utf-8", "backslashreplace")
    return "".join(it if it.isprintable() else repr(it)[1:-1] for it in text)


def cut(text, most=700):
    """A text with its middle left out where it is long."""
    tail = min(90, most // 3)
    return text if len(text) <= most else f"{text[: most - tail - 10]} .. {text[-tail:]}"
