"""The companion tools of ntlpc, which reads scripts of local procedure calls and prints transcripts.

Exit status: 0 where all is well, 1 where a difference or a fault was found, 2 where the words of this call are wrong or
something can't be read or written; 141 where whoever reads the output has gone, as a shell shows it for other commands.
"""
import argparse
import importlib
import os
import pkgutil
import sys

import ntlpc_tool
from ntlpc_tool import inputs, words

FINE, FOUND, MISUSE, INTERRUPTED, READER_GONE = 0, 1, 2, 130, 141


def all_words():
    """The module of each word, by the word."""
    found = (importlib.import_module(f"{words.__name__}.{it.name}") for it in pkgutil.iter_modules(words.__path__))
    return {module.NAME: module for module in found}


def parser_of(modules):
    """The parser of all words."""
    how = {"formatter_class": lambda prog: argparse.RawDescriptionHelpFormatter(prog, max_help_position=16, width=120)}
    parser = inputs.Parser(prog="ntlpc-tool", description=__doc__, **how)
    parser.add_argument("--version", action="version", version=f"ntlpc-tool {ntlpc_tool.VERSION}")
    group = parser.add_subparsers(dest="word", metavar="WORD", required=True, title="words")
    for name, module in sorted(modules.items()):
        about = module.__doc__.strip()
        module.add_arguments(group.add_parser(name, help=about.splitlines()[0], description=about, **how))
    return parser


def main(given):
    """Runs a word, and returns the exit status."""
    if sys.stdout is None:
        print("ntlpc-tool: the standard output is closed", file=sys.stderr)
        return MISUSE
    modules = all_words()
    sys.stdout.reconfigure(errors="backslashreplace")
    try:
        try:
            status = _run(modules, given)
        except SystemExit as ended:
            # Of the parser, which has printed its help or the version, or told what is wrong with the words.
            status = ended.code
        sys.stdout.flush()
        return status
    except KeyboardInterrupt:
        return INTERRUPTED
    except OSError as error:
        # Nothing more can be written, also not what Python has kept until it ends.
        os.dup2(os.open(os.devnull, os.O_WRONLY), sys.stdout.fileno())
        if isinstance(error, BrokenPipeError):
            return READER_GONE
        print(f"ntlpc-tool: the output can't be written: {error.strerror}", file=sys.stderr)
        return MISUSE


def _run(modules, given):
    arguments = parser_of(modules).parse_args(given)
    try:
        return modules[arguments.word].run(arguments)
    except inputs.Misuse as wrong:
        print(f"ntlpc-tool {arguments.word}: {wrong}", file=sys.stderr)
        return MISUSE
