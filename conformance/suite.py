"""The scripts of the suite and their transcripts, and what its commands have in common."""
import fnmatch
import os
import pathlib
import subprocess
import sys

ROOT = pathlib.Path(__file__).resolve().parent
# The package of the companion tools: that of the checkout, or the one installed beside the suite.
sys.path[:0] = [str(it) for it in (ROOT.parent / "tools", ROOT.parent) if (it / "ntlpc_tool").is_dir()]
from ntlpc_tool import inputs
from ntlpc_tool.inputs import shown

USAGE_STATUS, INTERRUPTED = 64, 130


class Parser(inputs.Parser):
    """A parser that ends with status 64 where the words are wrong."""

    def error(self, message):
        self.print_usage(sys.stderr)
        self.exit(USAGE_STATUS, f"{self.prog}: {message}\n")


def end(name, main):
    """Runs a command of the suite, and ends with its status: 1 where its output or a file can't be written."""
    if sys.stdout is None:
        sys.exit(f"{name}: the standard output is closed")
    sys.stdout.reconfigure(errors="backslashreplace")
    try:
        try:
            status = main()
        except SystemExit as ended:
            # Of the parser, which has printed its help, or told what is wrong with the words.
            status = ended.code
        sys.stdout.flush()
    except KeyboardInterrupt:
        status = INTERRUPTED
    except Stopped as error:
        print(f"{name}: {error}", file=sys.stderr)
        status = 1
    except OSError as error:
        # Nothing more can be written, also not what Python has kept until it ends. A reader that has gone, as head
        # does, has enough of it.
        os.dup2(os.open(os.devnull, os.O_WRONLY), sys.stdout.fileno())
        if not isinstance(error, BrokenPipeError):
            what = error.filename or "the output"
            print(f"{name}: {what} can't be written: {error.strerror}", file=sys.stderr)
        status = 1
    sys.exit(status)


class Stopped(Exception):
    """Why a command of the suite can't go on."""


class Broken(Stopped):
    """A case of the suite that has no script or no transcript."""

    def __init__(self, what):
        super().__init__(f"the suite is broken: {what}")


class Case:
    """A script with the transcript that is wanted for it; `path` is its place below conformance/ without an ending."""

    def __init__(self, path, root=ROOT):
        self.path = path
        self.root = root

    def script(self):
        """The bytes of the script."""
        return self._part("script")

    def transcript(self):
        """The bytes that a program has to print for it."""
        return self._part("transcript")

    def _part(self, name):
        file = self.root / f"{self.path}.{name}"
        if file.is_file():
            return file.read_bytes()
        generator = self.root / f"{self.path}.generate"
        if not generator.is_file():
            raise Broken(f"there is neither {file.name} nor {generator.name}")
        ran = subprocess.run([sys.executable, generator, name], stdin=subprocess.DEVNULL, capture_output=True)
        if ran.returncode:
            raise Broken(f"{generator.name} {name} ended with status {ran.returncode}: {shown(ran.stderr[-300:])}")
        return ran.stdout


def cases(root=ROOT):
    """Every case below a folder, in the order of their paths."""
    found = set()
    for ending in ("script", "transcript", "generate"):
        found |= {file.relative_to(root).with_suffix("").as_posix() for file in root.rglob(f"*.{ending}")}
    return [Case(path, root) for path in sorted(found)]


def chosen(patterns=None):
    """The cases whose path fits one of the patterns of the shell; all where there is none."""
    return [it for it in cases() if any(fnmatch.fnmatchcase(it.path, pattern) for pattern in patterns or ["*"])]


def comments(script):
    """The comment lines at the front of a script, each without its `#`."""
    found = []
    for line in script.split(b"\n"):
        if not line.startswith(b"#"):
            break
        found.append(shown(line[1:]).strip())
    return found


def about(script):
    """What a script says of itself in its first comments: what it tests, and where the rules of that stand."""
    found = comments(script)
    places = [it.removeprefix("Rule:").strip() for it in found if it.startswith("Rule:")]
    return [f"tests: {it}" for it in found[:1]] + [f"see: {it}" for it in places]
