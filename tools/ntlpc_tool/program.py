"""How the tools find the program, run it over a script, and tell how it ended."""
import dataclasses
import os
import shutil
import signal
import subprocess

from ntlpc_tool import CHECKOUT, inputs

VARIABLE = "NTLPC"
BUILT = CHECKOUT / "crates" / "ntlpc" / "out" / "ntlpc"
INSTALLED = "ntlpc"
SECONDS = 60
# The status of a program that doesn't know the word that it is called with.
UNKNOWN_WORD = 64
# What the exit statuses of the program mean; the README has the same table.
ENDINGS = {
    0: "the script was read to its end, every line was well formed, and all was written",
    2: "a line is faulty, and the script stops there",
    3: "the input failed: what its whole lines tell is printed, without a last line",
    4: "the output failed",
    5: "memory ran out: what some first lines tell is printed, without a last line",
    UNKNOWN_WORD: "the program takes no word `replay`, or further words stood beside it",
}


@dataclasses.dataclass(frozen=True)
class Ran:
    """One run: the exit status (below 0: the signal that ended it), what was printed, and the standard error."""

    status: int
    printed: bytes
    said: bytes

    def ending(self):
        """How the run ended, in words."""
        if self.status < 0:
            return f"signal {-self.status} ({signal.strsignal(-self.status)}) ended the program"
        return ENDINGS.get(self.status, "a status that the program doesn't have")


def add_option(parser):
    """Adds the option that names the program."""
    others = f"that which {VARIABLE} names, the one built in this checkout, or `{INSTALLED}` on the path"
    parser.add_argument("--program", metavar="PATH", help=f"the program; where it isn't given, {others}")


def find(given=None):
    """The program: the one given, else that of the environment, of this checkout, or of the path."""
    for place, name in (("--program", given), (VARIABLE, os.environ.get(VARIABLE))):
        if name:
            return _runnable(place, name)
    found = shutil.which(str(BUILT)) or shutil.which(INSTALLED)
    if not found:
        raise inputs.Misuse(
            f"there is no program: --program and {VARIABLE} name none, {BUILT} isn't built "
            f"(`rt run` in crates/ntlpc leaves it there), and no `{INSTALLED}` is on the path"
        )
    return found


def is_there():
    """Whether there is a program without one being given."""
    try:
        return bool(find())
    except inputs.Misuse:
        return False


def _runnable(place, name):
    found = shutil.which(name)
    if not found:
        raise inputs.Misuse(f"{place} names {name}, which is no program that can be run")
    return os.path.abspath(found)


def replay(program, script, seconds=SECONDS, word="replay"):
    """Runs the program over a script, which another word has it do in another form."""
    try:
        ran = subprocess.run([program, word], input=script, capture_output=True, timeout=seconds)
    except subprocess.TimeoutExpired:
        raise inputs.Misuse(f"{program} did not end within {seconds} seconds") from None
    except OSError as error:
        raise inputs.Misuse(f"{program} can't be started: {error.strerror}") from None
    return Ran(ran.returncode, ran.stdout, ran.stderr)
