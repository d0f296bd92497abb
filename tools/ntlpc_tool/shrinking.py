"""How a script over which two programs differ is made short: lines are left out as long as the programs still differ.

A line that is left out may have given a handle or an identifier, so that what stands behind it names something else.
So each candidate is tried with the names that its lines give now, and then as it stands.
"""
import time

from ntlpc_tool import needs, own_names, program, transcript

# How often the names of one candidate are put right, and how often the tested program is run in all.
MOST_FITS, MOST_RUNS = 6, 3_000


class Shrinking:
    """Shrinks the lines of a script: `oracle` is the program ntlpc, `differs` tells for a script and its right
    transcript whether the tested program differs, and `until` is the time (time.monotonic) at which to end."""

    def __init__(self, oracle, differs, until):
        self.oracle, self.differs, self.until = oracle, differs, until
        self.runs, self.best = 0, []
        self.named, self.names = None, None

    def shortest(self, lines, told=lambda count, runs: None):
        """The fewest lines that were found; where there was time enough, none of them can be left out alone. `told` is
        called with how many are left, and how often the program was run."""
        self.best = lines
        chunk = max(1, len(lines) // 2)
        while self.best and not self.ended():
            before = len(self.best)
            self._drop(chunk, told)
            # A line that can't go alone may go once another one has gone.
            if chunk == 1 and len(self.best) == before:
                break
            chunk = max(1, chunk // 2)
        return self.best

    def ended(self):
        """Whether the time or the runs are used up."""
        return self.runs >= MOST_RUNS or time.monotonic() > self.until

    def _drop(self, chunk, told):
        """Leaves out as many chunks as can be left out, from the last one on."""
        end = len(self.best)
        while end > 0 and not self.ended():
            begin = max(0, end - chunk)
            shorter = self._still_differing(self.best, begin, end)
            if shorter is not None:
                self.best = shorter
                told(len(shorter), self.runs)
            end = begin

    def _still_differing(self, lines, begin, end):
        """The lines without some of them, where the programs still differ over them; else None."""
        plain = [*lines[:begin], *lines[end:]]
        for candidate in (self._fitted(lines, begin, end), plain):
            if candidate is not None and self._fails(candidate):
                return candidate
            if candidate == plain:
                break
        return None

    def _fails(self, lines):
        script = script_of(lines)
        wanted = self._right(script)
        if wanted is None:
            return False
        self.runs += 1
        return self.differs(script, wanted)

    def _right(self, script):
        """What ntlpc prints for a script; None where that stops at a faulty line."""
        ran = program.replay(self.oracle, script)
        return ran.printed if ran.status == 0 and needs.stop_of(ran.printed) is None else None

    def _fitted(self, lines, begin, end):
        """The lines without some of them, with the names that those left give; None where these don't settle."""
        if self.named is not lines:
            wanted = self._right(script_of(lines))
            self.named, self.names = lines, wanted and own_names.Names(script_of(lines), transcript.read(wanted))
        if not self.names:
            return None
        now = blanked(lines, begin, end)
        for _ in range(MOST_FITS):
            printed = self._right(script_of(now))
            if printed is None:
                return None
            given = self.names.of_got(transcript.read(printed)).split(b"\n")[: len(lines)]
            before, now = now, blanked(given, begin, end)
            if before == now:
                return [it for at, it in enumerate(now) if not begin <= at < end]
        return None


def blanked(lines, begin, end):
    """Lines with nothing in the place of some of them."""
    return [*lines[:begin], *([b""] * (end - begin)), *lines[end:]]


def script_of(lines):
    """Lines as a script."""
    return b"".join(it + b"\n" for it in lines)
