"""Runs a program that may do anything: print without an end, end at once, go on for ever, or not start."""
import contextlib
import os
import resource
import signal
import subprocess
import threading

SECONDS = 60
# More bytes than any run prints that is right.
MUCH = 1 << 28


class Wrong(Exception):
    """What a check found."""


class Reader(threading.Thread):
    """Reads what a child writes to a pipe to its end, or ends the child where that is far more than is wanted."""

    def __init__(self, child, pipe, most):
        super().__init__()
        self.child, self.pipe, self.most, self.text = child, pipe, most, b""
        self.start()

    def run(self):
        self.text = self.pipe.read(self.most + 1)
        if len(self.text) > self.most:
            end(self.child)

    def whole(self):
        """What was read."""
        self.join()
        if len(self.text) > self.most:
            raise Wrong("it printed more and more, and was ended")
        return self.text


def send(pipe, text):
    """Writes a text to a child, which takes none of it where it has ended."""
    with contextlib.suppress(BrokenPipeError):
        pipe.write(text)
        pipe.flush()


def shut(pipe):
    """Closes the input of a child, which may have ended."""
    with contextlib.suppress(BrokenPipeError):
        pipe.close()


def end(child):
    """Ends a child that has a session of its own, and what it started."""
    with contextlib.suppress(ProcessLookupError):
        os.killpg(child.pid, signal.SIGKILL)


def bound_files(child):
    """Lets a child write no more into a file than any run prints that is right, so that one that goes on and on fills
    no disk. Where the system can't bound another process, it isn't bound."""
    with contextlib.suppress(AttributeError, OSError, ValueError):
        resource.prlimit(child.pid, resource.RLIMIT_FSIZE, (MUCH, MUCH))


def run(command, source=b"", sink=subprocess.PIPE, most=None, env=None):
    """Runs a command: its status (below 0: the signal that ended it), what it printed into a pipe, and its standard
    error. `source` is bytes, or what has a file number; `most` is how much it may print, MUCH where it is None. Fails
    where it doesn't start or end, or prints too much."""
    most = MUCH if most is None else most
    given = subprocess.PIPE if isinstance(source, bytes) else source
    how = {"stdin": given, "stdout": sink, "stderr": subprocess.PIPE, "env": env, "start_new_session": True}
    late = threading.Event()
    try:
        child = subprocess.Popen(command, **how)
    except OSError as error:
        raise Wrong(f"it could not be started: {error.strerror}") from None
    with child:
        bound_files(child)
        watch = threading.Timer(SECONDS, lambda: (late.set(), end(child)))
        watch.start()
        try:
            said, printed = (it and Reader(child, it, most) for it in (child.stderr, child.stdout))
            if child.stdin:
                send(child.stdin, source)
                shut(child.stdin)
            texts = [it.whole() if it else b"" for it in (printed, said)]
            child.wait()
        finally:
            watch.cancel()
            end(child)
    if late.is_set():
        raise Wrong(f"it did not end within {SECONDS} seconds")
    return child.returncode, *texts


def found(check, *given):
    """What a check found wrong. What goes wrong in a check over what a program printed is wrong with the program."""
    try:
        check(*given)
        return []
    except Wrong as why:
        return [str(why)]
    except (ArithmeticError, AttributeError, LookupError, OSError, TypeError, ValueError) as why:
        return [f"{type(why).__name__}: {why}"]
