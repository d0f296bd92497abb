"""How a run of a program over a script ended, and what is wrong with that."""


class Ending:
    """A run that ended: `status` is the exit status (below 0: the signal), `late` whether it took too long and `talks`
    whether it printed far more than is wanted, and so was ended."""

    late = talks = False
    status = None

    def broke_down(self):
        """Whether the program did not come to its end by itself, so that what it printed last is chance."""
        return self.late or self.talks or self.status < 0

    def wrong(self, status, timeout):
        """What is wrong with how it ended, where a status is wanted within a time; nothing where it is right."""
        if self.late:
            return f"it did not end within {timeout:g} seconds"
        if self.talks:
            return "it printed more and more, and was ended"
        if self.status == status:
            return ""
        return f"it ended with {self.status_in_words()}, status {status} is wanted"

    def status_in_words(self):
        return f"status {self.status}" if self.status >= 0 else f"signal {-self.status}"
