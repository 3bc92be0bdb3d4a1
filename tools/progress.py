"""How far a script is, on a terminal, where it takes longer than a second."""
import sys
import time

# The seconds before the first word, and those between two.
FIRST, PAUSE = 1, 0.5


class Progress:
    """A line on standard error that is written over, where that is a terminal, and removed in the end."""

    def __init__(self, what, whole):
        self.what, self.whole, self.next, self.is_shown = what, whole, time.monotonic() + FIRST, False

    def __call__(self, done):
        if time.monotonic() >= self.next and sys.stderr.isatty():
            self.next, self.is_shown = time.monotonic() + PAUSE, True
            print(f"\r{self.what} {done:,} of {self.whole:,}", end="", file=sys.stderr, flush=True)

    def __enter__(self):
        return self

    def __exit__(self, *fault):
        if self.is_shown:
            print("\r\x1b[K", end="", file=sys.stderr, flush=True)
