"""How far a build is, on a terminal: one line of standard error, which is written anew each second. Elsewhere nothing is written."""
import os
import sys
import threading
import time

# The seconds that a build takes where none is known.
USUAL = 150


def is_shown():
    return sys.stderr.isatty() and os.environ.get("TERM", "dumb") != "dumb"


def clear():
    """What takes the line away, in front of what is written instead."""
    return "\r\x1b[K" if is_shown() else ""


def clock(seconds):
    return f"{int(seconds) // 60}:{int(seconds) % 60:02}"


class Line:
    """Tells the time and what is done now, part by part, as long as it is open. `took` is a file with the seconds that it took before."""

    def __init__(self, doing, took=None):
        self.began, self.took, self.parts, self.is_over = time.monotonic(), took, {"": doing}, threading.Event()

    def usual(self):
        try:
            return float(self.took.read_text())
        except (OSError, ValueError):
            return USUAL

    def __enter__(self):
        self.clock = threading.Thread(target=self.tick, daemon=True)
        if is_shown():
            self.clock.start()
        return self

    def __exit__(self, fault, *_):
        self.is_over.set()
        if self.clock.is_alive():
            self.clock.join()
        if self.took and not fault:
            self.took.write_text(f"{time.monotonic() - self.began:.0f}\n")

    def tell(self, part, doing):
        self.parts = {**{name: it for name, it in self.parts.items() if name}, part: doing}

    def text(self):
        gone, of = time.monotonic() - self.began, ""
        if self.took:
            of = f" of some {clock(self.usual())}" if gone < self.usual() else f", which is longer than the {clock(self.usual())} that it takes as a rule"
        doing = "; ".join(f"{part}: {it}" if len(self.parts) > 1 else it for part, it in self.parts.items())
        return f"homeo: {clock(gone)}{of}: {doing}"

    def tick(self):
        while not self.is_over.wait(1):
            columns = os.get_terminal_size(sys.stderr.fileno()).columns or 80
            sys.stderr.write(f"{clear()}{self.text()[: columns - 1]}")
            sys.stderr.flush()
        sys.stderr.write(clear())
        sys.stderr.flush()
