"""From a program that goes on: a store's calls made batch by batch in one `serve` session, each answered before the next is sent."""
import contextlib
import re
import subprocess
import tempfile
import threading

import homeo

# How many bytes a session takes, and a batch.
MOST_BYTES, MOST_OF_BATCH = 67_108_864, 1_048_576
# The seconds that a program has to end by itself.
PATIENCE = 5


@contextlib.contextmanager
def limited(seconds, late):
    """Calls `late` where what is done here takes longer; never, where there is no limit."""
    clock = threading.Timer(seconds, late) if seconds else None
    if clock:
        clock.daemon = True
        clock.start()
    try:
        yield
    finally:
        if clock:
            clock.cancel()


class Session:
    """`run` makes a batch of calls and keeps in the store what they leave, so that the store has the database of the last whole answer.
    A new session begins by itself from there, before this one has taken as many bytes as it may, and where its program has ended."""

    def __init__(self, store, timeout=60):
        """No answer may take more seconds than `timeout`; where it is None, it may take any time. `batch` is the number of the last batch."""
        self.store, self.timeout, self.batch, self.sessions, self.program = store, timeout, 0, 0, None
        self.begin()

    def __enter__(self):
        return self

    def __exit__(self, *fault):
        self.end()

    def begin(self):
        """Begins a session, and puts back what is kept."""
        self.head, first = self.store.begin()
        self.sent, self.is_late, self.complaints = 0, False, tempfile.TemporaryFile()
        try:
            how = {"stdin": subprocess.PIPE, "stdout": subprocess.PIPE, "stderr": self.complaints}
            self.program = subprocess.Popen([homeo.program(), "serve"], **how)
        except OSError as fault:
            self.complaints.close()
            raise homeo.Fault(f"the program can't be run: {fault}") from None
        self.sessions += 1
        try:
            for place, batch in enumerate(first or [homeo.batch_of({}, [])]):
                self.answer(batch, f"session {self.sessions}", "" if place else f"{self.head}end\n")
        except homeo.Refused:
            self.end()
            raise

    def end(self):
        """Ends the session, and returns the program's status and complaint."""
        ended, self.program = self.program, None
        if ended:
            with limited(PATIENCE, ended.kill), contextlib.suppress(OSError):
                ended.communicate()
            self.complaints.seek(0)
            with self.complaints:
                return ended.wait(), self.complaints.read().decode(errors="replace")

    def be_late(self):
        self.is_late = True
        self.program.kill()

    def answer(self, batch, name, before=""):
        """The report with which the program answers a batch. Where there is no whole one, the session is ended: what came next would be
        the rest of this one."""
        try:
            with limited(self.timeout, self.be_late):
                found = self.exchange(f"{before}{batch}".encode())
            if found is None:
                raise self.fault(name)
            return homeo.answered(self.head + batch, found)
        except homeo.Refused:
            raise
        except BaseException:
            if self.program:
                self.program.kill()
            self.end()
            raise

    def exchange(self, sent):
        """What the program writes of what is sent, up to the last line of an answer; None where it ends before that."""
        self.sent += len(sent)
        with contextlib.suppress(BrokenPipeError):
            self.program.stdin.write(sent)
            self.program.stdin.flush()
        lines = [b""]
        while not re.fullmatch(homeo.LAST_LINE.encode(), lines[-1]):
            lines.append(self.program.stdout.readline())
            if not lines[-1].endswith(b"\n"):
                return None
        return b"".join(lines).decode()

    def fault(self, name):
        """Why there was no whole answer."""
        status, complaint = self.end()
        if self.is_late:
            return homeo.TimedOut(f"{name}: no answer in {self.timeout} seconds")
        if refused := re.fullmatch(r"refused (E\d+) at (\d+)\n", complaint):
            return homeo.Refused(refused[1], f"{self.head}end\n", int(refused[2]))
        return homeo.Ended(status, complaint, f"{name} was not answered")

    def run(self, calls):
        """Makes these calls, pairs of a client and a call, in this order, and returns their report. After a fault the store is as it was before
        them, and the next calls are made from there."""
        batch = homeo.batch_of(self.store.clients, calls)
        if len(batch) > MOST_OF_BATCH:
            raise homeo.Refused("E2", batch, MOST_OF_BATCH)
        if not self.program or self.program.poll() is not None or self.sent + len(batch) > MOST_BYTES:
            self.end()
            self.begin()
        self.batch += 1
        found = self.store.keep(self.answer(batch, f"batch {self.batch}"))
        found.batch = self.batch
        return found
