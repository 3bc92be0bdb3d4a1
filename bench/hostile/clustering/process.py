"""A node as a process of its own: it is given lines, and says lines."""
import json
import os
import select
import subprocess

# The seconds within which a node says something.
PATIENCE = 30
# The id of whoever asks a node only to know that it has taken all lines before.
MARK = "mark"


class Ended(Exception):
    """The node has ended by itself, or says nothing: why."""


def written(source, dest, body):
    """A line of the wire."""
    return json.dumps({"src": source, "dest": dest, "body": body}, separators=(",", ":")).encode()


class Process:
    """The program that is a node, which reads the text first."""

    def __init__(self, program, text):
        pipes = {"stdin": subprocess.PIPE, "stdout": subprocess.PIPE, "stderr": subprocess.PIPE}
        self.started, self.marks, self.rest = subprocess.Popen([program], **pipes), 0, b""
        self.input, self.output = self.started.stdin.fileno(), self.started.stdout.fileno()
        os.set_blocking(self.input, False)
        self.given = text

    def give(self, lines):
        """Gives lines without waiting for what is said."""
        self.given += b"".join(line + b"\n" for line in lines)
        try:
            while self.given and select.select([], [self.input], [], 0)[1]:
                self.push()
        except OSError:
            pass

    def push(self):
        self.given = self.given[os.write(self.input, self.given[:65_536]) :]

    def ask(self, lines, what="status"):
        """Gives lines, and returns the lines that are said of them, and the answer to the question behind them."""
        self.marks += 1
        self.given += b"".join(line + b"\n" for line in [*lines, written(MARK, "", {"type": what, "msg_id": self.marks})])
        said = []
        while True:
            for line in self.heard():
                message = json.loads(line)
                if message["dest"] == MARK and message["body"].pop("in_reply_to", None) == self.marks:
                    return said, message["body"]
                said.append((message["dest"], message["body"], line))

    def heard(self):
        """The whole lines that come next."""
        readable, writable, _ = select.select([self.output], [self.input] if self.given else [], [], PATIENCE)
        try:
            if writable:
                self.push()
        except BrokenPipeError:
            self.ended()
        if not readable and not writable:
            raise Ended(f"says nothing for {PATIENCE} seconds")
        piece = os.read(self.output, 1 << 16) if readable else None
        if piece == b"":
            self.ended()
        *lines, self.rest = (self.rest + (piece or b"")).split(b"\n")
        return lines

    def ended(self):
        """Says how the node has ended."""
        complaint, status = self.started.stderr.read().decode("latin-1"), self.started.wait()
        self.close()
        raise Ended(f"ends with status {status}, {complaint!r}")

    def kill(self):
        """As by kill -9."""
        self.started.kill()
        self.started.wait()
        self.close()

    def close(self):
        for stream in (self.started.stdin, self.started.stdout, self.started.stderr):
            try:
                stream.close()
            except OSError:
                pass
