"""What each runner of nodes needs: what a text says of its sites, the program that is a node, its process and its first line."""
import json
import os
import pathlib
import re
import select
import subprocess
import time

ROOT = pathlib.Path(__file__).resolve().parents[2]
# The seconds within which a node says something. One that ends within SHORT seconds has failed; so many failures one after another are too
# many, and behind each of them a pause is so many seconds longer.
PATIENCE, SHORT, MOST_FAILURES, PAUSE = 30, 1.0, 10, 0.05


class Unable(Exception):
    """The cluster can't go on: why."""


class Text:
    """A text: its bytes, the ids of its nodes, the place of each being its site, and its clients with their sites."""

    def __init__(self, text):
        words = text.decode("ascii", "replace")
        self.bytes = text
        self.ids = [f"n{number}" for number in range(int((re.search(r"\bsites\s+(\d+)", words) or [0, 0])[1]))]
        self.clients = {name: int(site) for name, site in re.findall(r"\bclient\s+(\w+)\s+at\s+(\d+)", words)}

    def clients_at(self, sites):
        """The clients of some sites, in words."""
        return ", ".join(f"{name} at {site}" for name, site in self.clients.items() if site in sites)


def line_of(source, dest, body):
    return json.dumps({"src": source, "dest": dest, "body": body}, separators=(",", ":")).encode()


def init_line(node, ids, state):
    """The first line of a node, which goes on from a snapshot's state where there is one."""
    body = {"type": "init", "format": 1, "msg_id": 0, "node_id": node, "node_ids": ids}
    return line_of("runner", node, body | ({"state": state} if state else {}))


def body_of(line):
    """The body of a line, empty where it has none."""
    try:
        body = json.loads(line)["body"]
        return body if isinstance(body, dict) else {}
    except (ValueError, KeyError, TypeError, RecursionError):
        return {}


def node_program():
    """The program of a node: $NODE, or that of this repository, which is built first where it isn't there."""
    if given := os.environ.get("NODE"):
        return given
    built = subprocess.run([ROOT / "node"], stdin=subprocess.DEVNULL, stdout=subprocess.DEVNULL, stderr=subprocess.PIPE, check=False)
    if built.returncode == 125:
        raise Unable(built.stderr.decode().strip())
    return str(ROOT / ".build" / "node")


def check_text(node, path, text):
    """`Unable` where the text is refused: a node that begins with it ends with status 2."""
    said_of(node, path, text, [])


def objects_of(node, path, text):
    """The names of a text's objects, as a node tells them, or `Unable` where the text is refused."""
    told = said_of(node, path, text, [init_line("n0", text.ids, None), line_of("runner", "n0", {"type": "status", "msg_id": 1})])
    return list(json.loads(told.splitlines()[-1])["body"]["base"])


def said_of(node, path, text, lines):
    ran = subprocess.run([node], input=text.bytes + b"".join(line + b"\n" for line in lines), capture_output=True, check=False)
    if ran.returncode:
        raise Unable(f"{path}: {ran.stderr.decode().strip()} (./why {path} says more)")
    return ran.stdout


class Ended(Exception):
    """A node has ended by itself, or says nothing: how."""


class Restarts:
    """How often a node was begun again."""

    def __init__(self, name):
        self.name, self.count, self.failures, self.since = name, 0, 0, 0

    def begin(self):
        self.since = time.monotonic()

    def again(self, how):
        """The seconds until a node that has ended is begun again, or `Unable` where it ends again and again."""
        self.failures = self.failures + 1 if time.monotonic() < self.since + SHORT else 0
        if self.failures > MOST_FAILURES:
            raise Unable(f"{self.name} {how}; what it says of that stands above")
        self.count += 1
        return PAUSE * self.failures


class Node:
    """A node's process, which is given lines and asked for its snapshot behind them."""

    def __init__(self, program, text, node, state):
        self.process, self.asked, self.rest = subprocess.Popen([program], stdin=subprocess.PIPE, stdout=subprocess.PIPE), 0, b""
        self.input, self.output = self.process.stdin.fileno(), self.process.stdout.fileno()
        os.set_blocking(self.input, False)
        self.given = text.bytes + init_line(node, text.ids, state) + b"\n"

    def __enter__(self):
        return self

    def __exit__(self, *fault):
        self.process.kill()
        self.process.wait()
        self.process.stdin.close()
        self.process.stdout.close()

    def ask(self, lines):
        """What the node says of some lines, as triples of who it is for, its body and the line, and the state that it then has."""
        self.asked += 1
        self.given += b"".join(line + b"\n" for line in [*lines, line_of("runner", "", {"type": "snapshot", "msg_id": self.asked})])
        said = []
        while True:
            for line in self.heard():
                message = json.loads(line)
                dest, body = message["dest"] or "", message["body"]
                if dest == "runner" and body["type"] == "error":
                    raise Unable(f"a node says: {body['text']}")
                if dest == "runner" and body["type"] == "snapshot_ok" and body["in_reply_to"] == self.asked:
                    return said, body["state"]
                said.append((dest, body, line))

    def heard(self):
        """The whole lines that come next, while what is given is written."""
        readable, writable, _ = select.select([self.output], [self.input] if self.given else [], [], PATIENCE)
        if not readable and not writable:
            raise Ended(f"says nothing for {PATIENCE} seconds")
        if writable:
            self.write()
        piece = os.read(self.output, 1 << 16) if readable else None
        if piece == b"":
            raise Ended(f"ends with status {self.process.wait()}")
        *lines, self.rest = (self.rest + (piece or b"")).split(b"\n")
        return lines

    def write(self):
        try:
            self.given = self.given[os.write(self.input, self.given[: 1 << 16]) :]
        except BrokenPipeError:
            self.given = b""  # (it has ended, and its output says so)
