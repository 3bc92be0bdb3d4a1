"""Callers of a running cluster (cluster.py). One file of Python's standard library, to be copied.

    with Caller("tickets.cluster", "hall") as hall:
        print(hall.call("buy", 2).prints)

Over Redis, for which engines.py, nodes.py and redis_engine.py are copied too, it is Caller("tickets", "hall", redis="HOST:PORT").

A caller speaks as one client that the cluster's text lists. It asks one call at a time, each with a number that rises, and sends it again
with the same number where the connection is lost or the node had no room: so each call is made once, whatever is killed meanwhile. Two
that are to ask side by side need a client each.
"""
import dataclasses
import json
import pathlib
import socket
import time

# The seconds before a request is sent again: where a node has no room, where nobody answers, and between two tries to connect.
NO_ROOM, NO_WORD, NO_CLUSTER = 0.02, 1.0, 0.05


class Failed(Exception):
    """A call that has no answer."""


class NotListed(Failed):
    """The text lists no such call for this client, or there is no such client. Nothing was made."""


class Malformed(Failed):
    """What was asked is no call. Nothing was made."""


class Late(Failed):
    """A request of this client with a greater number has come before: another caller speaks as this client, or the clock from which numbers
    come has gone back. This one is not made."""


class NoAnswer(Failed):
    """Nobody has answered in time. The call may have been made, or may still be: `again` waits for its answer."""


class NoCluster(Failed):
    """No cluster could be reached in time. Nothing was asked."""


class StillOpen(Failed):
    """The call before this one has no answer yet: `again` waits for it."""


ERRORS = {10: NotListed, 12: Malformed, 13: Late}


@dataclasses.dataclass
class Answer:
    """What a call printed, and where it stands: in a round, at a place of its site's own calls, or with no place where it closed the round.
    `body` has all that the node said."""

    prints: list
    round: int
    path: str
    place: int | None
    body: dict

    def is_local(self):
        """Whether the site made it alone."""
        return self.path == "local"


class Socket:
    """The way to a cluster on this machine. What fails is an `OSError`."""

    def __init__(self, folder):
        self.path, self.socket, self.rest = str(pathlib.Path(folder) / "socket"), None, b""

    def close(self):
        if self.socket:
            self.socket.close()
        self.socket, self.rest = None, b""

    def connect(self):
        if not self.socket:
            self.socket = socket.socket(socket.AF_UNIX)
            self.socket.settimeout(NO_WORD)
            self.socket.connect(self.path)

    def send(self, request):
        self.socket.sendall(json.dumps({"body": request}).encode() + b"\n")

    def heard(self, seconds):
        """The bodies of the answers that come next, none where there is none for some seconds."""
        self.socket.settimeout(seconds)
        try:
            piece = self.socket.recv(1 << 16)
        except TimeoutError:
            return []
        if not piece:
            raise ConnectionError("the cluster has ended")
        *lines, self.rest = (self.rest + piece).split(b"\n")
        return [json.loads(line)["body"] for line in lines]

    def lacks(self, fault):
        """Why nothing could be asked, in words."""
        return f"nobody answers at {self.path}"


class Streams:
    """The way to a cluster over an engine (engines.py), as Redis."""

    def __init__(self, engine, client):
        self.engine, self.client, self.site, self.after, self.refused = engine, client, None, None, []

    def close(self):
        self.after = None

    def connect(self):
        if self.after is None:
            self.site, self.after = self.engine.site_of(self.client), self.engine.last(self.client)

    def send(self, request):
        if self.site is None:
            self.refused = [{"type": "error", "in_reply_to": request["msg_id"], "code": 10, "text": "there is no such client"}]
            return
        line = {"src": f"client-{self.client}", "dest": f"n{self.site}", "body": request}
        self.engine.put(f"n{self.site}", json.dumps(line, separators=(",", ":")).encode())

    def heard(self, seconds):
        if self.site is None:
            return self.refused
        found = self.engine.answers(self.client, self.after, seconds)
        self.after = found[-1][0] if found else self.after
        return [json.loads(line)["body"] for _, line in found]

    def lacks(self, fault):
        return str(fault)


def way_to(cluster, client, redis):
    if not redis:
        return Socket(cluster)
    from redis_engine import RedisEngine

    return Streams(RedisEngine(redis, cluster), client)


class Caller:
    """A listed client of the cluster in a folder, or of the cluster of this name over Redis. A call is waited for `timeout` seconds; without a
    timeout for ever.

    `kept` names a file in which an open call is kept, so that a caller that is begun again knows of it: then `open` is this call, and
    `again` has its answer. `redis` is HOST:PORT, or a URL as redis-py has it, or @FILE, a file with one of these.
    """

    def __init__(self, cluster, client, timeout=30, kept=None, redis=None):
        self.way, self.client, self.timeout = way_to(cluster, client, redis), client, timeout
        self.kept, self.open, self.heard = kept and pathlib.Path(kept), None, []
        if self.kept and self.kept.exists():
            self.open = json.loads(self.kept.read_bytes())
        # (the number rises over callers that come one after another)
        self.number = max(time.time_ns() // 1_000, self.open["msg_id"] if self.open else 0)
        self.is_sent = self.open is not None

    def __enter__(self):
        return self

    def __exit__(self, *fault):
        self.close()

    def close(self):
        self.way.close()
        self.heard = []

    def call(self, transaction, *arguments, timeout=None):
        """The answer of a call, or `Failed`."""
        if self.open:
            raise StillOpen(f"{self.open['transaction']} of {self.client} has no answer yet")
        self.number, self.is_sent = max(self.number + 1, time.time_ns() // 1_000), False
        request = {"type": "call", "msg_id": self.number, "client": self.client, "transaction": transaction, "args": list(arguments)}
        self.set_open(request)
        return self.again(timeout)

    def again(self, timeout=None):
        """The answer of the call that is open, or `Failed`."""
        limit = self.timeout if timeout is None else timeout
        end = None if limit is None else time.monotonic() + limit
        body = self.answer(end)
        self.set_open(None)
        if body["type"] == "error":
            raise ERRORS.get(body.get("code"), Failed)(body.get("text", ""))
        return Answer(body["prints"], body["round"], body["path"], body.get("place"), body)

    def set_open(self, request):
        self.open = request
        if self.kept and request:
            new = self.kept.with_name(f"{self.kept.name}.new")
            new.write_text(json.dumps(request))
            new.replace(self.kept)
        elif self.kept:
            self.kept.unlink(missing_ok=True)

    def answer(self, end):
        """The body that answers the open call."""
        while True:
            try:
                self.way.connect()
                self.is_sent = True
                self.way.send(self.open)
                body = self.next_answer(end)
                if body and body.get("code") != 11:
                    return body
                self.wait(NO_ROOM if body else 0, end)
            except OSError as fault:
                self.close()
                # (where nobody lets this in, waiting won't help)
                self.wait(NO_CLUSTER, 0 if isinstance(fault, PermissionError) else end, fault)

    def next_answer(self, end):
        """The body of the next answer to the open call, None where there is none for a while."""
        until = time.monotonic() + NO_WORD
        while (left := min(until, end or until) - time.monotonic()) > 0:
            while self.heard:
                body = self.heard.pop(0)
                if body.get("in_reply_to") == self.open["msg_id"]:
                    return body
            self.heard = self.way.heard(left)
        return None

    def wait(self, seconds, end, fault=None):
        if end is not None and time.monotonic() + seconds >= end:
            if not self.is_sent:
                self.set_open(None)
                raise NoCluster(f"{self.way.lacks(fault)}; nothing was asked")
            raise NoAnswer(f"{self.open['transaction']} of {self.client} has no answer in time; it may still be made")
        time.sleep(seconds)
