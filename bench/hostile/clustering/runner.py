"""A runner of a node: it keeps what the node has to be begun again with, and lets nothing out before what made the node say it is kept.

There are two ways. By a **log**: a line stands in it before it is given; a node that is begun again is given its last snapshot and the
lines since, and says once more what it said of them. By **snapshots**: lines are given, the node's snapshot is kept, and then what it said
of them is let out; what was given and not kept counts as never come.

A fault can be planted, which the judge has to find: FAULTS says which there are.
"""
from clustering.process import Ended, Process, written

# What a runner may do wrong, and what has to be found of it.
FAULTS = {
    "left": "snapshots lose the states of the round that the node left last, so that one behind may never get them",
    "answered": "snapshots lose the last answers, so that a request that comes again is made again",
    "tail": "the log loses its last lines though what was said of them was let out",
}
# The lines of a log that stand before the next snapshot, and how many are given at once to a node that is begun again.
MOST_KEPT, AT_ONCE = 40, 20
# The lines that a log loses by the fault `tail`.
LOST = 3


class Runner:
    """One node of a cluster: `site` and the ids of all nodes, whether snapshots are its way, and the fault that it has."""

    def __init__(self, program, text, ids, site, by_snapshots, fault=None):
        self.program, self.text, self.ids, self.site, self.by_snapshots, self.fault = program, text, ids, site, by_snapshots, fault
        self.state, self.log, self.process, self.status, self.out = None, [], None, None, []

    def is_up(self):
        return self.process is not None

    def id(self):
        return self.ids[self.site]

    def init(self):
        body = {"type": "init", "format": 1, "msg_id": 0, "node_id": self.id(), "node_ids": self.ids}
        return written("runner", self.id(), body | ({"state": self.state} if self.state else {}))

    def start(self):
        """Begins the node with what is kept, and returns what it says of that."""
        self.process = Process(self.program, self.text)
        said, self.status = self.process.ask([self.init()])
        if [body["type"] for _, body, _ in said] != ["init_ok"]:
            raise Ended(f"says {said} of the state {self.state}")
        said = []
        for at in range(0, len(self.log), AT_ONCE):
            more, self.status = self.process.ask(self.log[at : at + AT_ONCE])
            said += more
        return said

    def spoilt(self, state):
        """A snapshot as a runner keeps it, with what its fault makes of it."""
        if self.fault == "left":
            return state | {"left": None}
        return state | {"answered": []} if self.fault == "answered" else state

    def snapshot(self, lines):
        said, answer = self.process.ask(lines, "snapshot")
        self.state = self.spoilt(answer["state"])
        return said

    def take(self, lines):
        """Gives the node lines, and returns what may be let out."""
        if self.by_snapshots:
            return self.snapshot(lines)
        self.log += lines
        said, self.status = self.process.ask(lines)
        if len(self.log) > MOST_KEPT:
            self.snapshot([])
            self.log = []
        return said

    def tick(self):
        """What a tick gives: it changes nothing, so it is kept nowhere."""
        said, self.status = self.process.ask([written("runner", self.id(), {"type": "tick"})])
        return said

    def hold(self, lines):
        """Lines that come while the node is down: a log may have them."""
        if not self.by_snapshots:
            self.log += lines

    def kill(self):
        self.process.kill()
        self.process = None
        if self.fault == "tail":
            self.log = self.log[:-LOST]

    def kill_within(self, lines, is_kept):
        """Kills the node at some time after it was given lines. Where snapshots are the way, it may be just behind the snapshot."""
        if not self.by_snapshots:
            self.log += lines
            self.process.give(lines)
        elif is_kept:
            self.snapshot(lines)
        else:
            self.process.give(lines)
        self.kill()
