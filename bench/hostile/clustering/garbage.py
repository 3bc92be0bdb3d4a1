"""Lines that nobody sent: no node dies of one, and where a node says that a line is none of its own, nothing has changed.

A short run of a cluster gives real lines. These are then cut, turned, and filled with other values, and given to the nodes. A packet that
came out as one that a node could have sent is taken as such; what is asked of a node then is that it lives, and can be begun again with
its own snapshot.
"""
import collections
import copy
import json
import random
import re

from clustering.process import Ended, Process, written
from clustering.run import Run
from judging.report import Illegal

# How often a node is begun again with its snapshot: once in so many lines; and then with how many that are wrong.
AGAIN, WRONG = 40, 4
# How often something that is real happens meanwhile, and the lines that are kept.
REAL, MOST_LINES = 0.5, 40
MALFORMED = 12
VALUES = [None, True, False, "", "x", "n0", "n1", "nobody", -1, 0, 1, 2, 63, 64, 65, 2**31, 2**32, 2**53 - 1, 2**53, 2**63, 2**64, 10**30, -(2**63)]
VALUES += [1.5, 1e300, [], {}, [[]], [0], [0, 0, 0], [None], {"deltas": [0]}, "local", "init", "\u00e9", "a" * 5_000, 10**13, -(10**13), 10**13 + 1]
TYPES = ["init", "call", "want", "stop", "state", "left", "tick", "snapshot", "status", "call_ok", "error", "none"]
RAW = [b"", b" ", b"\r", b"{", b"}", b"[]", b"{}", b"null", b"0", b'""', b"\xff\xfe", b"\x00", b"[" * 3_000, b'{"body":' * 300 + b"1" + b"}" * 300]


class Recorded(Run):
    """A run that keeps the lines that its nodes were given last, and checks nothing of what they say: they were given others too."""

    def __init__(self, *given):
        super().__init__(*given)
        self.habits.kills = 0
        self.lines = [written(None, it.id(), {"type": kind, "msg_id": 1}) for it in self.runners for kind in ("tick", "snapshot", "status")]
        self.lines += [it.init() for it in self.runners]

    def bring(self, runner, lines):
        self.lines = (self.lines + lines)[-MOST_LINES:]
        super().bring(runner, lines)

    def let_out(self, source, said):
        super().let_out(source, [it for it in said if it[0] in self.at or it[0] in self.callers])

    def hear(self, caller, body):
        caller.open = None

    def look(self, runner):
        pass


def places_in(value, path=()):
    """The paths to all parts of a JSON value."""
    yield path
    parts = value.items() if isinstance(value, dict) else enumerate(value) if isinstance(value, list) else []
    for key, part in parts:
        yield from places_in(part, (*path, key))


class Garbage:
    """Makes lines that nobody sent out of some that were sent, and of what a node is."""

    def __init__(self, made, chosen):
        self.lines, self.clients, self.sites, self.random = [], made.clients, made.sites, chosen
        self.runner, self.state = None, None

    def line(self):
        ways = [(self.raw, 1), (self.cut, 3), (self.turned, 3), (self.filled, 8), (self.other_type, 2), (self.again, 1), (self.packet, 6)]
        made = self.random.choices([it for it, _ in ways], [weight for _, weight in ways])[0]()
        return made.replace(b"\n", b" ")

    def one(self):
        return self.random.choice(self.lines)

    def raw(self):
        return b"x" * 20_000_000 if self.random.random() < 0.004 else self.random.choice(RAW)

    def cut(self):
        line = self.one()
        at, to = sorted(self.random.randrange(len(line) + 1) for _ in range(2))
        return self.random.choice([line[:at], line[at:], line[:at] + line[to:], line[:to] + line[at:]])

    def turned(self):
        line = bytearray(self.one())
        for _ in range(self.random.randint(1, 3)):
            line[self.random.randrange(len(line))] = self.random.randrange(256)
        return bytes(line)

    def again(self):
        return self.one()

    def filled(self):
        """A line with other values at one place or two."""
        made = json.loads(self.one())
        for _ in range(self.random.randint(1, 2)):
            made = self.changed(made, self.random.choice(list(places_in(made))))
        return json.dumps(made).encode()

    def changed(self, made, path):
        made, value = copy.deepcopy(made), self.random.choice(VALUES)
        if not path:
            return value
        within = made
        for key in path[:-1]:
            within = within[key]
        old, way = within[path[-1]], self.random.random()
        if way < 0.15:
            del within[path[-1]]
        elif way < 0.4 and isinstance(old, int):
            within[path[-1]] = old + self.random.choice([-1, 1, 10])
        elif way < 0.5 and isinstance(old, list):
            within[path[-1]] = old + old
        else:
            within[path[-1]] = value
        return made

    def called(self):
        """Some client and a place in its list."""
        name = self.random.choice([name for name, it in self.clients.items() if it.calls])
        return name, self.random.randint(1, len(self.clients[name].calls))

    def breach(self):
        name, place = self.called()
        number = self.state["round"] + self.random.choice([-1, 0, 0, 0, 0, 1])
        finding = [self.random.randint(0, 3), self.random.randint(0, 12), self.random.randint(0, 9)]
        return {"round": max(0, number), "site": self.clients[name].site, "client": name, "call": place, "finding": finding}

    def said(self):
        """What a site might say that it keeps."""
        calls = [list(self.called()) for _ in range(self.random.choice([0, 0, 1, 2]))]
        return {"deltas": [self.random.choice([0, 0, -1, 1, 3]) for _ in self.state["deltas"]]} | ({"calls": calls} if calls else {})

    def packet(self):
        """A packet of the node's round that might have been sent, and wasn't."""
        kind, body = self.random.choice(["want", "stop", "state", "state", "left"]), self.breach()
        if kind == "state":
            body = {"round": body["round"], "site": self.random.randrange(self.sites)} | self.said()
        elif kind == "left":
            body |= {"states": [self.said() for _ in range(self.sites)]}
        return written(self.random.choice(self.runner.ids), self.runner.id(), {"type": kind} | body)

    def other_type(self):
        made = json.loads(self.one())
        made["body"]["type"] = self.random.choice(TYPES)
        return json.dumps(made).encode()


class Fuzz:
    """Gives garbage to the nodes of a run, and counts what becomes of it."""

    def __init__(self, run, chosen):
        self.run, self.random, self.garbage, self.counts = run, chosen, Garbage(run.made, chosen), collections.Counter()

    def give(self):
        if self.random.random() < REAL:
            self.run.event()
        self.garbage.lines = self.run.lines + [line for _, _, line in self.run.flying]
        self.garbage.runner = runner = self.random.choice(self.run.runners)
        self.garbage.state = self.state(runner, [])[1]
        line = self.garbage.line()
        runner = self.run.at.get(dest_of(line)) or runner
        before = self.state(runner, [])[1]
        said, after = self.state(runner, [line])
        self.run.let_out(runner.id(), said)
        codes = [body.get("code") for _, body, _ in said if body["type"] == "error"]
        self.counts.update(["changed" if before != after else "no change", *(f"error {it}" for it in codes)])
        if codes and before != after:
            raise Illegal(f"{line[:2_000]!r} is answered by error {codes[0]}, and changes {before} to {after}")
        if not is_json(line) and codes != [MALFORMED]:
            raise Illegal(f"{line[:2_000]!r} is answered by {said}")
        if self.random.randrange(AGAIN) == 0:
            self.begin_again(runner, after)

    def state(self, runner, lines):
        try:
            said, answer = runner.process.ask(lines, "snapshot")
        except Ended as it:
            raise Illegal(f"a node {it} of {(lines or [b''])[0][:2_000]!r}") from it
        return said, answer["state"]

    def begin_again(self, runner, state):
        """A node begun with its own snapshot is the same."""
        runner.kill()
        runner.log, runner.state = [], state
        try:
            runner.start()
        except Ended as it:
            raise Illegal(f"a node begun again {it}") from it
        if self.state(runner, [])[1] != state:
            raise Illegal(f"a node begun with {state} is {self.state(runner, [])[1]}")
        self.counts["begun again"] += 1
        for _ in range(WRONG):
            self.begin_wrong(runner)

    def begin_wrong(self, runner):
        """A node that is begun with something else than its snapshot lives too, whatever it says of that."""
        process = Process(runner.program, runner.text)
        init = json.loads(runner.init())
        for _ in range(self.random.randint(1, 3)):
            init = self.garbage.changed(init, self.random.choice([it for it in places_in(init) if it]))
        lines = [json.dumps(init).encode(), *self.random.choices(self.garbage.lines, k=5)]
        try:
            said, _ = process.ask(lines)
            process.ask(lines[1:])
        except Ended as it:
            raise Illegal(f"a node begun by {lines[0][:2_000]!r} {it}") from it
        finally:
            process.kill()
        self.counts["begun wrong, " + ("taken" if any(body["type"] == "init_ok" for _, body, _ in said) else "refused")] += 1


def dest_of(line):
    """The node that a line names, if it names one by text."""
    found = re.search(rb'"dest": ?"(n\d+)"', line)
    return found and found[1].decode()


def is_json(line):
    try:
        json.loads(line)
        return True
    except ValueError:
        return False
    except RecursionError:
        return False


def fuzz(program, text, seed, count):
    """The counts of what became of so many lines that nobody sent, or `Illegal`."""
    run = Recorded(program, text, seed)
    try:
        for runner in run.runners:
            run.start(runner)
        fuzzing = Fuzz(run, random.Random(seed))
        for _ in range(count):
            fuzzing.give()
        return fuzzing.counts
    finally:
        run.end()
