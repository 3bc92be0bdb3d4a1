"""A random run of a cluster: callers, a network that loses, repeats, delays and reorders, partitions, and nodes that are killed.

All that happens is chosen by the seed, but for where exactly a kill meets a node that has just been given lines. In the end nothing is
lost any more, and callers and ticks go on until all is answered and all nodes are at rest. Then the history of what the callers saw is
judged, word for word as any other report.
"""
import collections
import random

from clustering.process import Ended, written
from clustering.runner import Runner
from judging import answers, legality, report, treaties, workload

# The most turns of ticks until a cluster is at rest, and the most deliveries of one turn.
MOST_TURNS, MOST_DELIVERIES = 60, 50_000
# The merges that are run of a round that has too many for all, and the rounds of which the treaties are derived.
MERGES, TREATIES = 12, 200
FULL, LATE = 11, 13


class Habits:
    """What is usual in a run: how much is lost, how lines are kept, how often nodes are killed."""

    def __init__(self, chosen, by_snapshots=None):
        self.loss = chosen.choice([0, 0, 0.05, 0.2, 0.4])
        self.repeats = chosen.choice([0, 0.1, 0.3])
        self.reorders = chosen.random() < 0.7
        self.partitions = chosen.choice([0, 0.01, 0.03])
        self.kills = chosen.choice([0, 0.01, 0.03, 0.08])
        self.calls, self.ticks = chosen.choice([1, 3, 6]), chosen.choice([0.1, 0.3, 1])
        self.by_snapshots = chosen.random() < 0.5 if by_snapshots is None else by_snapshots
        self.events = chosen.choice([100, 300, 1_000, 3_000])


class Caller:
    """A listed client: one request at a time, which is sent again until it is answered."""

    def __init__(self, name, calls, site, chosen):
        self.name, self.calls, self.site, self.random = name, calls, site, chosen
        self.number, self.open, self.last, self.line = 0, None, None, None

    def next(self):
        """A new request."""
        self.number += self.random.randint(1, 3)
        call = self.random.choice(self.calls)
        self.open = self.last = answers.Request(self.name, self.number, str(call))
        body = {"type": "call", "msg_id": self.number, "client": self.name, "transaction": call.transaction.name, "args": list(call.arguments)}
        self.line = written(f"caller-{self.name}", f"n{self.site}", body)


class Run:
    """A cluster of a text under a seed, and what came of it."""

    def __init__(self, program, text, seed, fault=None, by_snapshots=None):
        self.random, self.text, self.made = random.Random(seed), text, workload.read(text)
        self.habits, self.counts = Habits(self.random, by_snapshots), collections.Counter()
        ids = [f"n{site}" for site in range(self.made.sites)]
        self.runners = [Runner(program, text.encode(), ids, site, self.habits.by_snapshots, fault) for site in range(len(ids))]
        self.at = {it.id(): it for it in self.runners}
        self.callers = {
            f"caller-{name}": Caller(name, it.calls, it.site, self.random) for name, it in self.made.clients.items() if it.calls
        }
        self.flying, self.far, self.stopped, self.answers, self.bases = [], set(), set(), answers.Answers(), answers.Bases()

    # ---- what is let out
    def let_out(self, source, said):
        for dest, body, line in said:
            if dest in self.at:
                self.counts[f"packet {body['type']}"] += 1
                self.stopped |= {body["round"]} if body["type"] == "stop" else set()
                self.send(source, dest, line)
            elif dest in self.callers:
                if self.random.random() >= self.habits.loss:
                    self.hear(self.callers[dest], body)
            else:
                raise Ended(f"says {line!r} to nobody")

    def send(self, source, dest, line):
        if self.random.random() >= self.habits.loss:
            self.flying += [(source, dest, line)] * (1 + (self.random.random() < self.habits.repeats))

    def hear(self, caller, body):
        """An answer that a caller gets."""
        number = body.get("in_reply_to")
        if body["type"] == "call_ok":
            is_open = caller.open is not None and number == caller.open.number
            request = caller.open if is_open else next((it for it in self.answers.found if (it.client, it.number) == (caller.name, number)), None)
            if request is None:
                raise report.Illegal(f"request {number} of {caller.name} is answered, and was never made")
            self.answers.take(request, body)
            caller.open = None if is_open else caller.open
        elif body.get("code") == FULL:
            self.counts["full"] += 1
        elif body.get("code") != LATE or caller.open and number == caller.open.number:
            raise report.Illegal(f"{caller.last}: is answered {body}")

    # ---- events
    def event(self):
        ways = [(self.call, self.habits.calls), (self.deliver, 15), (self.tick, self.habits.ticks), (self.begin_again, 4)]
        ways += [(self.part, 20 * self.habits.partitions), (self.kill, 20 * self.habits.kills)]
        self.random.choices([it for it, _ in ways], [weight for _, weight in ways])[0]()

    def call(self):
        if self.callers:
            caller = self.random.choice(list(self.callers.values()))
            if caller.open is None:
                caller.next()
            self.send(None, f"n{caller.site}", caller.line)

    def deliver(self):
        """Some packets to one node."""
        if not self.flying:
            return
        place = self.random.randrange(len(self.flying)) if self.habits.reorders else 0
        source, dest, line = self.flying.pop(place)
        if frozenset((source, dest)) in self.far:
            self.flying += [(source, dest, line)] if self.random.random() < 0.8 else []
            return
        lines = [line]
        while self.random.random() < 0.3 and (more := next((it for it in self.flying if it[:2] == (source, dest)), None)):
            self.flying.remove(more)
            lines.append(more[2])
        self.bring(self.at[dest], lines)

    def bring(self, runner, lines):
        if not runner.is_up():
            runner.hold(lines)
        elif self.random.random() < self.habits.kills:
            self.counts["kills"] += 1
            runner.kill_within(lines, self.random.random() < 0.5)
        else:
            self.let_out(runner.id(), runner.take(lines))
            self.look(runner)

    def look(self, runner):
        if runner.status:
            self.bases.take(runner.status)

    def tick(self):
        runner = self.random.choice(self.runners)
        if runner.is_up():
            self.let_out(runner.id(), runner.tick())

    def kill(self):
        runner = self.random.choice(self.runners)
        if runner.is_up():
            self.counts["kills"] += 1
            runner.kill()

    def begin_again(self):
        down = [it for it in self.runners if not it.is_up()]
        if down:
            self.start(self.random.choice(down))

    def start(self, runner):
        self.let_out(runner.id(), runner.start())
        self.look(runner)

    def part(self):
        """Some nodes hear nothing of the others from now on, or all hear each other again."""
        one_side = {it.id() for it in self.runners if self.random.random() < 0.5}
        pairs = {frozenset((a, b)) for a in one_side for b in self.at if b not in one_side}
        self.far = set() if self.far else pairs

    # ---- the end
    def drain(self):
        """Nothing is lost any more; returns after how many turns all is answered and at rest."""
        self.habits.loss = self.habits.kills = 0
        self.far = set()
        for runner in self.runners:
            if not runner.is_up():
                self.start(runner)
        for turn in range(MOST_TURNS):
            self.deliver_all()
            if self.is_at_rest():
                return turn
            for caller in self.callers.values():
                if caller.open:
                    self.send(None, f"n{caller.site}", caller.line)
            for runner in self.runners:
                self.let_out(runner.id(), runner.tick())
        unanswered = sum(it.open is not None for it in self.callers.values())
        told = ", ".join(f"{it.status['mode']} in {it.status['round']}" for it in self.runners)
        raise report.Illegal(f"the cluster doesn't come to rest in {MOST_TURNS} turns: {unanswered} calls unanswered, nodes {told}")

    def deliver_all(self):
        for _ in range(MOST_DELIVERIES):
            if not self.flying:
                return
            _, dest, line = self.flying.pop(0)
            self.bring(self.at[dest], [line])
        raise report.Illegal(f"packets go on and on: {self.flying[0]}")

    def statuses(self):
        found = []
        for runner in self.runners:
            _, runner.status = runner.process.ask([])
            self.look(runner)
            found.append(runner.status)
        return found

    def is_at_rest(self):
        found = self.statuses()
        are_running = all(it["mode"] == "running" and it["waiting"] == 0 for it in found)
        return are_running and len({it["round"] for it in found}) == 1 and not any(it.open for it in self.callers.values())

    def check_rest(self):
        """A cluster at rest says nothing by itself, and a request that comes once more has its answer, and changes nothing."""
        before = self.statuses()
        for runner in self.runners:
            if said := runner.tick():
                raise report.Illegal(f"a node at rest says {said[0][2]!r}")
        for caller in self.callers.values():
            if caller.last:
                count = self.answers.again
                self.let_out(caller.name, self.at[f"n{caller.site}"].take([caller.line]))
                if self.answers.again == count:
                    raise report.Illegal(f"{caller.last}, comes again and has no answer")
        if self.statuses() != before:
            raise report.Illegal(f"requests that come again change a node from {before[0]} to {self.statuses()[0]}")

    def judged(self):
        """The verdict on the history of what the callers saw, or `Illegal`."""
        history = report.read(report.write(answers.history(self.made, self.answers, self.statuses())))
        derived = treaties.Treaties(None, self.made, self.text, TREATIES, 0)
        verdict, bases = legality.checked(self.made, history, derived, MERGES, 1, "nodes")
        self.bases.check(bases)
        # (where a round ends, calls that wait are made too, and may each end one more, for which nobody stops)
        self.counts["passed"] = len(set(range(len(bases) - 1)) - self.stopped) if self.made.sites > 1 else 0
        return verdict

    def whole(self):
        """The run from its beginning to the verdict."""
        try:
            for runner in self.runners:
                self.start(runner)
            for _ in range(self.habits.events):
                self.event()
            if not self.habits.loss and not self.habits.kills:
                # (every answer was heard so far, so what there is of the history is whole)
                self.judged()
                self.counts["midway"] += 1
            self.counts["turns"] = self.drain()
            self.check_rest()
            return self.judged()
        finally:
            self.end()

    def end(self):
        for runner in self.runners:
            if runner.is_up():
                runner.kill()


def run(program, text, seed, fault=None, by_snapshots=None):
    """The verdict and the counts of a run, None where the text is refused, or `Illegal`."""
    made = Run(program, text, seed, fault, by_snapshots)
    try:
        return made.whole(), made.counts
    except Ended as it:
        if "status 2, 'refused E" in str(it):
            return None
        raise report.Illegal(f"a node {it}") from it
