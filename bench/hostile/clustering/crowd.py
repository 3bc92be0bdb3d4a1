"""Clients that ask without waiting for answers, until no node takes a call any more.

A client may have more than one request open where what carries them keeps their order. Here one client of each site asks on and on while no
packet arrives: first its site answers alone, then calls wait, and the 65th that would wait is refused. Some nodes are then killed. When
packets arrive again, the calls that wait go with the ends of rounds, in the order in which they were asked; what was refused is asked again.
"""
from clustering.run import FULL, Run
from judging import answers, report

# The calls that may wait at a node, and the most that are asked of one before it says that it has no room.
MOST_WAITING, MOST_ASKED = 64, 1_500


class Crowd(Run):
    """A run in which nothing is lost, and clients don't wait."""

    def __init__(self, program, text, seed, by_snapshots):
        super().__init__(program, text, seed, None, by_snapshots)
        self.habits.loss = self.habits.repeats = self.habits.kills = 0
        self.asked, self.refused, self.lines = {}, set(), {}

    def hear(self, caller, body):
        request = self.asked[caller.name, body["in_reply_to"]]
        if body["type"] == "call_ok":
            self.answers.take(request, body)
        elif body["code"] == FULL:
            self.refused.add(request)
        else:
            raise report.Illegal(f"{request}: is answered {body}")

    def ask(self, caller):
        """One more request of a client."""
        caller.next()
        self.asked[caller.name, caller.number], self.lines[caller.last] = caller.last, caller.line
        runner = self.at[f"n{caller.site}"]
        self.let_out(runner.id(), runner.take([caller.line]))
        caller.open = None

    def fill(self, caller):
        """Asks until the node has no room, and returns whether it came to that."""
        for _ in range(MOST_ASKED):
            self.ask(caller)
            if caller.last in self.refused:
                return True
        return False

    def check_waiting(self):
        """As many calls wait at each full node as may, and all others were answered."""
        for runner in self.runners:
            waiting = self.statuses()[runner.site]["waiting"]
            open_calls = sum(1 for it in self.asked.values() if self.is_at(it, runner) and not self.answers.has(it) and it not in self.refused)
            if waiting != open_calls or waiting not in (0, MOST_WAITING):
                raise report.Illegal(f"site {runner.site}: {waiting} calls wait, and {open_calls} have no answer")

    def is_at(self, request, runner):
        return self.made.clients[request.client].site == runner.site

    def ask_again(self):
        """What was refused is asked again, in its order."""
        for request in sorted(self.refused, key=lambda it: it.number):
            runner = self.runners[self.made.clients[request.client].site]
            self.refused.discard(request)
            self.let_out(runner.id(), runner.take([self.lines[request]]))

    def is_at_rest(self):
        return super().is_at_rest() and not self.refused and all(map(self.answers.has, self.asked.values()))

    def whole(self):
        """The verdict, and how many calls waited at once."""
        try:
            for runner in self.runners:
                self.start(runner)
            sites = {it.site: it for it in self.callers.values()}
            full = sum(self.fill(it) for it in sites.values())
            self.check_waiting()
            for runner in self.runners[: self.random.randint(0, len(self.runners))]:
                runner.kill()
            for _ in range(3):
                self.counts["turns"] += self.drain_once()
            self.drain()
            return self.judged(), full
        finally:
            self.end()

    def drain_once(self):
        for runner in self.runners:
            if not runner.is_up():
                self.start(runner)
            self.let_out(runner.id(), runner.tick())
        self.deliver_all()
        self.ask_again()
        return 1


def run(program, text, seed, by_snapshots):
    """The verdict on a run of such clients, and how many nodes were full, or `Illegal`."""
    return Crowd(program, text, seed, by_snapshots).whole()
