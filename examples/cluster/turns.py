"""The runner of one site on a machine of its own, over an engine (engines.py), by turns.

THE ONE RULE OF A RUNNER: nothing that a node says is let out before what made it say that is kept. Here a turn gives the node the lines of
its input that stand behind the kept offset, and asks for its snapshot; this is kept in the place of the one before, with the new offset, and
what the node said goes out with it. A turn that doesn't come to that was never made: whatever was killed or lost, the node is begun again
with what is kept. Who changes this file keeps that rule, or the histories break.
"""
import os
import signal
import socket
import sys
import time

import counts
import nodes
from engines import Lost, Overtaken
from nodes import Unable

# The lines of one turn, and the seconds for which a turn waits for some: that of a node that is running, and that of another, which is the
# time between two ticks too.
MOST, IDLE, TICK = 64, 0.5, 0.1
# The seconds between two words of a runner about itself, and before it tries again.
TELLING, AGAIN = 1.0, 0.2


class Runner:
    """A site of a text, and what this runner knows of it."""

    def __init__(self, engine, text, site, program):
        self.engine, self.text, self.site, self.program, self.id = engine, text, site, program, text.ids[site]
        self.me = {"host": socket.gethostname(), "process": os.getpid()}
        self.counts, self.restarts, self.last_said, self.is_overtaken = counts.Counts(0), nodes.Restarts(f"site {site}"), None, False
        self.offset, self.is_begun, self.is_running, self.next_tick, self.next_told = engine.FIRST, False, False, 0, 0

    def run(self):
        """Goes on from what is kept, again and again, until this process is ended."""
        while True:
            try:
                self.stand_by()
                self.go_on()
            except Overtaken:
                self.is_overtaken = True
            except Lost as fault:
                self.say(f"{fault}; it is tried on and on")
                time.sleep(AGAIN)
            except nodes.Ended as fault:
                time.sleep(self.restarts.again(fault))

    def say(self, words):
        """Says something once to who looks after this runner."""
        if words != self.last_said:
            print(f"site {self.site}: {words}", file=sys.stderr, flush=True)
        self.last_said = words

    def stand_by(self):
        """Waits while another runner goes on with the site, where one was faster."""
        while self.is_overtaken and (other := self.engine.told(self.id)) and other["runner"] != self.me:
            self.say("another runner goes on with it, at {host}, process {process}; this one waits until that is silent".format(**other["runner"]))
            time.sleep(AGAIN)
        self.is_overtaken = False

    def go_on(self):
        """Begins the node with what is kept, and makes turn after turn."""
        if self.engine.text() != self.text.bytes:
            raise Unable(f"there is no cluster {self.engine.where} any more, or it has another text")
        self.offset, state = self.engine.load(self.id)
        self.is_begun, self.is_running, self.next_told = state is not None, state is not None and state["mode"] == "running", 0
        self.restarts.begin()
        with nodes.Node(self.program, self.text, self.id, state) as node:
            while True:
                self.turn(node)

    def turn(self, node):
        """Gives the node what came, and a tick now and then where it isn't running."""
        came = self.engine.read(self.id, self.offset, MOST, IDLE if self.is_running else TICK)
        self.tell()
        lines = [line for _, line in came]
        for line in lines:
            self.count_asked(nodes.body_of(line))
        ticks, is_new = self.ticks(), bool(lines) or not self.is_begun
        if is_new or ticks:
            said, state = node.ask(lines + ticks)
            self.keep(came[-1][0] if came else self.offset, state, is_new, said)

    def ticks(self):
        if self.is_running or time.monotonic() < self.next_tick:
            return []
        self.next_tick = time.monotonic() + TICK
        return [nodes.line_of("runner", self.id, {"type": "tick"})]

    def keep(self, offset, state, is_new, said):
        """Keeps what the turn has come to, and lets out what was said. (A tick changes nothing, so after it alone the state isn't new.)"""
        packets = [(dest, line) for dest, _, line in said if dest in self.text.ids]
        answers = [(dest.removeprefix("client-"), body, line) for dest, body, line in said if dest.removeprefix("client-") in self.text.clients]
        if is_new or packets:
            self.engine.commit(self.id, offset, state if is_new else None, packets, [(client, line) for client, _, line in answers])
        self.offset, self.is_begun, self.is_running, self.last_said = offset, True, state["mode"] == "running", None
        for client, body, _ in answers:
            self.counts.answered(self.site, client, body)

    def count_asked(self, body):
        if body.get("type") == "call" and body.get("client") in self.text.clients:
            self.counts.asked(body["client"], body)

    def tell(self):
        if time.monotonic() >= self.next_told:
            self.engine.tell(self.id, {"runner": self.me, "restarts": self.restarts.count, **self.counts.told()})
            self.next_told = time.monotonic() + TELLING


def run(path, engine, site):
    """Runs one site of the text in a file, until it is ended."""
    text, program = nodes.Text(path.read_bytes()), nodes.node_program()
    if site not in range(len(text.ids)):
        raise Unable(f"{path} has the sites 0 to {len(text.ids) - 1}, and no site {site}")
    is_new = engine.begin(text, nodes.objects_of(program, path, text))
    for each in (signal.SIGINT, signal.SIGTERM):
        signal.signal(each, lambda *_: sys.exit(0))
    begun = "begins" if is_new else "goes on with"
    print(f"site {site} of {len(text.ids)} of {path} {begun} {engine.where}; clients: {text.clients_at([site])}", flush=True)
    Runner(engine, text, site, program).run()
