"""Clusters over Redis Streams: runners, nodes and the server are killed, sites have two runners and are cut off, and the server's file loses
its end, while callers go on. All of it is on loopback.

Where the file loses its end, all that the server keeps goes back to one moment: answers that were given since are lost, and what was asked
may be made anew. So of the answers that a client had seen before, those count that its site still knows of then.
"""
import collections
import contextlib
import os
import pathlib
import random
import signal
import subprocess
import sys
import tempfile
import threading
import time

from clustering import relay, texts
from judging import answers, legality, report, treaties, workload

FOLDER = pathlib.Path(__file__).resolve().parents[3] / "examples" / "cluster"
sys.path.append(str(FOLDER))
import caller
import redis_engine
import redis_server
import status

NAME = "run"
# The calls of each client at least, the seconds in which faults come, those for which a site is cut off, and those within which all is
# answered and at rest behind them.
CALLS, SECONDS, CUT_OFF, PATIENCE = 40, 6.0, 1.5, 90
# A runner that never stands by, and mistakes that runners may make, each as code that is run in front of cluster.py.
EAGER = "import turns; turns.Runner.stand_by = lambda it: None\n"
OFFSET_ALONE = """
import random, redis_engine
commit = redis_engine.RedisEngine.commit
def offset_alone(it, node, offset, state, packets, answers):
    if random.random() > 0.2 or it.load(node)[1] is None: return commit(it, node, offset, state, packets, answers)
    commit(it, node, offset, None, packets, answers)
    it.redis.hset(it.key('at', node), 'offset', offset)
redis_engine.RedisEngine.commit = offset_alone
"""
UNGUARDED = """
import redis_engine
read = redis_engine.RedisEngine.read
def unguarded(it, node, offset, most, seconds):
    try: return read(it, node, offset, most, seconds)
    except redis_engine.Overtaken: return redis_engine.lines_of(it.redis.xread({it.key('in', node): offset}, most, 50))
    finally:
        it.turn.unwatch()
        it.redis.xtrim(it.key('in', node), minid=it.load(node)[0], approximate=False)
redis_engine.RedisEngine.read = unguarded
"""
FAULTS = {
    "offset": ("at times an offset is kept without the state that the node has there", OFFSET_ALONE),
    "guard": ("of two runners of a site neither looks whether the other was faster", UNGUARDED),
}


class Runner:
    """The process of cluster.py for a site."""

    def __init__(self, node, text, address, site, code=""):
        begin = f"import sys; sys.dont_write_bytecode = True; sys.path.insert(0, {str(FOLDER)!r})\n{code}\nimport cluster; cluster.main()"
        self.words = [sys.executable, "-c", begin, str(text), "--redis", address, "--cluster", NAME, "--site", str(site)]
        self.node, self.said, self.process = node, text.with_name(f"site{site}.said"), None

    def start(self):
        with open(self.said, "ab") as said:
            how = {"stdin": subprocess.DEVNULL, "stdout": said, "stderr": said, "env": {"NODE": self.node, "PATH": "/usr/bin:/bin"}}
            self.process = subprocess.Popen(self.words, **how)

    def kill(self):
        self.process.kill()
        self.process.wait()

    def kill_node(self):
        """Kills the runner's node, if it is there."""
        children = pathlib.Path(f"/proc/{self.process.pid}/task/{self.process.pid}/children")
        with contextlib.suppress(OSError):
            for it in children.read_text().split():
                os.kill(int(it), signal.SIGKILL)


class Heard(caller.Streams):
    """The way of a caller that notes what is asked, by number, and every answer that comes, and misses none where a connection is lost."""

    def __init__(self, engine, client):
        super().__init__(engine, client)
        self.asked, self.answers = {}, []

    def close(self):
        pass

    def send(self, request):
        self.asked[request["msg_id"]] = f"{request['transaction']}({', '.join(map(str, request['args']))})"
        super().send(request)

    def heard(self, seconds):
        found = super().heard(seconds)
        self.answers += [it for it in found if it["type"] == "call_ok"]
        return found


class Client(threading.Thread):
    """A client that makes calls of its list, one after another, until it is told that it is enough. Answers in `way.answers` up to the place
    `before` came before the server's file lost its end; of them those up to the number `known` stayed."""

    def __init__(self, address, name, it, chosen, is_over):
        super().__init__(daemon=True)
        self.client, self.calls, self.site, self.random, self.is_over = name, it.calls, it.site, chosen, is_over
        self.caller = caller.Caller(NAME, name, None, redis=address)
        self.way = self.caller.way = Heard(self.caller.way.engine, name)
        self.fault, self.before, self.known = None, 0, 0

    def run(self):
        try:
            while not self.is_over.is_set() or len(self.way.asked) < CALLS:
                call = self.random.choice(self.calls)
                self.caller.call(call.transaction.name, *call.arguments)
                time.sleep(self.random.choice([0, 0.005, 0.02, 0.1]))
            while self.way.heard(0.2):
                pass
        except caller.Failed as it:
            self.fault = f"{self.client}: {type(it).__name__}: {it}"

    def seen(self):
        """The answers that count, with their requests, and how many were lost."""
        all_answers = self.way.answers
        kept = [it for it in all_answers[: self.before] if it["in_reply_to"] <= self.known] + all_answers[self.before :]
        requests = [(answers.Request(self.client, it["in_reply_to"], self.way.asked[it["in_reply_to"]]), it) for it in kept]
        return requests, len(all_answers) - len(kept)


class Run:
    """A cluster of a text over a server in a folder, under a seed. `is_cut` says whether the server's file loses its end, `code` is run in front
    of each runner, and `has_twins` says that a site has two runners that never stand by."""

    def __init__(self, node, seed, folder, seconds, is_cut, code, has_twins):
        self.random, self.name, self.text = random.Random(seed), *texts.chosen("examples" if seed % 2 else "hot", seed)
        self.made, self.seconds, self.is_cut, self.counts = workload.read(self.text), seconds, is_cut, collections.Counter()
        self.cut_off = CUT_OFF * seconds / SECONDS
        file = folder / "text.homeo"
        file.write_text(self.text)
        self.server = redis_server.Server(folder)
        self.ways = [relay.Relay(self.server.port) for _ in range(self.made.sites)]
        self.runners = [Runner(node, file, way.address, site, code) for site, way in enumerate(self.ways)]
        twin = self.random.randrange(self.made.sites)
        self.twins = [Runner(node, file, self.ways[twin].address, twin, code + EAGER) for _ in range(2)] if has_twins else []
        if has_twins:
            self.runners[twin] = self.twins.pop()
        self.is_over = threading.Event()

    def all(self):
        return [*self.runners, *self.twins]

    # ---- what happens
    def disturb(self):
        """What may happen comes for some seconds, the server's end once within them."""
        end, server_at = time.monotonic() + self.seconds, time.monotonic() + self.seconds * self.random.uniform(0.3, 0.7)
        rare = SECONDS / self.seconds  # (what lasts longer comes as often as in a short run)
        while time.monotonic() < end:
            time.sleep(self.random.choice([0.05, 0.2, 0.5]))
            self.revive()
            if time.monotonic() > server_at:
                server_at = float("inf")
                self.kill_server()
            else:
                self.random.choices([self.kill_node, self.kill_runner, self.part, self.freeze], [4, 4, rare, rare])[0]()

    def revive(self):
        """Begins runners again that have ended, as one does that doesn't reach the server when it begins."""
        for it in self.all():
            if it.process.poll() is not None:
                it.start()

    def kill_node(self):
        self.counts["nodes killed"] += 1
        self.random.choice(self.all()).kill_node()

    def kill_runner(self):
        self.counts["runners killed"] += 1
        runner = self.random.choice(self.all())
        runner.kill()
        time.sleep(self.random.choice([0, 0, 0.2]))
        runner.start()

    def part(self):
        """A site is cut off from the server."""
        self.counts["sites cut off"] += 1
        way = self.random.choice(self.ways)
        way.way = self.random.choice([relay.CLOSED, relay.SILENT])
        threading.Timer(self.cut_off, way.open).start()

    def freeze(self):
        """A runner is frozen for a while, and goes on in the midst of what it did."""
        self.counts["runners frozen"] += 1
        process = self.random.choice(self.all()).process
        process.send_signal(signal.SIGSTOP)
        threading.Timer(self.cut_off, process.send_signal, [signal.SIGCONT]).start()

    def kill_server(self):
        self.counts["servers killed"] += 1
        self.server.kill()
        if self.is_cut:
            self.lose()
        else:
            time.sleep(self.random.choice([0, 0.3, 1.0]))
            self.server.start()

    def lose(self):
        """The server's file loses its end, and nobody reaches the server before it is seen what it still knows."""
        for way in self.ways:
            way.way = relay.CLOSED
        time.sleep(0.5)
        for it in self.clients:
            it.before = len(it.way.answers)
        self.counts["bytes lost"] += self.server.cut(self.random.random())
        self.server.start()
        _, found = redis_engine.RedisEngine(self.server.address, NAME).seen()
        for it in self.clients:
            state = found[it.site][0] or {"answered": []}
            it.known = max((past["msg_id"] for past in state["answered"] if past["client"] == it.client), default=0)
        for way in self.ways:
            way.open()

    # ---- the whole
    def whole(self):
        """What is said of a run whose history is legal, or `Illegal`."""
        self.server.start()
        self.clients = [
            Client(self.ways[it.site].address, name, it, random.Random(f"{name} {self.random.random()}"), self.is_over)
            for name, it in self.made.clients.items()
            if it.calls
        ]
        try:
            for it in [*self.all(), *self.clients]:
                it.start()
            self.begin()
            self.disturb()
            self.is_over.set()
            self.wait()
            return self.judged(self.at_rest())
        finally:
            self.end()

    def begin(self):
        """Waits until each site has begun."""
        engine = redis_engine.RedisEngine(self.server.address, NAME)
        while not engine.text() or not all(state for state, _ in engine.seen()[1]):
            time.sleep(0.05)

    def wait(self):
        """Waits until each client has its answers."""
        end = time.monotonic() + PATIENCE
        while time.monotonic() < end and any(it.is_alive() for it in self.clients):
            self.revive()
            time.sleep(0.1)
        if lacking := [it.fault or f"{it.client} waits for {it.caller.open}" for it in self.clients if it.fault or it.is_alive()]:
            raise report.Illegal(f"{self.name}: {lacking}")

    def at_rest(self):
        """What each node is in the end, once all are running in one round."""
        cluster, end = status.found(NAME, self.server.address), time.monotonic() + PATIENCE
        while time.monotonic() < end:
            sites = status.told(cluster)["sites"]
            if all(it["mode"] == "running" and it["waiting"] == 0 for it in sites) and len({it["round"] for it in sites}) == 1:
                return [{"round": it["round"], "base": it["base"], "deltas": list(it["deltas"].values())} for it in sites]
            time.sleep(0.05)
        raise report.Illegal(f"the cluster doesn't come to rest in {PATIENCE} seconds: {sites}")

    def judged(self, statuses):
        kept = answers.Answers()
        for it in self.clients:
            requests, lost = it.seen()
            self.counts["answers lost"] += lost
            for request, body in requests:
                kept.take(request, body)
        history = report.read(report.write(answers.history(self.made, kept, statuses)))
        verdict = legality.judge(self.made, history, treaties.Treaties(None, self.made, self.text, 300, 0), 20, 1, "nodes")
        told = ", ".join(f"{count:,} {name}" for name, count in self.counts.items() if count)
        twins = ", a site with two runners" if self.twins else ""
        return f"over Redis, {self.name}: {verdict.local + verdict.closing} calls, {verdict.closing} of them closed rounds{twins}; {told}; legal"

    def end(self):
        for it in self.all():
            if it.process:
                it.process.send_signal(signal.SIGCONT)
                it.kill()
        for way in self.ways:
            way.stop()
        self.server.kill()


def run(node, seed, seconds=SECONDS, fault=None):
    """Runs a cluster, and says that its history is legal, or `Illegal`."""
    with tempfile.TemporaryDirectory(prefix="homeo-redis-") as folder:
        code = FAULTS[fault][1] if fault else ""
        return Run(node, seed, pathlib.Path(folder), seconds, seed % 3 == 2 and not fault, code, seed % 3 == 1 or fault == "guard").whole()
