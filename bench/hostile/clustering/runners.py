"""Clusters of examples/cluster/, whose runners and nodes are killed while callers go on."""
import os
import pathlib
import random
import signal
import subprocess
import sys
import tempfile
import threading
import time

from clustering import texts
from judging import answers, legality, report, treaties, workload

FOLDER = pathlib.Path(__file__).resolve().parents[3] / "examples" / "cluster"
sys.path.append(str(FOLDER))
import caller
import status

# The calls of each client, the seconds in which there are kills, and those within which all is answered and at rest behind them.
CALLS, KILLING, PATIENCE = 40, 3.0, 60


class Runner:
    """The process of cluster.py over a folder."""

    def __init__(self, node, text, folder, words):
        self.words = [sys.executable, "-B", str(FOLDER / "cluster.py"), str(text), "--dir", str(folder), *words]
        self.node, self.folder, self.process = node, folder, None

    def start(self):
        with open(self.folder.with_suffix(".out"), "ab") as out:
            how = {"stdin": subprocess.DEVNULL, "stdout": out, "stderr": out, "env": {**os.environ, "NODE": self.node}}
            self.process = subprocess.Popen(self.words, **how)

    def kill(self):
        self.process.kill()
        self.process.wait()

    def kill_node(self, site):
        """Kills a node, if it is there."""
        try:
            os.kill(int((self.folder / f"n{site}" / "pid").read_text()), signal.SIGKILL)
        except (OSError, ValueError):
            pass


class Client(threading.Thread):
    """A client that makes some calls of its list, one after another, and keeps what it saw."""

    def __init__(self, folder, name, calls, chosen):
        super().__init__(daemon=True)
        self.caller, self.name_of, self.calls, self.random, self.seen = caller.Caller(folder, name, None), name, calls, chosen, []
        self.fault = None

    def run(self):
        try:
            for _ in range(CALLS):
                call = self.random.choice(self.calls)
                answer = self.caller.call(call.transaction.name, *call.arguments)
                self.seen.append((answers.Request(self.name_of, self.caller.number, str(call)), answer.body))
                time.sleep(self.random.choice([0, 0, 0.01, 0.05]))
        except caller.Failed as it:
            self.fault = f"{self.name_of}: {type(it).__name__}: {it}"
        finally:
            self.caller.close()


def node_status(it):
    return {"round": it["round"], "base": it["base"], "deltas": list(it["deltas"].values())}


def at_rest(folder):
    """What each node is in the end, once all are running in one round."""
    end = time.monotonic() + PATIENCE
    while time.monotonic() < end:
        try:
            sites = status.told(status.Folder(folder))["sites"]
        except (OSError, ValueError):
            sites = []
        if sites and all(it["mode"] == "running" and it["waiting"] == 0 for it in sites) and len({it["round"] for it in sites}) == 1:
            return [node_status(it) for it in sites]
        time.sleep(0.05)
    raise report.Illegal(f"the cluster doesn't come to rest in {PATIENCE} seconds: {sites}")


class Run:
    """A cluster of a text in a folder under a seed."""

    def __init__(self, node, seed, folder):
        self.random, self.name, self.text = random.Random(seed), *texts.chosen("examples" if seed % 2 else "hot", seed)
        self.made, self.folder, self.kills, self.again = workload.read(self.text), folder / "cluster", 0, 0
        (folder / "text.homeo").write_text(self.text)
        words = ["--rtt", str(self.random.choice([0, 4, 20])), "--lines", str(self.random.choice([5, 30, 2_000]))]
        words += ["--fsync"] if self.random.random() < 0.3 else []
        self.runner = Runner(node, folder / "text.homeo", self.folder, words)

    def client(self, name, calls):
        return Client(self.folder, name, calls, random.Random(f"{name} {self.random.random()}"))

    def kill_some(self):
        """Kills nodes and runners for some seconds."""
        end = time.monotonic() + KILLING
        while time.monotonic() < end:
            time.sleep(self.random.choice([0.02, 0.1, 0.3]))
            if self.random.random() < 0.7:
                self.kills += 1
                self.runner.kill_node(self.random.randrange(self.made.sites))
            else:
                self.again += 1
                self.runner.kill()
                time.sleep(self.random.choice([0, 0.1, 0.3]))
                self.runner.start()

    def whole(self):
        """What is said of a run whose history is legal, or `Illegal`."""
        clients = [self.client(name, it.calls) for name, it in self.made.clients.items() if it.calls]
        try:
            self.runner.start()
            for it in clients:
                it.start()
            self.kill_some()
            for it in clients:
                it.join(PATIENCE)
            if lacking := [it.fault or f"{it.name_of} has {len(it.seen)} answers" for it in clients if it.fault or it.is_alive()]:
                raise report.Illegal(f"{self.name}: {lacking}")
            return self.judged([seen for it in clients for seen in it.seen], at_rest(self.folder))
        finally:
            self.runner.kill()

    def judged(self, seen, statuses):
        kept = answers.Answers()
        for request, body in seen:
            kept.take(request, body)
        history = report.read(report.write(answers.history(self.made, kept, statuses)))
        verdict = legality.judge(self.made, history, treaties.Treaties(None, self.made, self.text, 300, 0), 20, 1, "nodes")
        calls = verdict.local + verdict.closing
        killed = f"{self.kills} nodes and {self.again} runners killed"
        return f"runners, {self.name}: {calls} calls, {verdict.closing} of them closed rounds; {killed}; legal"


def run(node, seed):
    """Runs a cluster, and says that its history is legal, or `Illegal`."""
    with tempfile.TemporaryDirectory(prefix="homeo-cluster-") as folder:
        return Run(node, seed, pathlib.Path(folder)).whole()
