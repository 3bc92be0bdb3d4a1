"""Live nodes: the runner of examples/cluster/ with a node for each site, and callers at its socket. The runner takes a message's time from
site to site, and its logs tell which messages came."""
import asyncio
import json
import os
import pathlib
import subprocess
import sys

from judging import answers, legality, report, treaties, workload
from peering import servers

RUNNER = pathlib.Path(__file__).resolve().parents[2] / "examples" / "cluster" / "cluster.py"
TEXT = """workload 2
sites 3
weights {weights}
object stock in 0..{most} = {most}
transaction buy(n in 1..4) {{
  left := read(stock);
  if n <= left then {{ write(stock = left - n); print(n) }} else {{ write(stock = left + {most} - n); print(-n) }}
}}
{clients}
end
"""
PACKETS = {"want", "stop", "state", "left"}
# No node has room for the call now; the seconds until it is asked again, and those within which a cluster is at rest.
FULL, PAUSE, PATIENCE = 11, 0.01, 60
# The merges that are run of a round that has too many for all, and the rounds of which the treaties are derived.
MERGES, TREATIES = 5, 20


def text_of(cell):
    clients = [(site, number) for site, count in enumerate(cell.callers) for number in range(count)]
    lines = "\n".join(f"client c{site}_{number} at {site} {{ buy(1); buy(2); buy(3); buy(4) }}" for site, number in clients)
    return TEXT.format(weights=", ".join(map(str, cell.weights)), most=cell.stock, clients=lines)


class Line(servers.Session):
    """A caller's connection to the runner, as its client."""

    def __init__(self, streams, client, taken):
        super().__init__(streams)
        self.client, self.number, self.taken = client, 0, taken

    async def call(self, amount):
        self.number += 1
        body = {"type": "call", "msg_id": self.number, "client": self.client, "transaction": "buy", "args": [amount]}
        while (said := await self.asked(json.dumps({"body": body}).encode() + b"\n")).get("code") == FULL:
            await asyncio.sleep(PAUSE)
        self.taken.take(answers.Request(self.client, self.number, f"buy({amount})"), said)
        return said["prints"][0], None

    async def status(self):
        return await self.asked(b'{"body":{"type":"status","msg_id":0}}\n')

    async def answer(self):
        line = await self.reader.readline()
        if not line:
            raise ConnectionError("the cluster has ended")
        return json.loads(line)["body"]


class Nodes:
    """A cluster in a cell. It has no stock of its own until it is at rest, so an answer says nothing of what is left."""

    trips = 2

    def __init__(self, cell, ways, running):
        self.cell, self.ways, self.node, self.folder, self.again = cell, ways, running.node, running.folder / "nodes", 0
        self.text, self.taken, self.lines, self.counts = text_of(cell), answers.Answers(), [], [0] * 3
        self.is_synced = running.is_synced

    async def begin(self):
        self.folder.mkdir(exist_ok=True)
        (self.folder / "text.homeo").write_text(self.text)
        # (the logs keep every line, so that messages can be counted)
        words = ["--dir", str(self.folder / "cluster"), "--rtt", str(2_000 * self.ways.seconds), "--lines", "100000000", "--fresh"]
        words = [sys.executable, "-B", str(RUNNER), str(self.folder / "text.homeo"), *words, *(["--fsync"] if self.is_synced else [])]
        self.server = servers.Server(words, self.folder, env={**os.environ, "NODE": self.node})
        self.asking = await self.line(None)

    async def line(self, client):
        line = Line(await servers.opened(self.folder / "cluster" / "socket", self.server.process), client, self.taken)
        self.lines.append(line)
        return line

    async def caller(self, site, number):
        place, self.counts[site] = self.counts[site], self.counts[site] + 1
        return (await self.line(f"c{site}_{place}")).call

    async def last(self):
        """The stock of the cluster at rest, whose history is legal, or `Illegal`."""
        end = asyncio.get_running_loop().time() + PATIENCE
        while (status := await self.asking.status())["sum"] is None or any(it["mode"] != "running" for it in status["sites"]):
            if asyncio.get_running_loop().time() > end:
                raise report.Illegal(f"the cluster doesn't come to rest: {status['sites']}")
            await asyncio.sleep(0.05)
        self.ways.messages = self.messages()
        self.judge([it | {"deltas": list(it["deltas"].values())} for it in status["sites"]])
        return list(status["sum"].values())

    def messages(self):
        """How many packets came to a site from another."""
        count = 0
        for file in (self.folder / "cluster").glob("n*/log.*"):
            for line in file.read_bytes().splitlines():
                message = json.loads(line)
                count += message["body"].get("type") in PACKETS and message["src"] != message["dest"]
        return count

    def judge(self, statuses):
        made = workload.read(self.text)
        history = report.read(report.write(answers.history(made, self.taken, statuses)))
        legality.judge(made, history, treaties.Treaties(None, made, self.text, TREATIES, 0), MERGES, 1, "nodes")

    def stock_of(self, number):
        return 0

    async def end(self):
        for it in self.lines:
            await it.close()
        self.server.end()
