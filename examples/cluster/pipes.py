"""The runner of all sites of a text on one machine: a process each, over pipes.

THE ONE RULE OF A RUNNER: nothing that a node says is let out before what made it say that is kept. Here each line stands in the node's
log before the node is given it. So a node that is killed is begun again with its last snapshot and the log behind it, becomes what it
was, and says once more what it said; and so is a runner that is killed. Who changes this file keeps that rule, or the histories break.

The cluster's folder has the text, a folder for each node, and the socket for callers (caller.py, ask.py).
"""
import asyncio
import collections
import fcntl
import json
import os
import pathlib
import signal

import counts
import nodes
from keeping import Kept
from nodes import Unable, line_of

# The longest line.
LONGEST = 1 << 26
# The seconds within which a node tells its status, and between two ticks, at least.
PATIENCE, TICK = 1.0, 0.05


class Site:
    """A node: what is kept of it, and its process."""

    def __init__(self, cluster, number):
        self.cluster, self.number, self.id = cluster, number, f"n{number}"
        self.kept = Kept(cluster.folder / self.id, cluster.is_synced)
        self.process, self.came, self.logged, self.snapshot_asked = None, [], 0, False
        self.asked, self.questions, self.restarts = {}, 0, nodes.Restarts(f"site {number}")

    async def start(self):
        """Begins the process with what is kept."""
        process = await asyncio.create_subprocess_exec(
            self.cluster.node, stdin=asyncio.subprocess.PIPE, stdout=asyncio.subprocess.PIPE, limit=LONGEST
        )
        (self.kept.folder / "pid").write_text(f"{process.pid}\n")
        self.flush()
        state, lines = self.kept.load()
        self.process, self.logged, self.snapshot_asked = process, len(lines), False
        self.restarts.begin()
        process.stdin.write(self.cluster.text.bytes)
        self.give([nodes.init_line(self.id, self.cluster.text.ids, state), *lines])
        self.reading = asyncio.create_task(self.read(process))

    def give(self, lines):
        """Gives the node lines. One that has ended is given them when it is begun again, from the log."""
        if self.process and not self.process.stdin.is_closing():
            self.process.stdin.write(b"".join(line + b"\n" for line in lines))

    async def end(self):
        """Ends the process by the end of its input, and where that doesn't do by force."""
        if self.process:
            self.process.stdin.close()
            try:
                await asyncio.wait_for(self.process.wait(), PATIENCE)
            except asyncio.TimeoutError:
                self.process.kill()
                await self.process.wait()
        (self.kept.folder / "pid").unlink(missing_ok=True)

    # ---- what comes
    def take(self, line):
        """A line for the node. What comes at once is kept at once."""
        if not self.came:
            asyncio.get_running_loop().call_soon(self.cluster.guarded, self.flush)
        self.came.append(line)

    def flush(self):
        """Keeps what came, and then gives it to the node."""
        lines, self.came = self.came, []
        if not lines:
            return
        self.kept.append(lines)
        self.give(lines)
        self.logged += len(lines)
        if self.logged >= self.cluster.most_logged and not self.snapshot_asked and self.process:
            self.snapshot_asked, self.logged = True, 0
            self.give([line_of("runner", self.id, {"type": "snapshot", "msg_id": self.kept.begin()})])

    def tick(self):
        self.give([line_of("runner", self.id, {"type": "tick"})])

    async def status(self):
        """What the node is, or None where it doesn't say so in time."""
        self.questions += 1
        number, told = self.questions, asyncio.get_running_loop().create_future()
        self.asked[number] = told
        self.give([line_of("status", self.id, {"type": "status", "msg_id": number})])
        try:
            return await asyncio.wait_for(told, PATIENCE)
        except asyncio.TimeoutError:
            return None
        finally:
            self.asked.pop(number, None)

    # ---- what is said
    async def read(self, process):
        """Lets out what the node says, until it ends; then it is begun again."""
        while (line := await process.stdout.readline()).endswith(b"\n"):
            message = json.loads(line)
            self.said(message["dest"], message["body"], line[:-1])
        ended = await process.wait()
        if not self.cluster.is_over:
            await self.begin_again(ended)

    def said(self, dest, body, line):
        if dest in self.cluster.at:
            self.cluster.send(dest, line)
        elif dest == "status" and body.get("in_reply_to") in self.asked:
            told = self.asked[body["in_reply_to"]]
            None if told.done() else told.set_result(body)
        elif dest == "runner" and body["type"] == "snapshot_ok":
            self.kept.keep(body["state"], body["in_reply_to"])
            self.snapshot_asked = False
        elif dest == "runner" and body["type"] == "error":
            raise Unable(f"site {self.number}: {body['text']}")
        elif dest:
            self.cluster.answer(self, dest, body, line)

    async def begin_again(self, ended):
        pause = self.restarts.again(f"ends with status {ended}")
        self.process = None
        await asyncio.sleep(pause)
        await self.start()


class Cluster:
    """The sites of a text, and the callers of their clients."""

    def __init__(self, text, folder, node, round_trip=0.0, is_synced=False, most_logged=2_000):
        self.text, self.folder, self.node, self.round_trip, self.is_synced = text, pathlib.Path(folder), node, round_trip, is_synced
        self.most_logged = most_logged
        self.counts, self.callers, self.is_over = counts.Counts(round_trip), collections.defaultdict(set), False
        self.ended = None

    async def run(self):
        """Runs until it is told to end, or can't go on."""
        self.ended = asyncio.get_running_loop().create_future()
        for each in (signal.SIGINT, signal.SIGTERM):
            asyncio.get_running_loop().add_signal_handler(each, self.end)
        asyncio.get_running_loop().set_exception_handler(lambda _, told: self.end(told.get("exception") or Unable(told["message"])))
        self.sites = [Site(self, number) for number in range(len(self.text.ids))]
        self.at = {it.id: it for it in self.sites}
        for site in self.sites:
            await site.start()
        server = await asyncio.start_unix_server(self.caller, self.folder / "socket", limit=LONGEST)
        os.chmod(self.folder / "socket", 0o600)
        ticking = asyncio.create_task(self.tick())
        watching = asyncio.create_task(self.watch())
        try:
            await self.ended
        finally:
            self.is_over = True
            for task in (ticking, watching, *(it.reading for it in self.sites)):
                task.cancel()
            server.close()
            await asyncio.gather(*(it.end() for it in self.sites))

    def end(self, fault=None):
        """Ends the cluster, because of a fault where there is one."""
        if self.ended and not self.ended.done():
            self.ended.set_exception(fault) if fault else self.ended.set_result(None)

    def guarded(self, step):
        """Does a step. Where it fails, as where a disk is full, nothing is let out any more."""
        try:
            step()
        except OSError as fault:
            self.end(fault)

    async def watch(self):
        """Ends the cluster where the reading of a node has failed."""
        while True:
            await asyncio.sleep(TICK)
            for site in self.sites:
                if site.reading.done() and not site.reading.cancelled() and site.reading.exception():
                    self.end(site.reading.exception())

    async def tick(self):
        """What was lost between sites is sent again."""
        while True:
            await asyncio.sleep(max(TICK, 1.5 * self.round_trip))
            for site in self.sites:
                site.tick()

    def send(self, dest, line):
        """From site to site."""
        if self.round_trip:
            asyncio.get_running_loop().call_later(self.round_trip / 2, self.at[dest].take, line)
        else:
            self.at[dest].take(line)

    # ---- callers
    def answer(self, site, dest, body, line):
        client = dest.removeprefix("client-")
        self.counts.answered(site.number, client, body)
        for writer in self.callers.get(client, ()):
            writer.write(line + b"\n")

    async def caller(self, reader, writer):
        """A connection: lines with a call, or with the question of the status. What a caller can't say is not handed on."""
        own = set()
        try:
            while line := await reader.readline():
                body = nodes.body_of(line)
                client = body.get("client")
                if body.get("type") == "call" and isinstance(client, str) and client in self.text.clients:
                    own.add(client)
                    self.callers[client].add(writer)
                    self.ask(body)
                else:
                    told = await self.told(body) | {"in_reply_to": body.get("msg_id")}
                    writer.write(json.dumps({"body": told}).encode() + b"\n")
                await writer.drain()
        except (OSError, ValueError):
            pass  # (the caller is gone, or its line was too long)
        finally:
            for client in own:
                self.callers[client].discard(writer)
            writer.close()

    async def told(self, body):
        """The answer to what is no call of a client."""
        if body.get("type") == "status":
            return await self.status()
        code, text = (10, "there is no such client") if body.get("type") == "call" else (12, "this is no call")
        return {"type": "error", "code": code, "text": text}

    def ask(self, body):
        """A call for the site of its client. Whatever a caller writes, it speaks as this client and as nobody else."""
        client = body["client"]
        made = {it: body[it] for it in ("type", "msg_id", "client", "transaction", "args") if it in body}
        site = self.sites[self.text.clients[client]]
        self.counts.asked(client, made)
        site.take(line_of(f"client-{client}", site.id, made))

    async def status(self):
        """What stands in `--status --json`."""
        told = await asyncio.gather(*(it.status() for it in self.sites))
        sites = [
            {"site": it.number, "restarts": it.restarts.count, **({"mode": "silent"} if body is None else counts.of_node(body))}
            for it, body in zip(self.sites, told)
        ]
        return {"type": "status_ok", "sites": sites, "sum": counts.sum_of(sites), **self.counts.told()}


# ---- the folder
def held_folder(folder, is_fresh):
    """The folder of a cluster, held as long as this process lives, so that no other runner works there."""
    folder.mkdir(mode=0o700, parents=True, exist_ok=True)
    held = open(folder / "runner", "a+", encoding="ascii")
    try:
        fcntl.flock(held, fcntl.LOCK_EX | fcntl.LOCK_NB)
    except BlockingIOError:
        raise Unable(f"a cluster runs in {folder} already") from None
    held.truncate(0)
    held.write(f"{os.getpid()}\n")
    held.flush()
    for it in [*folder.glob("n*/*"), folder / "text"] if is_fresh else []:
        it.unlink(missing_ok=True)
    (folder / "socket").unlink(missing_ok=True)
    return held


def keep_text(folder, text):
    """Keeps the text of a cluster, which has one as long as it lives."""
    kept = folder / "text"
    if kept.exists() and kept.read_bytes() != text:
        raise Unable(f"{folder} has a cluster of another text (docs/NODES.md says how one goes on with another)")
    if not kept.exists():
        new = folder / "text.new"
        new.write_bytes(text)
        new.replace(kept)


def run(path, folder, is_fresh, round_trip, is_synced, most_logged):
    """Runs the sites of the text in a file, until they are ended."""
    text, folder = nodes.Text(path.read_bytes()), pathlib.Path(folder or f"{path.stem}.cluster")
    held, node = held_folder(folder, is_fresh), nodes.node_program()
    nodes.check_text(node, path, text)
    keep_text(folder, text.bytes)
    clients = text.clients_at(range(len(text.ids)))
    print(f"{len(text.ids)} sites of {path} in {folder}; clients: {clients}", flush=True)
    try:
        asyncio.run(Cluster(text, folder, node, round_trip, is_synced, most_logged).run())
    finally:
        (folder / "socket").unlink(missing_ok=True)
        held.close()


def stop(folder):
    """Ends the runner of a folder, and waits for that."""
    with open(pathlib.Path(folder) / "runner", encoding="ascii") as held:
        try:
            fcntl.flock(held, fcntl.LOCK_EX | fcntl.LOCK_NB)
        except BlockingIOError:
            os.kill(int(held.read()), signal.SIGTERM)
            fcntl.flock(held, fcntl.LOCK_EX)
            return
    raise Unable(f"no cluster runs in {folder}")
