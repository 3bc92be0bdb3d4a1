"""python3 examples/cluster/test_redis.py      tests a cluster over Redis Streams, on loopback alone; it needs redis-server and the package redis"""
import contextlib
import io
import json
import os
import pathlib
import signal
import subprocess
import sys
import tempfile
import time
import unittest
import unittest.mock

sys.dont_write_bytecode = True
import ask
import cluster
import dashboard
import nodes
import status
from caller import Caller, NoAnswer, NoCluster, NotListed
from engines import Barred, Lost, Overtaken
from redis_engine import RedisEngine, library
from redis_server import Server, free_port, is_there
from test_turns import check_engine

FOLDER = pathlib.Path(__file__).resolve().parent
TICKETS = FOLDER.parent / "tickets.homeo"
SITES = 3


def command(program, *words):
    return [sys.executable, "-B", str(FOLDER / program), *map(str, words)]


def refused(program, *words):
    """What a program says that ends with status 1, or with 2 for its words."""
    with unittest.mock.patch.object(sys, "argv", [program.__name__, *map(str, words)]), contextlib.redirect_stderr(io.StringIO()) as said:
        try:
            program.main()
        except SystemExit as ended:
            return said.getvalue() if ended.code == 2 else ended.code
    raise AssertionError(f"{words} aren't refused")


class Tests(unittest.TestCase):
    def setUp(self):
        made = tempfile.TemporaryDirectory(prefix="homeo-redis-")
        self.addCleanup(made.cleanup)
        self.folder, self.runners = pathlib.Path(made.name), []
        self.server = Server(self.folder)
        self.server.start()
        self.addCleanup(self.end)

    def kill(self, number):
        self.runners[number].kill()
        self.runners[number].communicate()

    def end(self):
        for number in range(len(self.runners)):
            self.kill(number)
        self.server.kill()

    def begin(self, *sites, text=TICKETS, address=None):
        for site in sites or range(SITES):
            words = command("cluster.py", text, "--redis", address or self.server.address, "--site", site, "--cluster", "shops")
            with open(self.said(len(self.runners)), "a", encoding="utf-8") as said:
                self.runners.append(subprocess.Popen(words, stdout=subprocess.PIPE, stderr=said, text=True))
        return self.runners[-1]

    def said(self, number):
        """The file with the complaints of a runner."""
        return self.folder / f"{number}.said"

    def caller(self, client, **more):
        return Caller("shops", client, redis=self.server.address, **more)

    def shops(self):
        return status.found("shops", self.server.address)

    def engine(self):
        return RedisEngine(self.server.address, "shops")

    def sum(self):
        return status.told(self.shops())["sum"]

    # ---- what goes on
    def test_calls(self):
        self.begin()
        with self.caller("hall") as hall, self.caller("kiosk") as kiosk:
            found = [hall.call("buy", n) for n in (2, 4, 1, 2)]
            self.assertEqual([it.prints for it in found], [[2], [4], [1], [2]])
            self.assertEqual([it.path for it in found], ["local", "local", "local", "closing"])
            self.assertEqual(kiosk.call("buy", 1).prints, [1])
            self.assertEqual(self.sum(), {"tickets": 20})
            with self.assertRaises(NotListed):
                hall.call("buy", 3)
            with self.assertRaises(NotListed), self.caller("nobody") as nobody:
                nobody.call("buy", 1)
        words = command("ask.py", "--redis", self.server.address, "shops", "web", "buy(4)")
        asked = subprocess.run(words, capture_output=True, text=True, timeout=60)
        self.assertEqual((asked.returncode, asked.stdout), (0, "buy(4): 4   local, round 1\n"))

    def test_nodes_and_runners_that_are_killed(self):
        self.begin()
        with self.caller("web") as web:
            for turn in range(6):
                self.assertEqual(web.call("buy", 4).prints, [4])
                if turn % 2:
                    self.kill(1)
                    self.begin(1)
                    self.runners[1] = self.runners.pop()
                else:
                    children = pathlib.Path(f"/proc/{self.runners[1].pid}/task/{self.runners[1].pid}/children").read_text()
                    os.kill(int(children.split()[0]), signal.SIGKILL)
            self.assertEqual(web.call("buy", 4).prints, [4])
            self.assertEqual(self.sum(), {"tickets": 2})

    def test_server_that_is_killed(self):
        self.begin()
        with self.caller("web") as web, self.caller("hall") as hall:
            self.assertEqual([web.call("buy", 4).prints for _ in range(3)], [[4]] * 3)
            self.server.kill()
            with self.assertRaises(NoAnswer):
                web.call("buy", 3, timeout=0.3)
            self.server.start()
            self.assertEqual(web.again().prints, [3])
            self.assertEqual(hall.call("buy", 4).prints, [4])
            self.assertEqual(self.sum(), {"tickets": 11})

    def test_two_runners_of_a_site(self):
        self.begin()
        with self.caller("hall") as hall, self.caller("web") as web:
            hall.call("buy", 1)
            self.begin(0)
            while not (found := [self.said(it).read_text() for it in (0, 3)]) or not any(found):
                self.assertIn(hall.call("buy", 1).prints, ([1], [0]))
            self.assertRegex("".join(found), r"^site 0: another runner goes on with it, at .+, process \d+; this one waits until that is silent\n$")
            self.runners[0 if found[1] else 3].kill()
            self.assertIn(hall.call("buy", 2).prints, ([2], [0]))
            self.assertIn(web.call("buy", 4).prints, ([4], [0]))

    def test_site_that_is_not_there(self):
        self.begin(0, 1)
        with self.caller("hall") as hall, self.caller("kiosk") as kiosk:
            self.assertEqual([hall.call("buy", 4).prints for _ in range(2)], [[4]] * 2)
            with self.assertRaises(NoAnswer):
                hall.call("buy", 4, timeout=0.5)
            self.assertEqual([it["mode"] for it in status.told(self.shops())["sites"]], ["stopped", "stopped", "silent"])
            self.begin(2)
            self.assertEqual((hall.again().prints, kiosk.call("buy", 1).prints), ([4], [1]))

    def test_streams_are_trimmed(self):
        self.begin()
        engine = self.engine()
        with self.caller("web") as web:
            for _ in range(300):
                web.call("buy", 4)
        for key in engine.redis.scan_iter("homeo:shops:*"):
            if engine.redis.type(key) == b"stream":
                self.assertLess(engine.redis.xlen(key), 250, key)

    def test_ended_by_a_signal(self):
        runner = self.begin(0)
        self.assertRegex(runner.stdout.readline(), r"^site 0 of 3 of .*tickets.homeo begins shops at 127.0.0.1:\d+; clients: hall at 0\n$")
        runner.send_signal(signal.SIGTERM)
        self.assertEqual(runner.wait(10), 0)
        self.assertRegex(self.begin(0).stdout.readline(), r" goes on with shops at ")

    # ---- what it tells
    def test_status(self):
        self.begin()
        with self.caller("hall") as hall:
            for _ in range(4):
                hall.call("buy", 4)
        while not status.told(self.shops())["closings"]:
            time.sleep(0.05)
        body = json.loads(status.said(self.shops(), "json"))
        self.assertEqual([(it["local"], it["closing"]) for it in body["calls"]], [(3, 1)])
        self.assertEqual([it["has_runner"] for it in body["sites"]], [True] * 3)
        self.assertEqual((body["closings_of_last_hour"], body["closings_by_object"]), ({"buy(4)": 1}, {"tickets": 1}))
        self.assertEqual(status.said(self.shops(), "database"), "database\ntickets = 14\nround 1\n")
        self.assertIn("<h1>shops at 127.0.0.1:", dashboard.page(self.shops()))
        self.runners[2].kill()
        while "site 2: running in round 1; its runner is silent" not in status.said(self.shops(), "table"):
            time.sleep(0.1)

    # ---- what is refused
    def test_what_is_refused(self):
        self.begin(0).stdout.readline()
        at = ("--redis", self.server.address)
        nowhere = ("--redis", f"127.0.0.1:{free_port()}")
        begun = [
            ("Redis isn't reached at 127.0.0.1:", TICKETS, *nowhere, "--site", 0),
            ("has the sites 0 to 2, and no site 3", TICKETS, *at, "--site", 3, "--cluster", "shops"),
            ("has another text (docs/NODES.md", FOLDER.parent / "stock.homeo", *at, "--site", 0, "--cluster", "shops"),
            ("has no cluster shop", "--status", "shop", *at),
            ("isn't reached", "--status", "shops", *nowhere),
            ("no address of Redis", TICKETS, "--redis", "http://127.0.0.1:1", "--site", 0),
            ("no address of Redis", TICKETS, "--redis", f"redis://{self.server.address}?word=1", "--site", 0),
            ("No such file", TICKETS, "--redis", "@none", "--site", 0),
            ("--site says which", TICKETS, *at),
            ("by --redis", TICKETS, "--site", 0),
            ("--rtt is for a cluster in a folder", TICKETS, *at, "--site", 0, "--rtt", 5),
        ]
        for said, *words in begun:
            self.assertIn(said, refused(cluster, *words))
        for said, *words in (("Redis at 127.0.0.1:", *at), ("Redis isn't reached at 127.0.0.1:", *nowhere)):
            self.assertIn(f"NoCluster: {said}", refused(ask, *words, "shop", "hall", "buy(1)", "--timeout", 0.3))

    def test_without_the_package(self):
        with unittest.mock.patch.dict(sys.modules, {"redis": None}):
            for program, *words in ((cluster, TICKETS, "--site", 0), (cluster, "--status", "shops"), (ask, "shops", "hall", "buy(1)")):
                said = refused(program, *words, "--redis", self.server.address)
                self.assertRegex(said, r"^\w+.py: --redis needs the package redis, which .+ doesn't have: .+$")
            self.assertIn("No such file", refused(cluster, "--status", self.folder / "none"))

    def test_password(self):
        locked = Server(self.folder, "--requirepass", "open sesame", "--appendfilename", "locked.aof")
        locked.start()
        self.addCleanup(locked.kill)
        self.assertIn("doesn't let this in", refused(cluster, TICKETS, "--redis", locked.address, "--site", 0))
        began = time.monotonic()
        with self.assertRaises(NoCluster), Caller("shops", "hall", redis=locked.address) as hall:
            hall.call("buy", 1)
        self.assertLess(time.monotonic() - began, 5)
        (self.folder / "address").write_text(f"redis://:open%20sesame@{locked.address}/1\n")
        for site in range(SITES):
            self.begin(site, address=f"@{self.folder}/address")
        with Caller("shops", "hall", redis=f"@{self.folder}/address") as hall:
            self.assertEqual(hall.call("buy", 1).prints, [1])
        self.assertNotIn("sesame", self.runners[0].stdout.readline())

    def test_server_that_may_forget(self):
        self.engine().redis.config_set("maxmemory-policy", "allkeys-lru")
        self.begin(0)
        while "may forget what it keeps: it may drop keys" not in self.said(0).read_text():
            time.sleep(0.02)

    # ---- the engine
    def test_engine(self):
        check_engine(self, self.engine)

    def test_engine_whose_server_is_killed(self):
        one = self.engine()
        one.begin(nodes.Text(TICKETS.read_bytes()), ["tickets"])
        one.read("n0", one.FIRST, 9, 0.01)
        one.commit("n0", "1-1", {"round": 1}, [], [])
        one.read("n0", "1-1", 9, 0.01)
        self.server.kill()
        with self.assertRaises((Lost, Overtaken)):
            one.commit("n0", "2-1", {"round": 2}, [], [])
        with self.assertRaises(Lost) as lost:
            one.load("n0")
        self.assertNotIsInstance(lost.exception, Barred)
        self.server.start()
        self.assertEqual(one.load("n0"), ("1-1", {"round": 1}))


if __name__ == "__main__":
    if not is_there():
        sys.exit("test_redis.py: there is no redis-server here")
    try:
        library()
    except nodes.Unable as fault:
        sys.exit(f"test_redis.py: {fault}")
    unittest.main()
