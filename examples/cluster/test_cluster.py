"""python3 examples/cluster/test_cluster.py      tests cluster.py and its callers: what is killed, frozen and begun again, and what is refused"""
import contextlib
import json
import os
import pathlib
import re
import signal
import socket
import subprocess
import sys
import tempfile
import threading
import unittest
import unittest.mock

import advice
import counts
import keeping
import status
from caller import Caller, Late, Malformed, NoAnswer, NoCluster, NotListed, StillOpen

FOLDER = pathlib.Path(__file__).resolve().parent
TICKETS = FOLDER.parent / "tickets.homeo"


def command(*words):
    return [sys.executable, "-B", str(FOLDER / "cluster.py"), *map(str, words)]


class Tests(unittest.TestCase):
    def setUp(self):
        made = tempfile.TemporaryDirectory(prefix="homeo-cluster-")
        self.addCleanup(made.cleanup)
        self.folder, self.process = pathlib.Path(made.name) / "shops", None
        self.addCleanup(self.end)

    def begin(self, text=TICKETS, *words):
        self.process = subprocess.Popen(command(text, "--dir", self.folder, *words), stdout=subprocess.PIPE, stderr=subprocess.PIPE)

    def end(self):
        if self.process:
            self.process.kill()
            self.process.communicate()

    def signal_node(self, site, which):
        os.kill(int((self.folder / f"n{site}" / "pid").read_text()), which)

    def refused(self, *words, wanted=1):
        ran = subprocess.run(command(*words), capture_output=True, text=True, timeout=60)
        self.assertEqual(ran.returncode, wanted)
        return ran.stderr

    def sum(self):
        return status.told(status.Folder(self.folder))["sum"]

    def test_calls(self):
        self.begin()
        with Caller(self.folder, "hall") as hall, Caller(self.folder, "kiosk") as kiosk:
            told = [hall.call("buy", n) for n in (2, 4, 1, 2)]
            self.assertEqual([it.prints for it in told], [[2], [4], [1], [2]])
            self.assertEqual([it.is_local() for it in told], [True, True, True, False])
            self.assertEqual([it.place for it in told], [0, 1, 2, None])
            self.assertEqual(kiosk.call("buy", 1).prints, [1])
            self.assertEqual(self.sum(), {"tickets": 20})
            with self.assertRaises(NotListed):
                hall.call("buy", 3)
            with self.assertRaises(Malformed):
                hall.call("buy", "two")
            with self.assertRaises(NotListed), Caller(self.folder, "nobody") as nobody:
                nobody.call("buy", 1)
            self.assertEqual(hall.call("buy", 1).prints, [1])

    def test_cluster_that_is_not_there(self):
        with Caller(self.folder, "hall") as hall:
            with self.assertRaises(NoCluster):
                hall.call("buy", 1, timeout=0.2)
            self.begin()
            self.assertEqual(hall.call("buy", 1).prints, [1])
            self.assertEqual(self.sum(), {"tickets": 29})

    def test_caller_that_comes_later(self):
        self.begin()
        with Caller(self.folder, "hall") as one, Caller(self.folder, "hall") as other:
            one.call("buy", 1)
            other.call("buy", 1)
            one.number = other.number - 2
            with self.assertRaises(Late), unittest.mock.patch("time.time_ns", lambda: 0):
                one.call("buy", 1)
            self.assertEqual(one.call("buy", 1).prints, [1])
            self.assertEqual(self.sum(), {"tickets": 27})

    def test_node_that_is_killed(self):
        self.begin()
        with Caller(self.folder, "web") as web:
            for _ in range(5):
                self.assertEqual(web.call("buy", 4).prints, [4])
                self.signal_node(1, signal.SIGKILL)
            self.assertEqual(web.call("buy", 4).prints, [4])
            self.assertEqual(self.sum(), {"tickets": 6})

    def test_node_that_is_frozen(self):
        self.begin()
        with Caller(self.folder, "hall", timeout=20) as hall, Caller(self.folder, "kiosk") as kiosk:
            hall.call("buy", 4)
            self.signal_node(1, signal.SIGSTOP)
            hall.call("buy", 4)
            with self.assertRaises(NoAnswer):
                hall.call("buy", 4, timeout=0.3)
            with self.assertRaises(StillOpen):
                hall.call("buy", 1)
            self.assertIsNone(self.sum())
            self.assertEqual([it["mode"] for it in status.told(status.Folder(self.folder))["sites"]], ["stopped", "silent", "stopped"])
            self.signal_node(1, signal.SIGCONT)
            self.assertEqual(hall.again().prints, [4])
            self.assertEqual(kiosk.call("buy", 2).prints, [2])
            self.assertEqual(self.sum(), {"tickets": 16})

    def test_runner_that_is_killed(self):
        self.begin(TICKETS, "--lines", "3")
        with Caller(self.folder, "web") as web:
            self.assertEqual([web.call("buy", 4).prints for _ in range(3)], [[4]] * 3)
            self.end()
            beginning = threading.Timer(0.5, self.begin, (TICKETS, "--lines", "3"))
            beginning.start()
            self.assertEqual(web.call("buy", 3).prints, [3])
            beginning.join()
            self.assertEqual(self.sum(), {"tickets": 15})

    def test_caller_that_is_begun_again(self):
        self.begin()
        kept = self.folder.parent / "open"
        with Caller(self.folder, "web", kept=kept) as web:
            web.call("buy", 4)
            self.assertIsNone(web.open)
            self.signal_node(1, signal.SIGSTOP)
            with self.assertRaises(NoAnswer):
                web.call("buy", 3, timeout=0.2)
        self.signal_node(1, signal.SIGCONT)
        with Caller(self.folder, "web", kept=kept) as web:
            self.assertEqual(web.open["args"], [3])
            self.assertEqual(web.again().prints, [3])
            self.assertEqual((web.open, kept.exists()), (None, False))
            self.assertEqual(self.sum(), {"tickets": 23})

    def test_begun_again(self):
        self.begin()
        with Caller(self.folder, "hall") as hall:
            hall.call("buy", 4)
            subprocess.run(command("--stop", self.folder), check=True, timeout=60)
            self.assertEqual(self.process.wait(10), 0)
            self.assertFalse((self.folder / "socket").exists())
            self.end()
            self.begin()
            self.assertEqual(hall.call("buy", 1).prints, [1])
            self.assertEqual(self.sum(), {"tickets": 25})

    def test_what_is_refused(self):
        self.begin()
        with Caller(self.folder, "hall") as hall:
            hall.call("buy", 1)
        self.assertIn("runs in", self.refused(TICKETS, "--dir", self.folder))
        subprocess.run(command("--stop", self.folder), check=True, timeout=60)
        self.assertIn("another text", self.refused(FOLDER.parent / "stock.homeo", "--dir", self.folder))
        self.assertIn("no cluster runs", self.refused("--stop", self.folder))
        wrong = self.folder.parent / "wrong.homeo"
        wrong.write_text("workload 1\nsites 2\nobject x in 0..1 = 5\nend\n")
        self.assertIn("refused E", self.refused(wrong, "--dir", self.folder.parent / "wrong"))

    def test_caller_that_speaks_for_a_node(self):
        self.begin()
        with Caller(self.folder, "hall") as hall, socket.socket(socket.AF_UNIX) as raw:
            hall.call("buy", 4)
            before = status.told(status.Folder(self.folder))["sites"]
            raw.connect(str(self.folder / "socket"))
            breach = {"round": 0, "site": 1, "client": "web", "call": 1, "finding": [0, 11, 9]}
            packets = [{"type": "stop", **breach}, {"type": "want", **breach}, {"type": "state", "round": 0, "site": 1, "deltas": [-9]}]
            packets.append({"type": "tick"})
            for body in packets:
                raw.sendall(json.dumps({"src": "n1", "dest": "n0", "body": body}).encode() + b"\n")
            wrong = [b"\xff{", b"", b"[]", b"null", b"[" * 100_000, b'{"body":[]}', b'{"body":{"type":["call"],"client":"hall"}}']
            wrong.append(b'{"body":{"type":"call","client":["hall"]}}')
            raw.sendall(b"\n".join([*wrong, json.dumps({"src": "n1", "body": {"type": "call", "client": "hall"}}).encode()]) + b"\n")
            with raw.makefile("rb") as lines:
                self.assertEqual([json.loads(lines.readline())["body"]["code"] for _ in range(13)], [12] * 11 + [10, 12])
            self.assertEqual(status.told(status.Folder(self.folder))["sites"], before)

    def test_status(self):
        self.begin()
        with Caller(self.folder, "hall") as hall:
            for _ in range(4):
                hall.call("buy", 4)
        body = json.loads(status.said(status.Folder(self.folder), "json"))
        self.assertEqual([(it["local"], it["closing"]) for it in body["calls"]], [(3, 1)])
        self.assertEqual((body["closings"], body["closings_by_object"], body["sum"]), ({"buy(4)": 1}, {"tickets": 1}, {"tickets": 14}))
        page = status.said(status.Folder(self.folder), "prometheus")
        for line in page.splitlines():
            self.assertRegex(line, r'^(# (HELP|TYPE) homeo_\w+ .+|homeo_\w+(\{(\w+="[^"]*",?)+\})? -?[0-9.]+)$')
        self.assertEqual(re.findall(r"^homeo_answer_seconds_count (\d+)$", page, re.M), ["4"])
        self.assertIn("closings by object: tickets 1\n", status.said(status.Folder(self.folder), "table"))
        self.assertEqual(status.said(status.Folder(self.folder), "database"), "database\ntickets = 14\nround 1\n")

    def test_page(self):
        self.begin()
        with Caller(self.folder, "hall") as hall:
            for _ in range(4):
                hall.call("buy", 4)
        self.signal_node(2, signal.SIGSTOP)
        file = self.folder.parent / "page.html"
        subprocess.run(command("--status", self.folder, "--html", file), check=True, timeout=60)
        self.signal_node(2, signal.SIGCONT)
        page = file.read_text()
        wanted = ["<td>tickets</td><td class=number>1</td>", "tickets may fall by 14 in all", "by buy(4)", "<b>Weights from a forecast</b>"]
        wanted += ["<td>buy</td><td class=number>1</td>", "<b>1</b>rounds closed in the last hour", "<span class=wrong>silent</span>", "there is no sum"]
        self.assertEqual([it for it in wanted if it not in page], [])
        self.assertFalse(re.search(r"<script|src=|href=|https?://", page))
        self.assertIn("--html is of a status", self.refused("--stop", self.folder, "--html", file, wanted=2))

    def test_advice(self):
        text = (FOLDER.parent / "concert.homeo").read_text()
        closings = {"sell(4)": 3, "give_back(2)": 1}
        told = lambda seats: [(it.subject, it.count, it.words, it.rules) for it in advice.reasons(text, closings, {"seats": seats})]
        moves = "seats may not rise; give_back(2) at 0 (+2) closes a round at once"
        self.assertEqual(told(1), [("seats", 4, moves, ("A number that starts at its bound has no slack",))])
        moves = "seats may fall by 17 in all, site 0 by 8, site 1 by 6, site 2 by 3; room for 1 call such as sell(4) at 1 (-4)"
        self.assertEqual(told(21), [("seats", 4, moves, ("Weights from a forecast",))])
        self.assertEqual(advice.reasons(text, {}, {"seats": 1}), [])

    def test_closings_of_the_last_hour(self):
        hour = counts.LastHour()
        for minute, name in ((0, "a"), (1, "a"), (30, "b"), (60, "a")):
            with unittest.mock.patch("time.monotonic", lambda: 60.0 * minute):
                hour.add(name)
        with unittest.mock.patch("time.monotonic", lambda: 60.0 * 60):
            self.assertEqual(hour.sum(), {"a": 2, "b": 1})
        with unittest.mock.patch("time.monotonic", lambda: 60.0 * 120):
            self.assertEqual(hour.sum(), {})

    def test_counts_together(self):
        one, other = counts.Counts(0), counts.Counts(0)
        one.count(1, "local", 0.001, "t()")
        for _ in range(2):
            other.count(0, "closing", 9, "u()")
        found = counts.together([one.told(), other.told()])
        self.assertEqual([(it["site"], it["local"], it["closing"], it["at_once"]) for it in found["calls"]], [(0, 0, 2, 0), (1, 1, 0, 1)])
        self.assertEqual((found["closings"], found["closings_of_last_hour"]), ({"u()": 2}, {"u()": 2}))
        self.assertEqual([it for it in found["seconds"]["buckets"] if it[1]], [[0.001, 1], [None, 2]])

    def test_what_is_kept(self):
        kept = keeping.Kept(self.folder, False)
        kept.append([b"one", b"two"])
        os.write(kept.log, b"cut of")
        again = keeping.Kept(self.folder, True)
        self.assertEqual(again.load(), (None, [b"one", b"two"]))
        number = again.begin()
        again.append([b"three"])
        self.assertEqual(keeping.Kept(self.folder, False).load(), (None, [b"one", b"two", b"three"]))
        again.keep({"round": 1}, number)
        self.assertEqual(keeping.Kept(self.folder, False).load(), ({"round": 1}, [b"three"]))
        with contextlib.suppress(FileNotFoundError):
            self.fail(f"{(self.folder / 'log.0').read_bytes()} is kept behind its snapshot")


if __name__ == "__main__":
    unittest.main()
