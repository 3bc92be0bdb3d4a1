"""python3 examples/cluster/test_turns.py      tests runners by turns over tables in a file, as another engine than Redis"""
import os
import pathlib
import signal
import subprocess
import sys
import tempfile
import unittest

sys.dont_write_bytecode = True
import nodes
import status
from caller import Caller, NotListed, Streams
from engines import Lost, Overtaken
from table_engine import TableEngine

FOLDER = pathlib.Path(__file__).resolve().parent
TICKETS = FOLDER.parent / "tickets.homeo"
RUN = f"import sys, pathlib; sys.dont_write_bytecode = True; sys.path.insert(0, {str(FOLDER)!r})\n"
RUN += "import turns; from table_engine import TableEngine\n"
RUN += "turns.run(pathlib.Path(sys.argv[1]), TableEngine(sys.argv[2]), int(sys.argv[3]))"


def check_engine(test, make):
    """That two engines of a cluster that is still to begin keep what an engine has to."""
    one, other, text = make(), make(), nodes.Text(TICKETS.read_bytes())
    with test.assertRaises(Lost):
        one.site_of("web")
    test.assertEqual((one.begin(text, ["tickets"]), other.begin(text, ["tickets"])), (True, False))
    with test.assertRaises(nodes.Unable):
        other.begin(nodes.Text(b"workload 1 sites 1 end"), [])
    test.assertEqual((one.text(), one.site_of("web"), one.site_of("nobody")), (text.bytes, 1, None))
    one.put("n0", b"first")
    one.put("n0", b"second")
    (first, line), (second, _) = one.read("n0", one.FIRST, 9, 1)
    test.assertEqual((line, len(other.read("n0", other.FIRST, 1, 1))), (b"first", 1))
    one.commit("n0", second, {"round": 1}, [("n1", b"packet")], [("hall", b"answer")])
    with test.assertRaises(Overtaken):
        other.commit("n0", first, {"round": 9}, [("n1", b"other")], [("hall", b"other")])
    with test.assertRaises(Overtaken):
        other.read("n0", other.FIRST, 9, 1)
    test.assertEqual((one.load("n0"), one.read("n0", second, 9, 0.01)), ((second, {"round": 1}), []))
    one.commit("n0", second, None, [("n1", b"again")], [])
    test.assertEqual(other.load("n0"), (second, {"round": 1}))
    test.assertEqual([line for _, line in one.read("n1", one.FIRST, 9, 1)], [b"packet", b"again"])
    test.assertEqual([line for _, line in one.answers("hall", one.FIRST, 1)], [b"answer"])
    test.assertEqual(one.answers("hall", one.last("hall"), 0.01), [])


class Tests(unittest.TestCase):
    def setUp(self):
        made = tempfile.TemporaryDirectory(prefix="homeo-turns-")
        self.addCleanup(made.cleanup)
        self.file, self.runners = pathlib.Path(made.name) / "tables", []
        self.addCleanup(self.end)

    def kill(self, number):
        self.runners[number].kill()
        self.runners[number].communicate()

    def end(self):
        for number in range(len(self.runners)):
            self.kill(number)

    def begin(self, *sites):
        for site in sites:
            words = [sys.executable, "-c", RUN, str(TICKETS), str(self.file), str(site)]
            self.runners.append(subprocess.Popen(words, stdout=subprocess.PIPE, stderr=subprocess.PIPE, text=True))
        return self.runners[-1]

    def caller(self, client):
        found = Caller(self.file, client)
        found.way = Streams(TableEngine(self.file), client)
        return found

    def sum(self):
        return status.told(status.Kept(TableEngine(self.file)))["sum"]

    def test_calls_and_kills(self):
        self.begin(0, 1, 2)
        with self.caller("hall") as hall, self.caller("web") as web, self.caller("nobody") as nobody:
            self.assertEqual([hall.call("buy", n).path for n in (2, 4, 1, 2)], ["local", "local", "local", "closing"])
            with self.assertRaises(NotListed):
                nobody.call("buy", 1)
            children = pathlib.Path(f"/proc/{self.runners[1].pid}/task/{self.runners[1].pid}/children").read_text()
            os.kill(int(children.split()[0]), signal.SIGKILL)
            self.assertEqual(web.call("buy", 4).prints, [4])
            self.kill(1)
            self.begin(1)
            self.assertEqual(web.call("buy", 4).prints, [4])
            self.assertEqual(self.sum(), {"tickets": 13})

    def test_two_runners_of_a_site(self):
        self.begin(0, 1, 2, 1)
        with self.caller("web") as web:
            while not (found := TableEngine(self.file).told("n1")) or not found["calls"]:
                self.assertIn(web.call("buy", 3).prints, ([3], [0]))
            next(it for it in self.runners if it.pid == found["runner"]["process"]).kill()
            self.assertIn(web.call("buy", 4).prints, ([4], [0]))

    def test_engine(self):
        check_engine(self, lambda: TableEngine(self.file))


if __name__ == "__main__":
    unittest.main()
