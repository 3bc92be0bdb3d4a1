"""python3 examples/python/test_homeo.py      tests homeo.py and session.py: a shop over three days, any database put back as it was, and what is
said where a program ends, is late or is cut off"""
import contextlib
import copy
import json
import pathlib
import random
import re
import shlex
import signal
import subprocess
import sys
import tempfile
import unittest
from unittest import mock

import homeo
import session

EXAMPLES = pathlib.Path(__file__).resolve().parent.parent
SHOP = """transaction order(customer in 1..999, n in 1..9) {
  left := read(stock); place := 0;
  if n <= left then insert orders (who = customer, amount = n) into place else skip;
  if 0 < place then write(stock = left - n) else skip;
  print(place)
}
transaction restock(n in 1..100) { write(stock = read(stock) + n) }
transaction ship(customer in 1..999) { delete o of orders when o.who = customer }"""
# Slots are set by index, filled and freed, and a field may be below 0.
ANY = """transaction put(k in 0..5, n in -3..3) { R[k].a := n; R[k].b := n + 4 }
transaction add(n in -3..3) { insert R (b = 3, a = n) into place }
transaction drop(n in -3..3) { delete r of R when r.a = n }
transaction count_up() { write(x = read(x) + 1) }"""

# Of version 2: the write comes first, and is undone.
SELL = "transaction sell(n in 1..9) { write(stock = read(stock) - n); if read(stock) < 3 then { print(0); abort } else print(n) }"


# Names that begin other lines of an answer, and those that what puts slots back would take, if it didn't look.
LIKE_LINES = ["rounds", "refused", "site", "round", "close", "database"]
TAKEN = ["restored", "restore0_done", "restore0_0_fill", "restore1_0_put", "restore0_", "Restore"]
# A program that passes on what the real one reads and writes, and does something else where it has written so many bytes.
STANDS_BETWEEN = """import os, subprocess, sys, time
real, most, then = sys.argv[1], int(sys.argv[2]), sys.argv[3]
program = subprocess.Popen([real, *sys.argv[4:]], stdout=subprocess.PIPE)
while most and (piece := os.read(program.stdout.fileno(), most)):
    most -= len(piece)
    os.write(1, piece)
if not most and then == "late":
    time.sleep(60)
program.kill()
sys.exit(7)
"""


def full(sites, choose, is_full=True):
    """A store with a relation of 64 slots and 8 fields, all of them used or some of them free."""
    fields = {f"f{at}": (-1000 * at, 1000) for at in range(8)}
    slots = [{"used": int(is_full or choose.random() < 0.5), **{name: choose.randint(*it) for name, it in fields.items()}} for _ in range(64)]
    transactions = "transaction see(k in 0..63) { print(R[k].f0); print(R[k].f7) } transaction count_up() { write(x = read(x) + 1) }"
    clients = {f"client{site}": site for site in range(sites)}
    return homeo.Store(sites, {"x": (0, 9999)}, {"R": (64, fields)}, clients, transactions, {"x": 5}, {"R": slots})


class Anything:
    """A random text of relations: its store, and calls of it."""

    def __init__(self, seed):
        self.choose, self.calls_of = random.Random(seed), []
        names = self.choose.sample([*TAKEN, "x", "stock", "R", "S", "T", "one"], 6) + self.choose.sample([*LIKE_LINES, "restore1_0_client"], 3)
        sites, objects, transactions = self.choose.randint(1, 4), {it: (-2, 9) for it in names[:2]}, []
        relations = {it: (self.choose.choice([1, 2, 3, 6, 20]), self.fields()) for it in names[2 : 2 + self.choose.randint(1, 3)]}
        for at, (name, (size, fields)) in enumerate(relations.items()):
            transactions += self.of_relation(at, name, size, fields)
        transactions.append(f"transaction up() {{ write({names[0]} = read({names[0]}) + 1); print(read({names[0]})) }}")
        self.calls_of.append(lambda: "up()")
        clients = {it: self.choose.randrange(sites) for it in names[6:]}
        weights = self.choose.choice([(), tuple(self.choose.randint(1, 3) for _ in range(sites))])
        self.store = homeo.Store(sites, objects, relations, clients, "\n".join(transactions), {it: 0 for it in objects}, weights=weights)

    def fields(self):
        names = self.choose.sample(["a", "b", "c", "restored", "mark", "used_by"], self.choose.randint(1, 3))
        return {it: self.choose.choice([(3, 3), (0, 0), (0, 1), (-3, 3), (1, 7), (-9, -2)]) for it in names}

    def value(self, bounds):
        """One within the bounds, or sometimes past them."""
        return self.choose.randint(bounds[0] - (self.choose.random() < 0.1), bounds[1])

    def of_relation(self, at, name, size, fields):
        first, bounds = next(iter(fields)), "in -10..8"
        parameters = ", ".join(f"p{place} {bounds}" for place in range(len(fields)))
        values = ", ".join(f"{field} = p{place}" for place, field in enumerate(fields))
        drawn = lambda: ", ".join(str(self.value(it)) for it in fields.values())
        self.calls_of += [lambda: f"add{at}({drawn()})"] * 5
        self.calls_of.append(lambda: f"put{at}({self.choose.randrange(size)}, {drawn()})")
        self.calls_of.append(lambda: f"drop{at}({self.value(fields[first])})")
        self.calls_of.append(lambda: f"take{at}({self.choose.randrange(size)})")
        sets = "; ".join(f"{name}[k].{field} := p{place}" for place, field in enumerate(fields))
        yield f"transaction add{at}({parameters}) {{ insert {name} ({values}) into place; print(place) }}"
        yield f"transaction put{at}(k in 0..{size - 1}, {parameters}) {{ {sets}; print({name}[k].{first}) }}"
        yield f"transaction drop{at}(n {bounds}) {{ print(count(r of {name} when r.{first} = n)); delete r of {name} when r.{first} = n }}"
        # The first used slots are freed, so that some stay behind free ones, whatever their fields are.
        yield f"transaction take{at}(n in 0..{size - 1}) {{ delete r of {name} when n < count(s of {name} when true) }}"

    def calls(self, most):
        clients = list(self.store.clients)
        return [(self.choose.choice(clients), self.choose.choice(self.calls_of)()) for _ in range(self.choose.randint(1, most))]


def shop():
    relations = {"orders": (8, {"who": (0, 999), "amount": (0, 9)})}
    return homeo.Store(3, {"stock": (0, 1000)}, relations, {"berlin": 0, "paris": 1, "web": 2}, SHOP, {"stock": 40})


def any_store():
    return homeo.Store(2, {"x": (-2, 9)}, {"R": (6, {"a": (-3, 3), "b": (1, 7)})}, {"one": 0, "two": 1}, ANY, {"x": -2})


class Tests(unittest.TestCase):
    def prints(self, found):
        return [(it.client, it.number, it.transaction, it.arguments, it.prints) for it in found.calls]

    def test_days(self):
        kept = shop()
        first = kept.run([("berlin", "order(7, 2)"), ("paris", "order(8, 3)"), ("web", "order(9, 1)"), ("berlin", "ship(8)")])
        self.assertEqual(sorted(self.prints(first))[0], ("berlin", 1, "order", [7, 2], [1]))
        self.assertEqual(kept.values, {"stock": 34})
        used = [(number, it["who"], it["amount"]) for number, it in enumerate(kept.slots["orders"]) if it["used"]]
        self.assertEqual(used, [(0, 7, 2), (2, 9, 1)])
        # the slot between is free, and the next order gets it
        second = kept.run([("paris", "order(11, 4)"), ("web", "restock(20)")])
        self.assertEqual(self.prints(second)[0], ("paris", 1, "order", [11, 4], [2]))
        self.assertEqual(kept.values, {"stock": 50})
        used = [(number, it["who"], it["amount"]) for number, it in enumerate(kept.slots["orders"]) if it["used"]]
        self.assertEqual(used, [(0, 7, 2), (1, 11, 4), (2, 9, 1)])

    def test_threads_come_behind_what_is_put_back(self):
        for _ in range(20):
            kept = shop()
            kept.run([("berlin", "order(7, 2)"), ("paris", "order(8, 3)")])
            kept.run([("web", "order(9, 1)"), ("paris", "order(10, 1)")], "run")
            slots = [it["who"] for it in kept.slots["orders"] if it["used"]]
            self.assertEqual((slots[:2], sorted(slots[2:]), kept.values), ([7, 8], [9, 10], {"stock": 33}))

    def test_any_database_is_put_back(self):
        choose = random.Random(1)
        for _ in range(60):
            kept, calls = any_store(), []
            for _ in range(choose.randint(1, 12)):
                call = choose.choice(["put({k}, {n})", "add({n})", "add({n})", "drop({n})", "count_up()"])
                calls.append((choose.choice(["one", "two"]), call.format(k=choose.randint(0, 5), n=choose.randint(-3, 3))))
            kept.run(calls)
            values, slots = dict(kept.values), [dict(it) for it in kept.slots["R"]]
            found = kept.run([("one", "count_up()"), ("one", "put(0, 1)")])
            self.assertEqual(kept.values, {"x": min(9, values["x"] + 1)})
            self.assertEqual(kept.slots["R"], [{**slots[0], "a": 1, "b": 5}, *slots[1:]])
            self.assertEqual(self.prints(found), [("one", 1, "count_up", [], []), ("one", 2, "put", [0, 1], [])])

    def test_full_relations(self):
        choose = random.Random(5)
        for sites in (1, 5, 16):
            for is_full in (True, False):
                kept = full(sites, choose, is_full)
                slots = copy.deepcopy(kept.slots)
                asked = [("client0", "see(63)"), *((name, "count_up()") for name in kept.clients)]
                for command in ("steps", "run"):
                    found = kept.run(asked, command)
                    self.assertEqual([it.prints for it in found.calls if it.transaction == "see"], [[slots["R"][63]["f0"], slots["R"][63]["f7"]]])
                    self.assertEqual(kept.slots, slots)
                with session.Session(kept) as opened:
                    opened.run(asked)
                self.assertEqual((kept.slots, kept.values), (slots, {"x": 5 + 3 * sites}))

    def test_any_last_database_is_a_first_one(self):
        """In a session that begins with the last database of another one, all is as in the other one if it goes on."""
        for seed in range(60):
            text = Anything(seed)
            goes_on = copy.deepcopy(text.store)
            with session.Session(goes_on) as opened:
                opened.run(text.calls(30))
                begun, again, threads, alone = (copy.deepcopy(goes_on) for _ in range(4))
                calls = text.calls(12)
                report = opened.run(calls)
            with self.subTest(seed=seed):
                with session.Session(begun) as opened:
                    self.assertEqual((opened.run(calls).calls, begun), (report.calls, goes_on))
                self.assertEqual((again.run(calls).calls, again), (report.calls, goes_on))
                # Under `run` the calls of one client have one order.
                calls = [(min(threads.clients), call) for _, call in calls]
                self.assertEqual((self.prints(threads.run(calls, "run")), threads), (self.prints(alone.run(calls)), alone))

    def test_next_head(self):
        """What next_head.py makes of the answers of a session, and of its own outputs, goes on as the session does."""
        ask = lambda text: homeo.output_of(text, "serve")
        for seed in range(100, 130):
            text = Anything(seed)
            # (a name that a later batch gives to a client for the first time can't be known)
            text.store.clients = {f"at_{name}": site for name, site in text.store.clients.items()}
            first, second, third = (homeo.batch_of(text.store.clients, text.calls(20)) for _ in range(3))
            head = text.store.begin()[0] + "end\n"
            whole = ask(head + first + second + third)
            with self.subTest(seed=seed), tempfile.TemporaryDirectory() as folder:
                file = pathlib.Path(folder) / "head"
                file.write_text(head)
                answers = ask(head + first)
                for batch in (second, third):
                    words = [sys.executable, EXAMPLES / "serving" / "next_head.py", file]
                    made = subprocess.run(words, input=answers, capture_output=True, text=True, check=True).stdout
                    file.write_text(made)
                    answers = ask(made + batch)
                own = lambda answer: re.sub(r".*restore\d+_\d+_mark = .*\n", "", answer)
                last = re.findall(r"(?:(?!rounds |refused ).*\n)*(?:rounds|refused) .*\n", answers)[-1]
                self.assertTrue(own(whole).endswith(own(last)), f"{last}, and not the end of {whole}")

    def test_what_is_put_back_binds_nobody(self):
        kept = shop()
        kept.run([("berlin", "order(7, 2)")])
        found = kept.run([("berlin", "restock(1)"), ("paris", "restock(2)"), ("web", "restock(3)")] * 20)
        self.assertEqual([it for it in found.calls if it.closed], [])
        self.assertEqual(kept.values, {"stock": 158})

    def test_weights(self):
        kept = homeo.Store(2, {"stock": (0, 99)}, {}, {"a": 0, "b": 1}, SELL, {"stock": 12}, weights=(3, 1))
        self.assertEqual(kept.text([]).splitlines()[:3], ["workload 2", "sites 2", "weights 3, 1"])
        found = kept.run([("a", "sell(4)"), ("b", "sell(6)"), ("a", "sell(5)")])
        self.assertEqual(sorted(it[2:] for it in self.prints(found)), [("sell", [4], [4]), ("sell", [5], [5]), ("sell", [6], [0])])
        self.assertEqual(kept.values, {"stock": 3})

    def test_session(self):
        kept = shop()
        kept.run([("berlin", "order(7, 2)"), ("paris", "order(8, 3)"), ("berlin", "ship(7)")])
        with session.Session(kept) as open_shop:
            # the slot that was freed is the next one taken, and what was there before is still there
            first = open_shop.run([("paris", "order(9, 5)"), ("paris", "order(10, 1)")])
            self.assertEqual([it[4] for it in self.prints(first)], [[1], [3]])
            with self.assertRaises(homeo.Refused) as refused:
                open_shop.run([("web", "order(1000, 1)")])
            self.assertEqual((refused.exception.code, refused.exception.shown), ("E9", "client web at 2 { order(1000, 1) }"))
            second = open_shop.run([("web", "ship(8)"), ("berlin", "restock(2)")])
            self.assertEqual(sorted(self.prints(second)), [("berlin", 1, "restock", [2], []), ("web", 1, "ship", [8], [])])
        self.assertEqual(kept.values, {"stock": 31})
        third = kept.run([("web", "order(11, 1)")])
        self.assertEqual((self.prints(third), kept.values), ([("web", 1, "order", [11, 1], [2])], {"stock": 30}))

    @contextlib.contextmanager
    def program_between(self, most, then):
        """A program that writes so many bytes, and then ends, or is late."""
        with tempfile.TemporaryDirectory() as folder:
            made = pathlib.Path(folder) / "program"
            made.with_suffix(".py").write_text(STANDS_BETWEEN)
            words = [sys.executable, str(made.with_suffix(".py")), homeo.program(), str(most), then]
            made.write_text(f'#!/bin/sh\nexec {shlex.join(words)} "$@"\n')
            made.chmod(0o755)
            with mock.patch.object(homeo, "PROGRAM", str(made)):
                yield

    def test_answers_that_are_cut_off(self):
        days = [[("berlin", "order(7, 2)"), ("paris", "order(8, 3)")], [("web", "ship(8)"), ("berlin", "order(9, 1)")], [("web", "restock(5)")]]
        whole, wanted, sizes = shop(), [], []
        with session.Session(whole) as opened:
            answers = opened.exchange
            opened.exchange = lambda sent: (lambda found: sizes.append(len(found)) or found)(answers(sent))
            for day in days:
                opened.run(day)
                wanted.append(copy.deepcopy(whole))
        empty = len("round 0\nsite 0\nsite 1\nsite 2\ndatabase\nrounds 1 calls 0\n") + len("stock = 40\n") + sum(
            len(f"orders.{slot}.{field} = 0\n") for slot in range(8) for field in ("used", "who", "amount"))
        for cut in (empty, empty + 1, empty + sizes[0] // 2, empty + sizes[0] - 1, empty + sizes[0] + 7, empty + sizes[0] + sizes[1] - 2):
            kept, made = shop(), 0
            with self.program_between(cut, "end"):
                opened = session.Session(kept)
                with self.assertRaises(homeo.Ended) as found:
                    for day in days:
                        opened.run(day)
                        made += 1
            self.assertEqual((kept, opened.batch), ([shop(), *wanted][made], made + 1))
            self.assertIn(f"batch {made + 1} was not answered: the program ended with status 7", str(found.exception))
            # The same batch again, and what comes behind it, in a session that begins by itself.
            with opened:
                found = [opened.run(day) for day in days[made:]]
            self.assertEqual((kept, opened.sessions, [it.batch for it in found]), (wanted[-1], 2, list(range(made + 2, 5))))
        with self.program_between(empty // 2, "end"), self.assertRaises(homeo.Ended) as found:
            session.Session(shop())
        self.assertIn("session 1 was not answered", str(found.exception))

    def test_programs_that_end_or_are_late(self):
        kept = shop()
        with session.Session(kept) as opened:
            opened.run([("berlin", "order(7, 2)")])
            opened.program.send_signal(signal.SIGKILL)
            opened.program.wait()
            found = opened.run([("paris", "order(8, 3)")])
            self.assertEqual((found.batch, found.calls[0].prints, opened.sessions), (2, [2], 2))
        with self.program_between(1500, "late"):
            opened = session.Session(shop(), timeout=1)
            with self.assertRaises(homeo.TimedOut) as found:
                for _ in range(9):
                    opened.run([("berlin", "restock(1)")])
            self.assertIn("no answer in 1 seconds", str(found.exception))
            with self.assertRaises(homeo.TimedOut):
                shop().run([("berlin", "restock(1)")] * 90, timeout=1)
        with self.program_between(100, "end"):
            for command in ("steps", "run"):
                with self.assertRaises(homeo.Ended) as found:
                    shop().run([("berlin", "restock(1)")], command)
                self.assertEqual(found.exception.status, 7)
        with mock.patch.object(homeo, "PROGRAM", "/bin/nothing"):
            for ask in (lambda: session.Session(shop()), lambda: shop().run([])):
                self.assertRaisesRegex(homeo.Fault, "the program can't be run: ", ask)

    def test_sessions_without_a_limit(self):
        one, other = shop(), shop()
        days = [[("web", f"order({day}, 1)"), ("paris", f"ship({day - 3})"), ("berlin", "restock(1)")] for day in range(4, 40)]
        with mock.patch.object(session, "MOST_BYTES", 2900), session.Session(one) as opened:
            found = [opened.run(day) for day in days]
            self.assertEqual([it.batch for it in found], list(range(1, 37)))
            self.assertTrue(opened.sent <= 2900 and 2 < opened.sessions < 18, opened.sessions)
        with session.Session(other) as opened:
            self.assertEqual([it.calls for it in found], [opened.run(day).calls for day in days])
            self.assertEqual((one, opened.sessions), (other, 1))
            with self.assertRaises(homeo.Refused) as refused:
                opened.run([("web", "restock(1)")] * 70_000)
            self.assertEqual(refused.exception.code, "E2")
            # A call with the line that ends a batch in it is refused, and the next one is answered for itself.
            self.assertRaises(homeo.Refused, opened.run, [("web", "order(99,\nend\n1)")])
            self.assertEqual([it.arguments for it in opened.run([("web", "restock(\n2)")]).calls], [[2]])
            self.assertEqual((opened.batch, opened.sessions), (38, 1))

    def test_what_does_not_fit(self):
        wrong = [{"values": {}}, {"slots": {"orders": [{}]}}, {"slots": {"orders": [{}] * 8}}, {"transactions": f"{SHOP}\nend"}, {"values": {"stock": 1, "x": 1}}]
        wrong.append({"slots": {"orders": [{"used": 1, "who": 1000, "amount": 0}] * 8}})
        for it in wrong:
            kept = shop()
            for name, value in it.items():
                setattr(kept, name, value)
            for ask in (lambda: kept.run([]), lambda: kept.run([], "run"), lambda: session.Session(kept)):
                self.assertRaises(homeo.Unfit, ask)
        kept = shop()
        kept.transactions += "}"
        for ask in (lambda: kept.run([]), lambda: session.Session(kept)):
            with self.assertRaises(homeo.Refused) as found:
                ask()
            self.assertEqual((found.exception.code, found.exception.line, found.exception.shown[-2:]), ("E4", 12, "}}"))
        with self.assertRaises(homeo.Refused) as found:
            shop().run([("rome", "restock(1)")])
        self.assertEqual((found.exception.code, found.exception.shown), ("E6", "schedule rome"))

    def test_reports_that_are_cut_off(self):
        report = (EXAMPLES / "orders.expected").read_text()
        homeo.read(report)
        for size in range(len(report)):
            self.assertRaises(homeo.NoReport, homeo.read, report[:size])
        self.assertRaises(homeo.NoReport, homeo.read, f"{report}and more\n")
        self.assertRaises(homeo.NoReport, shop().keep, homeo.read(report))

    def test_reports(self):
        for file in sorted(EXAMPLES.glob("*.expected")):
            text = file.read_text()
            found = homeo.read(text)
            self.assertEqual(f"rounds {found.rounds} calls {len(found.calls)}", text.splitlines()[-1])
            self.assertEqual(sum(it.closed for it in found.calls), text.count("\nclose "))
            self.assertEqual(json.loads(found.json())["calls"][0]["client"], found.calls[0].client)
            lines = [f"{it.client} {it.number} {it.transaction}({', '.join(map(str, it.arguments))}):" for it in found.calls]
            printed = ["".join(f" {number}" for number in it.prints) for it in found.calls]
            self.assertEqual([line + numbers for line, numbers in zip(lines, printed)], [line for line in text.splitlines() if ":" in line])
            shown = [f"{name} = {value}" for name, value in found.objects.items()]
            for name, slots in found.relations.items():
                shown += [f"{name}.{number}.{field} = {value}" for number, it in enumerate(slots) for field, value in it.items()]
            self.assertEqual(shown, [line for line in text.splitlines() if " = " in line])

    def test_refused(self):
        with self.assertRaises(homeo.Refused) as found:
            shop().run([("web", "order(9)")])
        it = found.exception
        self.assertEqual((it.code, it.sentence, it.column, it.shown), ("E8", homeo.SENTENCES["E8"], 19, "client web at 2 { order(9) }"))
        self.assertTrue(str(it).startswith(f"E8 at line {it.line}, column 19: "))
        self.assertEqual(str(it).splitlines()[2].index("^") - 4, 18)


if __name__ == "__main__":
    unittest.main()
