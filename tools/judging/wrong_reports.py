"""Reports that were made wrong, and what the judge has to say of each: edits of right ones, and all small changes of them."""
import re

TICKETS = """workload 1
sites 3
object tickets in 0..1000 = 30
transaction buy(n in 1..4) {
  left := read(tickets);
  if n <= left then { write(tickets = left - n); print(n) } else print(0)
}
client hall at 0 { buy(2); buy(4); buy(1) }
client web at 1 { buy(4); buy(4); buy(3); buy(4) }
client kiosk at 2 { buy(1); buy(2) }
schedule hall web kiosk web hall web kiosk web hall
end
"""

TICKETS_REPORT = """round 0
site 0
hall 1 buy(2): 2
hall 2 buy(4): 4
site 1
web 1 buy(4): 4
web 2 buy(4): 4
site 2
kiosk 1 buy(1): 1
close 1 clause 0 sum 11 bound 9
web 3 buy(3): 3
round 1
site 0
site 1
site 2
kiosk 2 buy(2): 2
close 1 clause 0 sum 4 bound 3
web 4 buy(4): 4
round 2
site 0
site 1
site 2
close 0 clause 2 sum 1 bound 0
hall 3 buy(1): 1
round 3
site 0
site 1
site 2
database
tickets = 5
rounds 4 calls 9
"""

# What nodes may make of the same text: each client some of its calls, in any order, some of them again.
NODES_REPORT = """round 0
site 0
hall 2 buy(4): 4
hall 1 buy(2): 2
hall 1 buy(2): 2
site 1
web 3 buy(3): 3
site 2
kiosk 2 buy(2): 2
kiosk 2 buy(2): 2
close 0 clause 0 sum 10 bound 9
hall 1 buy(2): 2
round 1
site 0
hall 3 buy(1): 1
site 1
site 2
kiosk 1 buy(1): 1
close 1 clause 2 sum 4 bound 3
web 1 buy(4): 4
round 2
site 0
site 1
site 2
database
tickets = 7
rounds 3 calls 10
"""

PUTTING = """workload 1
sites 2
object x in 0..9 = 4
transaction put(n in 0..9) { write(x = n) }
transaction take() { left := read(x); write(x = left - 1); print(left) }
client a at 0 { put(1); take() }
client b at 1 { put(2); take() }
schedule a b a b
end
"""

PUTTING_TOGETHER = """round 0
site 0
a 1 put(1):
site 1
b 1 put(2):
close 0 clause 0 sum 0 bound 0
a 2 take(): 2
round 1
site 0
site 1
b 2 take(): 1
database
x = 0
rounds 2 calls 4
"""

TAKING_TOGETHER = """round 0
site 0
a 1 put(1):
a 2 take(): 1
site 1
b 1 put(2):
b 2 take(): 2
database
x = 1
rounds 1 calls 4
"""

ORDERS = """workload 1
sites 2
relation orders[2] (amount in 1..5, paid in 0..1)
transaction order(n in 1..5) { insert orders (amount = n, paid = 0) into place; print(place) }
transaction pay(place in 0..1) { orders[place].paid := 1 }
transaction due() { print(sum(o.amount of orders when o.paid = 0)) }
client shop at 0 { order(2); order(5); due() }
client web at 1 { pay(0) }
schedule shop shop web shop
end
"""

ORDERS_REPORT = """round 0
site 0
site 1
close 0 clause 0 sum 1 bound 0
shop 1 order(2): 1
round 1
site 0
site 1
close 0 clause 1 sum 1 bound 0
shop 2 order(5): 2
round 2
site 0
site 1
close 1 clause 3 sum 1 bound 0
web 1 pay(0):
round 3
site 0
shop 3 due(): 5
site 1
database
orders.0.used = 1
orders.0.amount = 2
orders.0.paid = 1
orders.1.used = 1
orders.1.amount = 5
orders.1.paid = 0
rounds 4 calls 4
"""

COUNTING = """workload 1
sites 2
object x in 0..100 = 50
transaction down() { write(x = read(x) - 1); print(read(x)) }
client a at 0 { down() }
client b at 1 { down() }
schedule a b
end
"""

COUNTING_REPORT = """round 0
site 0
site 1
close 0 clause 2 sum -1 bound 0
a 1 down(): 49
round 1
site 0
site 1
close 1 clause 3 sum -1 bound 0
b 1 down(): 48
round 2
site 0
site 1
database
x = 48
rounds 3 calls 2
"""

WEIGHED = """workload 2
sites 2
weights 3, 1
object stock in 0..10 = 9
transaction sell(n in 1..3) {
  left := read(stock);
  if n <= left then { write(stock = left - n); print(n) } else print(0)
}
client shop at 0 { sell(2); sell(2); sell(2) }
client web at 1 { sell(1); sell(1) }
schedule shop web shop shop web
end
"""

WEIGHED_REPORT = """round 0
site 0
shop 1 sell(2): 2
shop 2 sell(2): 2
site 1
web 1 sell(1): 1
close 0 clause 0 sum 6 bound 5
shop 3 sell(2): 2
round 1
site 0
site 1
close 1 clause 0 sum 1 bound 0
web 2 sell(1): 1
round 2
site 0
site 1
database
stock = 1
rounds 3 calls 5
"""

# What the same text without weights gives.
EVEN_REPORT = """round 0
site 0
shop 1 sell(2): 2
site 1
web 1 sell(1): 1
close 0 clause 0 sum 4 bound 3
shop 2 sell(2): 2
round 1
site 0
site 1
close 0 clause 0 sum 2 bound 1
shop 3 sell(2): 2
round 2
site 0
site 1
close 1 clause 0 sum 1 bound 0
web 2 sell(1): 1
round 3
site 0
site 1
database
stock = 1
rounds 4 calls 5
"""

ENDING = """workload 2
sites 2
weights 3, 1
object x in -9..90 = 40
transaction take(n in 1..50) {
  write(x = read(x) - n);
  print(n);
  if read(x) < 3 then abort else skip;
  print(0)
}
client a at 0 { take(5); take(30); take(9) }
client b at 1 { take(38); take(4) }
schedule a b a b a
end
"""

ENDING_REPORT = """round 0
site 0
a 1 take(5): 5 0
site 1
b 1 take(38): 38
close 0 clause 0 sum 35 bound 33
a 2 take(30): 30 0
round 1
site 0
a 3 take(9): 9
site 1
b 2 take(4): 4
database
x = 5
rounds 2 calls 5
"""

# What a right report is changed by, pairs of what stands there once and what comes in its place; and a part of what is said of it.
TICKETS_EDITS = [
    ("nothing changed", [], "legal: 4 rounds, 6 local and 3 closing calls; all merges run of 4 rounds; the treaties of 4 rounds"),
    (
        "a call moved to a later round",
        [("hall 2 buy(4): 4\n", ""), ("round 1\nsite 0\n", "round 1\nsite 0\nhall 2 buy(4): 4\n")],
        "round 1, site 1: web 4 buy(4) closes the round and breaks nothing of the treaty",
    ),
    ("a print of a local call changed", [("hall 2 buy(4): 4", "hall 2 buy(4): 3")], "round 0: hall 2 buy(4) prints 4 in a merge, and not 3"),
    ("a print of a closing call changed", [("web 3 buy(3): 3", "web 3 buy(3): 0")], "round 0: web 3 buy(3) prints 3 behind the merges, and not 0"),
    ("a print lost", [("kiosk 1 buy(1): 1", "kiosk 1 buy(1):")], "round 0: kiosk 1 buy(1) prints 1 in a merge, and not nothing"),
    (
        "two calls of one client swapped",
        [("hall 1 buy(2): 2\nhall 2 buy(4): 4\n", "hall 2 buy(4): 4\nhall 1 buy(2): 2\n")],
        "round 0, site 0: hall 2 buy(4): call 1 of hall is next",
    ),
    (
        "two calls of one client swapped but for their numbers",
        [("hall 1 buy(2): 2\nhall 2 buy(4): 4\n", "hall 1 buy(4): 4\nhall 2 buy(2): 2\n")],
        "round 0, site 0: hall 1 buy(4): this call of hall is buy(2)",
    ),
    ("a closing call lost", [("close 1 clause 0 sum 11 bound 9\nweb 3 buy(3): 3\n", "")], "line 10: 'round 1' stands where"),
    ("a closing line lost", [("close 1 clause 0 sum 4 bound 3\n", "")], "line 18: 'round 2' stands where"),
    (
        "the last round closed",
        [("database\n", "close 2 clause 0 sum 1 bound 0\nkiosk 3 buy(1): 1\ndatabase\n")],
        "line 31: 'database' stands where round 4 is wanted",
    ),
    ("another value in the end", [("tickets = 5", "tickets = 6")], "the database: tickets = 6, and the calls leave 5"),
    ("a value that lacks in the end", [("tickets = 5\n", "")], "the database lacks tickets"),
    ("a value too many in the end", [("tickets = 5\n", "tickets = 5\nseats = 5\n")], "the database: there is no seats"),
    (
        "a call at another site",
        [("site 2\nkiosk 1 buy(1): 1\n", "site 2\n"), ("site 1\nweb 1", "site 1\nkiosk 1 buy(1): 1\nweb 1")],
        "round 0, site 1: kiosk 1 buy(1): kiosk stands at site 2",
    ),
    ("a closing call at another site", [("close 0 clause 2", "close 1 clause 2")], "round 2, site 1: hall 3 buy(1): hall stands at site 0"),
    ("a call that lacks", [("kiosk 2 buy(2): 2\n", ""), ("calls 9", "calls 8")], "kiosk makes 1 of its 2 calls"),
    (
        "a call made twice",
        [("site 2\ndatabase\n", "site 2\nkiosk 2 buy(2): 2\ndatabase\n"), ("calls 9", "calls 10")],
        "round 3, site 2: kiosk 2 buy(2): kiosk has made all its calls before",
    ),
    ("a call of no client", [("kiosk 1 buy(1): 1", "booth 1 buy(1): 1")], "there is no client booth"),
    ("another number of calls", [("calls 9", "calls 8")], "the last line says calls 8, and there are 9"),
    ("another number of rounds", [("rounds 4", "rounds 5")], "the last line says rounds 5, and there are 4"),
    ("another sum", [("sum 11 bound 9", "sum 10 bound 9")], "web 3 buy(3) breaks clause 0 sum 11 bound 9, and not clause 0 sum 10 bound 9"),
    ("another bound", [("sum 4 bound 3", "sum 4 bound 2")], "web 4 buy(4) breaks clause 0 sum 4 bound 3, and not clause 0 sum 4 bound 2"),
    ("another clause", [("close 0 clause 2", "close 0 clause 3")], "hall 3 buy(1) breaks clause 2 sum 1 bound 0, and not clause 3 sum 1 bound 0"),
    (
        "a closing call that breaks nothing",
        [
            ("rounds 4", "rounds 5"),
            *[(f"round {number}\n", f"round {number + 1}\n") for number in (3, 2, 1)],
            ("kiosk 1 buy(1): 1\n", "close 2 clause 0 sum 11 bound 10\nkiosk 1 buy(1): 1\nround 1\nsite 0\nsite 1\nsite 2\n"),
        ],
        "kiosk 1 buy(1) closes the round and breaks nothing of the treaty",
    ),
    (
        "a call that breaks the treaty and closes nothing",
        [
            ("close 1 clause 0 sum 4 bound 3\nweb 4 buy(4): 4\nround 2\nsite 0\nsite 1\nsite 2\n", ""),
            ("round 1\nsite 0\nsite 1\n", "round 1\nsite 0\nsite 1\nweb 4 buy(4): 4\n"),
            ("round 3", "round 2"),
            ("rounds 4", "rounds 3"),
        ],
        "round 1, site 1: web 4 buy(4) breaks the treaty, clause 0 with sum 4 and bound 3, and closes no round",
    ),
    ("a number with a zero in front", [("tickets = 5", "tickets = 05")], "line 30: 'tickets = 05' stands where"),
    ("a zero with a sign", [("bound 0", "bound -0")], "line 23: 'close 0 clause 2 sum 1 bound -0' stands where"),
    ("a number with a sign", [("hall 2 buy(4): 4", "hall 2 buy(4): +4")], "line 4: 'hall 2 buy(4): +4' stands where"),
    ("two spaces", [("web 1 buy(4): 4", "web 1 buy(4):  4")], "line 6: 'web 1 buy(4):  4' stands where"),
    ("a space at a line's end", [("kiosk 2 buy(2): 2", "kiosk 2 buy(2): 2 ")], "line 16: 'kiosk 2 buy(2): 2 ' stands where"),
    ("another round's number", [("round 2", "round 3\nsite 0")], "line 19: round 3 stands where round 2 is wanted"),
    (
        "a site that lacks",
        [("round 1\nsite 0\nsite 1\nsite 2\nkiosk 2 buy(2): 2\n", "round 1\nsite 0\nsite 1\n")],
        "round 1: there are 2 sites, and not 3",
    ),
    ("sites in another order", [("site 1\nweb 1", "site 2\nweb 1")], "line 5: site 2 stands where site 1 is wanted"),
    ("a line at the end", [("calls 9\n", "calls 9\n\n")], "line 32: '' stands behind the last line"),
    ("no newline at the end", [("calls 9\n", "calls 9")], "the report doesn't end with a newline"),
    ("cut off", [("tickets = 5\nrounds 4 calls 9\n", "")], "line 30: the end stands where the line of rounds and calls is wanted"),
]
# The kiosk's second call is as legal in round 0, where its site may make it too; but the schedule has it behind the call of `web`.
MOVED_EARLIER = [
    ("round 1\nsite 0\nsite 1\nsite 2\nkiosk 2 buy(2): 2\n", "round 1\nsite 0\nsite 1\nsite 2\n"),
    ("kiosk 1 buy(1): 1\n", "kiosk 1 buy(1): 1\nkiosk 2 buy(2): 2\n"),
]
NODES_EDITS = [
    (
        "nodes, nothing changed",
        [],
        "legal: 3 rounds, 8 local and 2 closing calls; all merges run of 3 rounds; the treaties of 3 rounds",
    ),
    (
        "nodes, calls of one client in another order",
        [("hall 2 buy(4): 4\nhall 1 buy(2): 2\nhall 1 buy(2): 2\n", "hall 1 buy(2): 2\nhall 1 buy(2): 2\nhall 2 buy(4): 4\n")],
        "legal: 3 rounds",
    ),
    ("a call that its client doesn't list", [("kiosk 1 buy(1): 1", "kiosk 1 buy(3): 3")], "round 1, site 2: kiosk 1 buy(3): kiosk doesn't list buy(3)"),
    (
        "a call at the place of another",
        [("web 3 buy(3): 3", "web 2 buy(3): 3")],
        "round 0, site 1: web 2 buy(3): the place of buy(3) in the list of web is 3",
    ),
    (
        "a call at a later place of its own",
        [("web 1 buy(4): 4", "web 2 buy(4): 4")],
        "round 1, site 1: web 2 buy(4): the place of buy(4) in the list of web is 1",
    ),
    ("a call past its client's list", [("hall 3 buy(1)", "hall 4 buy(1)")], "round 1, site 0: hall 4 buy(1): the place of buy(1) in the list of hall is 3"),
    (
        "a listed call at another site",
        [("site 1\nweb 3", "site 1\nkiosk 1 buy(1): 1\nweb 3"), ("calls 10", "calls 11")],
        "round 0, site 1: kiosk 1 buy(1): kiosk stands at site 2",
    ),
    ("a listed call of no client", [("kiosk 1 buy(1): 1", "booth 1 buy(1): 1")], "there is no client booth"),
    (
        "a call that was made again, and its answer lost",
        [("tickets = 7", "tickets = 5")],
        "the database: tickets = 5, and the calls leave 7",
    ),
    (
        "a call that closes nothing, since one before it lacks",
        [("hall 2 buy(4): 4\n", ""), ("tickets = 7", "tickets = 11"), ("calls 10", "calls 9")],
        "round 0, site 0: hall 1 buy(2) closes the round and breaks nothing of the treaty",
    ),
    (
        "a call made again behind what the treaty allows",
        [("hall 2 buy(4): 4\n", "hall 2 buy(4): 4\nhall 2 buy(4): 4\n"), ("tickets = 7", "tickets = 3"), ("calls 10", "calls 11")],
        "round 0, site 0: hall 1 buy(2) breaks the treaty, clause 0 with sum 10 and bound 9, and closes no round",
    ),
    ("the print of a call made again", [("kiosk 2 buy(2): 2\nkiosk 2 buy(2): 2\n", "kiosk 2 buy(2): 2\nkiosk 2 buy(2): 0\n")], "prints 2 in a merge, and not 0"),
]
ORDERS_EDITS = [
    (
        "orders, nothing changed",
        [],
        "legal: 4 rounds, 1 local and 3 closing calls; all merges run of 4 rounds; the treaties of 4 rounds",
    ),
    ("a free slot in the end", [("orders.1.used = 1", "orders.1.used = 0")], "the database: orders.1.used = 0, and the calls leave 1"),
    (
        "fields in another order",
        [("orders.0.amount = 2\norders.0.paid = 1\n", "orders.0.paid = 1\norders.0.amount = 2\n")],
        "orders.0.paid stands where orders.0.amount is wanted",
    ),
    ("another place", [("order(5): 2", "order(5): 1")], "round 1: shop 2 order(5) prints 2 behind the merges, and not 1"),
    (
        "a clause on a slot",
        [("clause 3 sum 1", "clause 2 sum 1")],
        "round 2, site 1: web 1 pay(0) breaks clause 3 sum 1 bound 0, and not clause 2 sum 1 bound 0",
    ),
]
WEIGHED_EDITS = [
    (
        "weights, nothing changed",
        [],
        "legal: 3 rounds, 3 local and 2 closing calls; all merges run of 3 rounds; the treaties of 3 rounds",
    ),
    (
        "the bound of other weights",
        [("sum 6 bound 5", "sum 6 bound 4")],
        "round 0, site 0: shop 3 sell(2) breaks clause 0 sum 6 bound 5, and not clause 0 sum 6 bound 4",
    ),
]
ENDING_EDITS = [
    (
        "calls that end themselves, nothing changed",
        [],
        "legal: 2 rounds, 4 local and 1 closing calls; all merges run of 2 rounds; the treaties of 2 rounds",
    ),
    ("what a call wrote that ended itself", [("x = 5", "x = -4")], "the database: x = -4, and the calls leave 5"),
    ("a print behind the end of a call", [("take(38): 38", "take(38): 38 0")], "round 0: b 1 take(38) prints 38 in a merge, and not 38 0"),
    (
        "a call that ends itself and closes its round",
        [
            ("rounds 2", "rounds 3"),
            ("round 1\n", "round 2\n"),
            ("b 1 take(38): 38\n", "close 1 clause 0 sum 38 bound 11\nb 1 take(38): 38\nround 1\nsite 0\nsite 1\n"),
        ],
        "round 0, site 1: b 1 take(38) closes the round and breaks nothing of the treaty",
    ),
]


def changed(text, edits):
    for old, new in edits:
        assert text.count(old) == 1, f"{old!r} stands {text.count(old)} times in a report"
        text = text.replace(old, new)
    return text


def cases():
    """Each with a name, the command whose report it is, the text, the report and a part of what is to be said of it."""
    found = [
        (name, "run", text, changed(told, edits), reason)
        for text, told, cases_of in [
            (TICKETS, TICKETS_REPORT, TICKETS_EDITS),
            (ORDERS, ORDERS_REPORT, ORDERS_EDITS),
            (WEIGHED, WEIGHED_REPORT, WEIGHED_EDITS),
            (ENDING, ENDING_REPORT, ENDING_EDITS),
        ]
        for name, edits, reason in cases_of
    ]
    moved = changed(TICKETS_REPORT, MOVED_EARLIER)
    return found + [
        ("nothing changed, by the schedule", "steps", TICKETS, TICKETS_REPORT, "legal: 4 rounds"),
        ("a call moved to an earlier round", "run", TICKETS, moved, "legal: 4 rounds"),
        ("a call moved to an earlier round, by the schedule", "steps", TICKETS, moved, "round 0: the schedule has kiosk last, and not web 3 buy(3)"),
        *[(name, "nodes", TICKETS, changed(NODES_REPORT, edits), reason) for name, edits, reason in NODES_EDITS],
        ("calls of nodes, under run", "run", TICKETS, NODES_REPORT, "round 0, site 0: hall 2 buy(4): call 1 of hall is next"),
        ("calls of nodes, under wire", "wire", TICKETS, NODES_REPORT, "round 0, site 0: hall 2 buy(4): call 1 of hall is next"),
        ("calls of run, as of nodes", "nodes", TICKETS, TICKETS_REPORT, "round 0, site 1: web 2 buy(4): the place of buy(4) in the list of web is 1"),
        ("counting, nothing changed", "steps", COUNTING, COUNTING_REPORT, "legal: 3 rounds"),
        ("a frozen delta's sum", "steps", COUNTING, COUNTING_REPORT.replace("clause 3 sum -1", "clause 3 sum 1"), "breaks clause 3 sum -1 bound 0"),
        ("merges that leave two databases", "run", PUTTING, PUTTING_TOGETHER, "round 0: one merge leaves x = "),
        ("a call that prints otherwise in another merge", "run", PUTTING, TAKING_TOGETHER, "round 0: a 2 take() prints 2 in a merge, and not 1"),
        ("the rounds of an even split", "run", WEIGHED, EVEN_REPORT, "round 0, site 0: shop 2 sell(2) closes the round and breaks nothing"),
    ]


def small_changes(told):
    """A report with one line left out, made twice or swapped with the next, or with one number greater or less by 1.

    A text has one report under `steps`, so that none of these is legal.
    """
    lines = told.splitlines(keepends=True)
    for at, line in enumerate(lines):
        yield lines[:at] + lines[at + 1 :]
        yield lines[:at] + [line] + lines[at:]
        if at + 1 < len(lines) and lines[at + 1] != line:
            yield lines[:at] + [lines[at + 1], line] + lines[at + 2 :]
        for number in re.finditer(r"-?\d+", line):
            for change in (1, -1):
                yield lines[:at] + [line[: number.start()] + str(int(number[0]) + change) + line[number.end() :]] + lines[at + 1 :]


def changed_reports():
    """Texts with changed reports of `steps`, none of which is legal."""
    rights = [(TICKETS, TICKETS_REPORT), (ORDERS, ORDERS_REPORT), (COUNTING, COUNTING_REPORT)]
    rights += [(WEIGHED, WEIGHED_REPORT), (ENDING, ENDING_REPORT)]
    return [(text, "".join(lines)) for text, told in rights for lines in small_changes(told)]


def changed_of_nodes():
    """The text of tickets with changed reports of nodes, none of which is legal: two calls of one segment that change places may be."""
    right = sorted(NODES_REPORT.splitlines(keepends=True))
    return [(TICKETS, "".join(lines)) for lines in small_changes(NODES_REPORT) if sorted(lines) != right]
