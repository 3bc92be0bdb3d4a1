"""Random workload texts, each a function of its seed, small enough that most are accepted.

Some transactions are of a common kind (add to a number, sell where enough is left, move, insert, pay, look), others any commands.
Some texts have room for many calls that sites make alone, others next to none; in some, sites sell by turns what gets scarce.
About half are of version 2, with weights and calls that end themselves; in others its words are names.
"""
import random

OBJECT_BOUNDS = [(0, 1_000_000), (0, 1_000), (0, 1_000), (0, 60), (0, 20), (0, 3), (-50, 50), (-1_000, -10)]
SCARCE_BOUNDS = [(0, 20), (0, 60), (0, 90)]
FIELD_BOUNDS = [(0, 1), (0, 1), (1, 5), (0, 9), (-3, 3), (1, 99)]
PARAMETER_BOUNDS = [(1, 3), (0, 4), (1, 9), (-2, 2), (0, 1)]
SITES = [1, 2, 2, 2, 3, 3, 4, 5, 8, 16]
WEIGHTS = [0, 0, 1, 1, 1, 2, 3, 10, 1_000]
CLIENTS = [1, 2, 2, 3, 4, 5, 6, 8, 12, 30, 64]
MOST_CALLS = 70


class Transaction:
    """Makes the text of one transaction, over the objects and relations of a text."""

    def __init__(self, maker, name):
        self.maker, self.random, self.name = maker, maker.random, name
        self.parameters, self.temporaries, self.rows = {}, [], []

    def pick(self, found):
        return self.random.choice(found)

    def parameter(self, low, high):
        name = f"p{len(self.parameters)}"
        self.parameters[name] = (low, high)
        return name

    def text(self):
        body = self.body()
        declared = ", ".join(f"{name} in {low}..{high}" for name, (low, high) in self.parameters.items())
        return f"transaction {self.name}({declared}) {{ {body} }}"

    def body(self):
        objects, relations = self.maker.objects, self.maker.relations
        kinds = ([self.adding, self.selling] * 3 + [self.moving, self.looking] if objects else []) + [self.anything] * self.maker.wildness
        kinds += [self.inserting, self.inserting, self.clearing, self.paying, self.counting, self.sweeping] if relations else []
        if self.maker.version == 2:
            kinds += [self.undoing] * (4 * bool(objects)) + [self.undoing_rows] * (2 * bool(relations))
        return self.pick(kinds or [self.anything])()

    # ---- common kinds
    def adding(self):
        x, n = self.pick(list(self.maker.objects)), self.parameter(1, self.pick([1, 3, 9]))
        said = self.pick([f"; print({n})", "", "", f"; print(read({x}))"])
        return f"write({x} = read({x}) {self.pick('+-')} {n}){said}"

    def selling(self):
        x, n = self.pick(list(self.maker.objects)), self.parameter(1, 3)
        return f"left := read({x}); if {n} <= left then {{ write({x} = left - {n}); print({n}) }} else print(0)"

    def moving(self):
        x, y, n = self.pick(list(self.maker.objects)), self.pick(list(self.maker.objects)), self.parameter(1, 4)
        writes = [f"write({x} = read({x}) - {n})", f"write({y} = read({y}) + {n})"]
        return f"if {n} <= read({x}) then {{ {'; '.join(writes)} }} else print(-1)"

    def looking(self):
        x, n = self.pick(list(self.maker.objects)), self.parameter(0, 9)
        return f"if read({x}) {self.pick(['<', '<=', '='])} {n} * {self.pick([1, 7, 40])} then print(1) else print(0)"

    def inserting(self):
        relation, fields = self.pick(list(self.maker.relations.items()))
        self.random.shuffle(fields[1])
        values = ", ".join(f"{name} = {self.value_within(low, high)}" for name, low, high in fields[1])
        self.temporaries.append("place")
        return f"insert {relation} ({values}) into place" + self.pick(["; print(place)", "", "; if 0 < place then skip else print(0)"])

    def value_within(self, low, high):
        if self.random.random() < 0.6:
            return self.parameter(low, high + (self.random.random() < 0.2))
        return self.random.randint(low, high)

    def clearing(self):
        relation, (_, fields) = self.pick(list(self.maker.relations.items()))
        name, low, high = self.pick(fields)
        return f"delete r0 of {relation} when r0.{name} {self.pick(['=', '<=', '<'])} {self.parameter(low, high)}"

    def paying(self):
        relation, (slots, fields) = self.pick(list(self.maker.relations.items()))
        (name, low, high), place = self.pick(fields), self.parameter(0, slots)
        index = self.pick([place, f"{place} - 1"])
        return f"{relation}[{index}].{name} := {self.value_within(low, high)}" + self.pick(["", f"; print({relation}[{index}].{name})"])

    def counting(self):
        return f"print({self.loop_value(1)})"

    def sweeping(self):
        relation, (_, fields) = self.pick(list(self.maker.relations.items()))
        name, _, high = self.pick(fields)
        commands = self.pick([f"r0.{name} := r0.{name} + 1", f"print(r0.{name})", f"if r0.{name} < {high} then r0.{name} := {high} else print(1)"])
        loop = f"foreach r0 of {relation} when true {{ {commands} }}"
        return self.pick([loop, f"update r0 of {relation} when r0.{name} < {high} set {name} = r0.{name} + 1"])

    # ---- calls that write first, and end themselves where that was too much
    def undoing(self):
        x, y, n = self.pick(list(self.maker.objects)), self.pick(list(self.maker.objects)), self.parameter(1, 4)
        low, high = self.maker.objects[x]
        end = self.pick(["abort", "abort", "{ print(-1); abort }", "{ print(-1); abort; print(-2) }"])
        limit = self.pick([n, low + 3, (low + high) // 2, (low + high) // 2, high - 1])
        test = f"if read({x}) {self.pick(['<', '<', '='])} {limit} then {end} else {self.pick(['skip', 'print(1)'])}"
        behind = self.pick(["", f"; write({y} = read({y}) + {n})", f"; print(read({y}))"])
        return f"write({x} = read({x}) - {n}); {test}{behind}"

    def undoing_rows(self):
        relation, (slots, fields) = self.pick(list(self.maker.relations.items()))
        name, low, high = self.pick(fields)
        before = self.pick(["", f"{relation}[{self.parameter(0, slots)}].{name} := {self.value_within(low, high)}; "])
        body = self.pick([f"r0.{name} := r0.{name} + 1; if r0.{name} = {high} then abort else skip", f"print(r0.{name}); abort"])
        return f"{before}foreach r0 of {relation} when r0.{name} {self.pick(['<', '<='])} {high} {{ {body} }}; print(0)"

    # ---- any commands
    def anything(self):
        for _ in range(self.random.randint(0, 2)):
            self.parameter(*self.pick(PARAMETER_BOUNDS))
        return "; ".join(self.command(2) for _ in range(self.random.randint(1, 4)))

    def command(self, depth):
        kinds = [self.print, self.assign] + ([self.write, self.write] if self.maker.objects else [])
        if depth:
            kinds += [self.choice, self.choice]
        if self.maker.relations:
            kinds += [self.any_insert, self.set_slot] + ([self.foreach, self.any_delete, self.update] if depth else [])
        if self.rows:
            kinds += [self.set_row] * 3
        if self.maker.version == 2 and depth < 2:
            kinds += [lambda _: "abort"]
        return self.pick(kinds)(depth)

    def print(self, depth):
        return f"print({self.expression(2)})"

    def assign(self, depth):
        value, name = self.expression(2), self.pick(self.maker.temporaries)
        self.temporaries.append(name)
        return f"{name} := {value}"

    def write(self, depth):
        x = self.pick(list(self.maker.objects))
        return f"write({x} = {self.pick([self.expression(2), f'read({x}) + {self.expression(1)}', f'read({x}) - 1'])})"

    def choice(self, depth):
        otherwise = self.pick([lambda _: "skip", self.block])
        return f"if {self.condition(1)} then {self.block(depth - 1)} else {otherwise(depth - 1)}"

    def block(self, depth):
        commands = [self.command(depth) for _ in range(self.random.randint(1, 2))]
        return "{ " + "; ".join(commands) + " }"

    def any_insert(self, depth):
        relation, (_, fields) = self.pick(list(self.maker.relations.items()))
        values = ", ".join(f"{name} = {self.pick([self.expression(1), str(self.random.randint(low, high))])}" for name, low, high in fields)
        self.temporaries.append("v3")
        return f"insert {relation} ({values}) into v3"

    def index(self, slots):
        return self.pick([str(self.random.randint(0, slots)), self.expression(0), self.expression(1)])

    def set_slot(self, depth):
        relation, (slots, fields) = self.pick(list(self.maker.relations.items()))
        return f"{relation}[{self.index(slots)}].{self.pick(fields)[0]} := {self.expression(1)}"

    def set_row(self, depth):
        row, fields = self.pick(self.rows)
        return f"{row}.{self.pick(fields)[0]} := {self.expression(1)}"

    def visiting(self, make):
        """A phrase over a row variable: `make` takes its name, its relation and the relation's fields."""
        relation, (_, fields) = self.pick(list(self.maker.relations.items()))
        row = f"r{len(self.rows)}"
        self.rows.append((row, fields))
        made = make(row, relation, fields)
        self.rows.pop()
        return made

    def foreach(self, depth):
        return self.visiting(lambda row, relation, _: f"foreach {row} of {relation} when {self.condition(1)} {self.block(depth - 1)}")

    def any_delete(self, depth):
        return self.visiting(lambda row, relation, _: f"delete {row} of {relation} when {self.condition(1)}")

    def update(self, depth):
        def made(row, relation, fields):
            return f"update {row} of {relation} when {self.condition(1)} set {self.pick(fields)[0]} = {self.expression(1)}"

        return self.visiting(made)

    # ---- expressions and conditions
    def expression(self, depth):
        leaves = [lambda: str(self.random.randint(0, 9))] + [lambda: self.pick(list(self.parameters))] * (2 if self.parameters else 0)
        leaves += [lambda: self.pick(self.temporaries)] * (2 if self.temporaries else 0)
        leaves += [lambda: f"read({self.pick(list(self.maker.objects))})"] * (2 if self.maker.objects else 0)
        leaves += [self.row_field] * (3 if self.rows else 0)
        if depth == 0:
            return self.pick(leaves)()
        nodes = [lambda: f"{self.expression(depth - 1)} + {self.expression(depth - 1)}"]
        nodes += [lambda: f"{self.expression(depth - 1)} - {self.expression(0)}"]
        nodes += [lambda: f"-{self.expression(0)}", lambda: f"({self.expression(depth - 1)}) * {self.expression(0)}"]
        nodes += [self.slot_field, lambda: self.loop_value(depth - 1)] if self.maker.relations else []
        return self.pick(leaves * 2 + nodes)()

    def row_field(self):
        row, fields = self.pick(self.rows)
        return f"{row}.{self.pick(fields)[0]}"

    def slot_field(self):
        relation, (slots, fields) = self.pick(list(self.maker.relations.items()))
        return f"{relation}[{self.index(slots)}].{self.pick(fields)[0]}"

    def loop_value(self, depth):
        def made(row, relation, fields):
            what = self.pick([f"count({row}", f"sum({row}.{self.pick(fields)[0]}"])
            return f"{what} of {relation} when {self.condition(0) if depth == 0 else self.condition(1)})"

        return self.visiting(made)

    def condition(self, depth):
        tests = [self.test(depth) for _ in range(self.pick([1, 1, 1, 2]))]
        return " and ".join(tests)

    def test(self, depth):
        kind = self.random.random()
        if kind < 0.1:
            return "true"
        if kind < 0.25 and depth:
            return f"not ({self.condition(depth - 1)})"
        return f"{self.expression(depth)} {self.pick(['<', '<=', '='])} {self.expression(depth)}"


class Maker:
    """Makes a text: `objects` has each object's bounds, `relations` each relation's number of slots and fields."""

    def __init__(self, seed):
        self.random = random.Random(seed)
        self.version = self.random.choice([1, 2])
        is_scarce = self.random.random() < 0.25
        self.wildness = 0 if is_scarce else self.random.choice([0, 0, 2, 6])
        bounds, most = (SCARCE_BOUNDS, 2) if is_scarce else (OBJECT_BOUNDS, 4)
        first, last = self.random.choice([("x0", "v2"), ("weights", "abort")]) if self.version == 1 else ("x0", "v2")
        self.temporaries = ["v0", "v1", last]
        self.objects = {f"x{k}" if k else first: self.random.choice(bounds) for k in range(self.random.randint(int(is_scarce), most))}
        count = 0 if is_scarce else self.random.choice([0, 0, 0, 1, 1, 2])
        self.relations = {f"R{k}": (self.random.choice([1, 2, 2, 3, 4, 7]), self.fields()) for k in range(count)}

    def fields(self):
        return [(name, *self.random.choice(FIELD_BOUNDS)) for name in "abc"[: self.random.randint(1, 3)]]

    def start(self, low, high):
        return self.random.choice([low, high, (low + high) // 2, (low + high) // 2, self.random.randint(low, high)])

    def text(self):
        sites = self.random.choice(SITES)
        lines = [f"workload {self.version}", f"sites {sites}", *self.weights(sites)]
        lines += [f"object {name} in {low}..{high} = {self.start(low, high)}" for name, (low, high) in self.objects.items()]
        for name, (slots, fields) in self.relations.items():
            lines.append(f"relation {name}[{slots}] ({', '.join(f'{field} in {low}..{high}' for field, low, high in fields)})")
        transactions = [Transaction(self, f"t{k}") for k in range(self.random.randint(1, 5))]
        lines += [it.text() for it in transactions]
        return "\n".join([*lines, *self.clients(sites, transactions), "end", ""])

    def weights(self, sites):
        if self.version == 1:
            return []
        drawn = [self.random.choice(WEIGHTS) for _ in range(sites)]
        return [f"weights {', '.join(map(str, drawn if any(drawn) else [1] * sites))}"]

    def clients(self, sites, transactions):
        count = self.random.choice(CLIENTS)
        most = self.random.choice([1, 4, MOST_CALLS // count, MOST_CALLS // count])
        made = [[self.call(transactions) for _ in range(self.random.randint(0, max(1, most)))] for _ in range(count)]
        order = [f"c{k}" for k, calls in enumerate(made) for _ in calls]
        self.random.shuffle(order)
        lines = [f"client c{k} at {self.random.randrange(sites)} {{ {'; '.join(calls)} }}" for k, calls in enumerate(made)]
        return lines + [f"schedule {' '.join(order)}"]

    def call(self, transactions):
        called = self.random.choice(transactions)
        return f"{called.name}({', '.join(str(self.random.randint(low, high)) for low, high in called.parameters.values())})"


def text(seed):
    """The random text of a seed."""
    return Maker(seed).text()
