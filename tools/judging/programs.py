"""What a transaction's text does: expressions, conditions and commands, each run as docs/LANGUAGE.md says.

A database is a dict from the names of its numbers (`stock`, `orders.0.used`, `orders.0.amount`) to their values. A run notes its
choices too: which way each test and each search of a slot went, in the order in which docs/LANGUAGE.md analyses them.
"""
import dataclasses

node = dataclasses.dataclass(frozen=True, slots=True)


class Ended(Exception):
    """The call has ended itself."""


class Run:
    """One call on a database: the names that it knows, the slots that it visits, what it prints and how it chooses.

    `written` has the value of each number that it wrote as it was before the call.
    """

    __slots__ = ("database", "names", "slots", "prints", "written", "choices")

    def __init__(self, database, arguments):
        self.database, self.names, self.slots = database, dict(arguments), {}
        self.prints, self.written, self.choices = [], {}, []

    def choose(self, choice):
        self.choices.append(choice)
        return choice

    def set(self, name, value):
        self.written.setdefault(name, self.database[name])
        self.database[name] = value

    def undo(self):
        self.database.update(self.written)
        self.written.clear()

    def set_within(self, name, bounds, value):
        """Sets a number where the value is within its bounds."""
        if self.choose(bounds.hold(value)):
            self.set(name, value)


# ---- what is declared
@node
class Bounds:
    low: int
    high: int

    def hold(self, value):
        return self.low <= value <= self.high

    def nearest_to_zero(self):
        return max(self.low, min(0, self.high))


@node
class Object:
    name: str
    bounds: Bounds
    start: int


@node
class Relation:
    name: str
    slots: int
    fields: dict

    def used(self, slot):
        return f"{self.name}.{slot}.used"

    def field(self, slot, name):
        return f"{self.name}.{slot}.{name}"

    def has(self, slot):
        return 0 <= slot < self.slots


# ---- expressions
@node
class Number:
    number: int

    def value(self, run):
        return self.number


@node
class Name:
    """A parameter or a temporary, which is 0 until it is assigned."""

    name: str
    is_parameter: bool

    def value(self, run):
        return run.names.get(self.name, 0)


@node
class Read:
    name: str

    def value(self, run):
        return run.database[self.name]


@node
class Negation:
    part: object

    def value(self, run):
        return -self.part.value(run)


@node
class Sum:
    left: object
    right: object

    def value(self, run):
        return self.left.value(run) + self.right.value(run)


@node
class Difference:
    left: object
    right: object

    def value(self, run):
        return self.left.value(run) - self.right.value(run)


@node
class Product:
    left: object
    right: object

    def value(self, run):
        return self.left.value(run) * self.right.value(run)


@node
class RowField:
    """A field of the slot that is visited."""

    relation: Relation
    row: str
    field: str

    def value(self, run):
        return run.database[self.relation.field(run.slots[self.row], self.field)]


def known(index, parameters):
    """The number that an index is before its call runs, so that which slot it names is no choice; None for any other index."""
    match index:
        case Number(number):
            return number
        case Name(name, True):
            return parameters[name]
        case SlotField(relation, inner, _):
            slot = known(inner, parameters)
            return 0 if slot is not None and not relation.has(slot) else None
    return None


@node
class SlotField:
    """A field of the slot of an index, used or not, and 0 where there is no such slot."""

    relation: Relation
    index: object
    field: str

    def value(self, run):
        slot = known(self.index, run.names)
        if slot is None:
            slot = self.index.value(run)
            run.choose(slot if self.relation.has(slot) else None)
        return run.database[self.relation.field(slot, self.field)] if self.relation.has(slot) else 0


def visited(run, row, relation, condition):
    """The slots of a relation that are used and meet a condition, each tested when its turn comes."""
    for slot in range(relation.slots):
        run.slots[row] = slot
        holds = condition.holds(run)
        if run.choose(run.database[relation.used(slot)] == 1 and holds):
            yield slot


@node
class Count:
    relation: Relation
    row: str
    condition: object

    def value(self, run):
        return sum(1 for _ in visited(run, self.row, self.relation, self.condition))


@node
class Total:
    relation: Relation
    row: str
    field: str
    condition: object

    def value(self, run):
        slots = visited(run, self.row, self.relation, self.condition)
        return sum(run.database[self.relation.field(slot, self.field)] for slot in slots)


# ---- conditions
@node
class Always:
    def holds(self, run):
        return True


@node
class Less:
    left: object
    right: object

    def holds(self, run):
        return self.left.value(run) < self.right.value(run)


@node
class AtMost:
    left: object
    right: object

    def holds(self, run):
        return self.left.value(run) <= self.right.value(run)


@node
class Equal:
    left: object
    right: object

    def holds(self, run):
        return self.left.value(run) == self.right.value(run)


@node
class Not:
    part: object

    def holds(self, run):
        return not self.part.holds(run)


@node
class All:
    """Tests that are all computed, also behind one that fails: what they choose among slots comes before them."""

    tests: tuple

    def holds(self, run):
        return all([test.holds(run) for test in self.tests])


# ---- commands
@node
class Skip:
    def do(self, run):
        pass


@node
class Abort:
    def do(self, run):
        raise Ended


@node
class Block:
    commands: tuple

    def do(self, run):
        for command in self.commands:
            command.do(run)


@node
class Assign:
    name: str
    value: object

    def do(self, run):
        run.names[self.name] = self.value.value(run)


@node
class Write:
    target: Object
    value: object

    def do(self, run):
        run.set_within(self.target.name, self.target.bounds, self.value.value(run))


@node
class Print:
    value: object

    def do(self, run):
        run.prints.append(self.value.value(run))


@node
class If:
    condition: object
    then: object
    otherwise: object

    def do(self, run):
        (self.then if run.choose(self.condition.holds(run)) else self.otherwise).do(run)


@node
class SetRowField:
    relation: Relation
    row: str
    field: str
    value: object

    def do(self, run):
        name = self.relation.field(run.slots[self.row], self.field)
        run.set_within(name, self.relation.fields[self.field], self.value.value(run))


@node
class SetSlotField:
    relation: Relation
    index: object
    field: str
    value: object

    def do(self, run):
        slot, bounds = known(self.index, run.names), self.relation.fields[self.field]
        if slot is not None:
            if self.relation.has(slot):
                run.set_within(self.relation.field(slot, self.field), bounds, self.value.value(run))
            return
        slot, value = self.index.value(run), self.value.value(run)
        if run.choose(bounds.hold(value)) and run.choose(slot if self.relation.has(slot) else None) is not None:
            run.set(self.relation.field(slot, self.field), value)


@node
class ForEach:
    relation: Relation
    row: str
    condition: object
    body: Block

    def do(self, run):
        for slot in visited(run, self.row, self.relation, self.condition):
            self.body.do(run)


@node
class Insert:
    relation: Relation
    values: dict
    place: str

    def do(self, run):
        values = {name: value.value(run) for name, value in self.values.items()}
        run.names[self.place] = 0
        if not run.choose(all(self.relation.fields[name].hold(value) for name, value in values.items())):
            return
        free = [slot for slot in range(self.relation.slots) if run.database[self.relation.used(slot)] == 0]
        if run.choose(free[0] if free else None) is not None:
            run.set(self.relation.used(free[0]), 1)
            for name, value in values.items():
                run.set(self.relation.field(free[0], name), value)
            run.names[self.place] = free[0] + 1


@node
class Delete:
    relation: Relation
    row: str
    condition: object

    def do(self, run):
        for slot in visited(run, self.row, self.relation, self.condition):
            run.set(self.relation.used(slot), 0)


@node
class Update:
    relation: Relation
    row: str
    condition: object
    field: str
    value: object

    def do(self, run):
        for slot in visited(run, self.row, self.relation, self.condition):
            run.set_within(self.relation.field(slot, self.field), self.relation.fields[self.field], self.value.value(run))


@node
class Transaction:
    name: str
    parameters: dict
    body: Block


@node
class Call:
    transaction: Transaction
    arguments: tuple

    def run_on(self, database):
        """The run of this call, which changes the database, unless the call ends itself."""
        run = Run(database, zip(self.transaction.parameters, self.arguments))
        try:
            self.transaction.body.do(run)
        except Ended:
            run.undo()
        return run

    def __str__(self):
        return f"{self.transaction.name}({', '.join(map(str, self.arguments))})"
