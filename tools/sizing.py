"""How large a call is, as docs/LIMITS.md says, and how much of it each part of its text is.

The form that is measured isn't built: each phrase is walked slot by slot, with the sizes and depths that its names have there.
"""
import collections
import dataclasses

import judging.programs as p
from judging import workload

# A call isn't measured further than this.
BEYOND = 2_000_000
LITERAL = (1, 1)
FLAG = "$0"


class TooLarge(Exception):
    """The call is larger than is measured."""


@dataclasses.dataclass(frozen=True, slots=True)
class Grouped:
    """A sum or a product in parentheses, which is a phrase of its own."""

    part: object


class Reader(workload.Reader):
    """Reads a text, and notes where its commands, factors and calls begin."""

    def __init__(self, text):
        super().__init__(text)
        # (what is noted is kept, so that no two have one identity)
        self.places, self.kept = {}, []

    def noted(self, phrase):
        begin = self.words.found[self.words.next][1]
        made = phrase()
        self.places.setdefault(id(made), begin)
        self.kept.append(made)
        return made

    def command(self):
        return self.noted(super().command)

    def call(self):
        return self.noted(super().call)

    def factor(self):
        is_grouped = self.words.is_at("(")
        made = self.noted(super().factor)
        return Grouped(made) if is_grouped and isinstance(made, (p.Sum, p.Difference, p.Product)) else made


def beside(*parts):
    """Phrases next to each other: the sizes added, and the greatest depth."""
    return sum(size for size, _ in parts), max((depth for _, depth in parts), default=0)


def around(part):
    return part[0] + 1, part[1] + 1


def compared(left, right):
    return around(beside(left, right))


def greatest(first, second):
    return max(first[0], second[0]), max(first[1], second[1])


class Measure:
    """The size and the depth of a call on so many sites, or what they have come to where they go beyond what is measured.

    `parts` has the sizes of its commands, counts, sums and searches by their identity, `nodes` these parts and `loops` the loops around each;
    `prints` is how many print commands it has, and `rows` in how many ways it may branch.
    """

    def __init__(self, made, call):
        self.sites, self.slots = made.sites, {}
        self.parameters = dict(zip(call.transaction.parameters, call.arguments))
        self.names, self.fresh, self.written = [{}], 0, {}
        self.size, self.depth, self.prints, self.rows = 0, 0, 0, 1
        self.parts, self.nodes, self.loops, self.stack = collections.Counter(), {}, {}, []
        try:
            self.body(call.transaction.body.commands)
        except TooLarge:
            pass

    # ---- names
    def name(self, name):
        for names in reversed(self.names):
            if name in names:
                return names[name]
        return (self.sites + 2, 2) if name in self.written or isinstance(name, str) and name.startswith("object ") else LITERAL

    def set(self, name, extent):
        self.names[-1][name] = extent

    def read(self, name):
        return self.name(f"object {name}")

    def fresh_name(self):
        self.fresh += 1
        return self.fresh

    # ---- sizes
    def add(self, size, depth=0):
        self.size += size
        self.depth = max(self.depth, depth)
        if self.size > BEYOND:
            raise TooLarge

    def of(self, found, step):
        """Does a step, and counts what it adds to the size for this phrase."""
        before, key = self.size, id(found)
        self.nodes[key] = found
        self.loops.setdefault(key, list(self.stack))
        self.stack.append(found)
        try:
            return step()
        finally:
            self.stack.pop()
            self.parts[key] += self.size - before

    def assign(self, name, extent):
        self.add(1 + extent[0], extent[1])
        self.set(name, extent)

    def write(self, name, extent):
        """A write without a test of its own."""
        self.add(3 * self.sites + 3 + extent[0], extent[1])
        self.written[name] = None
        self.set(f"object {name}", (extent[0] + 3 * self.sites + 2, extent[1] + 3))

    def choice(self, tests, *branches):
        """A row of `if`s with these tests, and the last branch behind them."""
        for test in tests:
            condition = around(test)
            self.add(2 + condition[0], condition[1])
        after, rows = [], []
        for branch in branches:
            self.names.append({})
            rows.append(self.rows_of(branch))
            after.append(self.names.pop())
        self.rows *= sum(rows)
        for name in {name for names in after for name in names}:
            before = self.name(name)
            found = [names.get(name, before) for names in after]
            self.set(name, (max(size for size, _ in found), max(depth for _, depth in found)))

    def rows_of(self, step):
        """The rows of a step by itself."""
        before, self.rows = self.rows, 1
        step()
        found, self.rows = self.rows, before
        return found

    def behind_flag(self, step):
        """A step behind the test that the call is not ended, which has one more row."""
        self.rows *= self.rows_of(step) + 1

    def skip(self):
        self.add(1)

    # ---- expressions, whose commands before are added to the size
    def terms(self, found, kinds):
        """The parts of a sum or a product that stand in one row."""
        if not isinstance(found, kinds):
            return [(found, False)]
        return [*self.terms(found.left, kinds), (found.right, isinstance(found, p.Difference))]

    def row(self, found, kinds):
        extents = [around(self.value(part)) if is_negated else self.value(part) for part, is_negated in self.terms(found, kinds)]
        return around(beside(*extents))

    def value(self, found):
        match found:
            case p.Number():
                return LITERAL
            case p.Name(name):
                return LITERAL if name in self.parameters else self.name(name)
            case p.Read(name):
                return self.read(name)
            case p.Negation(part):
                return around(self.value(part))
            case p.Sum() | p.Difference():
                return self.row(found, (p.Sum, p.Difference))
            case p.Product():
                return self.row(found, p.Product)
            case Grouped(part):
                return self.value(part)
            case p.RowField(relation, row, field):
                return self.read(relation.field(self.slots[row], field))
            case p.SlotField():
                return self.of(found, lambda: self.slot_field(found))
            case p.Count(relation, row, condition):
                return self.of(found, lambda: self.counted(relation, row, condition, lambda slot: LITERAL))
            case p.Total(relation, row, field, condition):
                return self.of(found, lambda: self.counted(relation, row, condition, lambda slot: self.read(relation.field(slot, field))))

    def slot_field(self, found):
        relation, slot = found.relation, p.known(found.index, self.parameters)
        if slot is not None:
            return self.read(relation.field(slot, found.field)) if relation.has(slot) else LITERAL
        index, name = self.value(found.index), self.fresh_name()
        fields = [self.read(relation.field(it, found.field)) for it in range(relation.slots)]
        self.choice([compared(index, LITERAL)] * relation.slots, *(lambda extent=it: self.assign(name, extent) for it in [*fields, LITERAL]))
        return self.name(name)

    def counted(self, relation, row, condition, term):
        name = self.fresh_name()
        self.assign(name, LITERAL)
        self.visits(relation, row, condition, lambda slot: self.assign(name, around(beside(self.name(name), term(slot)))))
        return self.name(name)

    def condition(self, found):
        """The tests of a condition next to each other."""
        match found:
            case p.Always():
                return LITERAL
            case p.Not(part):
                return around(around(self.condition(part)))
            case p.All(tests):
                return beside(*[self.condition(it) for it in tests])
        left = self.value(found.left)
        return compared(left, self.value(found.right))

    def visits(self, relation, row, condition, body, ends=False):
        """For each slot, the commands of its test, and its body behind the test; those behind a body that can end the call are guarded."""
        for slot in range(relation.slots):
            self.slots[row] = slot
            visit = lambda: self.visit(relation, condition, body, slot, ends and slot > 0)
            self.behind_flag(visit) if ends and slot > 0 else visit()

    def visit(self, relation, condition, body, slot, is_guarded):
        before = self.size
        tests = self.condition(condition)
        if is_guarded:
            self.add(7 + (self.size > before))
        self.choice([beside(compared(self.read(relation.used(slot)), LITERAL), tests)], lambda: body(slot), self.skip)

    # ---- commands
    def body(self, commands):
        ends = any(map(holds_abort, commands))
        self.add(1)
        self.commands(commands)
        if ends:
            self.add(11 + (5 * self.sites + 8) * len(self.written))
            self.rows *= 2

    def commands(self, commands):
        guarded = False
        for it in commands:
            if guarded:
                self.add(7)
                self.behind_flag(lambda: self.command(it))
            else:
                self.command(it)
            guarded = guarded or holds_abort(it)

    def command(self, found):
        self.of(found, lambda: self.made(found))

    def made(self, found):
        match found:
            case p.Skip():
                self.skip()
            case p.Abort():
                self.assign(FLAG, LITERAL)
            case p.Block(commands):
                self.add(1)
                self.commands(commands)
            case p.Assign(name, value):
                self.placed(lambda: self.value(value), lambda extent: self.assign(name, extent))
            case p.Print(value):
                self.placed(lambda: self.value(value), self.print)
            case p.Write(target, value):
                self.placed(lambda: self.value(value), lambda extent: self.guarded(target.name, extent))
            case p.If(condition, then, otherwise):
                self.placed(lambda: self.condition(condition), lambda tests: self.choice([tests], lambda: self.command(then), lambda: self.command(otherwise)))
            case p.SetRowField(relation, row, field, value):
                self.placed(lambda: self.value(value), lambda extent: self.guarded(relation.field(self.slots[row], field), extent))
            case p.SetSlotField():
                self.set_slot_field(found)
            case p.ForEach(relation, row, condition, body):
                self.add(1)
                self.visits(relation, row, condition, lambda slot: self.block(body), holds_abort(body))
            case p.Delete(relation, row, condition):
                self.add(1)
                self.visits(relation, row, condition, lambda slot: self.write(relation.used(slot), LITERAL))
            case p.Update(relation, row, condition, field, value):
                self.add(1)
                self.visits(relation, row, condition, lambda slot: self.update(relation.field(slot, field), value))
            case p.Insert():
                self.insert(found)

    def block(self, body):
        self.add(1)
        self.commands(body.commands)

    def update(self, name, value):
        self.placed(lambda: self.value(value), lambda extent: self.guarded(name, extent))

    def print(self, extent):
        self.prints += 1
        self.add(1 + extent[0], extent[1])

    def placed(self, phrase, command):
        """The commands of a phrase and then the one that takes it, in a block where there are some before."""
        before = self.size
        extent = phrase()
        self.add(1 if self.size > before else 0)
        command(extent)

    def within(self, extents):
        return beside(*(compared(LITERAL, it) for it in extents for _ in range(2)))

    def guarded(self, name, extent):
        self.choice([self.within([extent])], lambda: self.write(name, extent), self.skip)

    def set_slot_field(self, found):
        relation, slot = found.relation, p.known(found.index, self.parameters)
        if slot is None:
            self.placed(lambda: (self.value(found.index), self.value(found.value)), lambda pair: self.search(relation, found.field, *pair))
        elif relation.has(slot):
            self.update(relation.field(slot, found.field), found.value)
        else:
            self.skip()

    def search(self, relation, field, index, value):
        writes = [lambda slot=it: self.write(relation.field(slot, field), value) for it in range(relation.slots)]
        chain = lambda: self.choice([compared(index, LITERAL)] * relation.slots, *writes, self.skip)
        self.choice([self.within([value])], chain, self.skip)

    def insert(self, found):
        relation, names = found.relation, {}
        self.add(1)
        for field, value in found.values.items():
            extent, names[field] = self.value(value), self.fresh_name()
            self.assign(names[field], extent)
        fills = [lambda slot=it: self.fill(relation, slot, names, found.place) for it in range(relation.slots)]
        tests = [compared(self.read(relation.used(it)), LITERAL) for it in range(relation.slots)]
        none = lambda: self.assign(found.place, LITERAL)
        self.choice([self.within([self.name(it) for it in names.values()])], lambda: self.choice(tests, *fills, none), none)

    def fill(self, relation, slot, names, place):
        self.add(1)
        for field, name in names.items():
            self.write(relation.field(slot, field), self.name(name))
        self.write(relation.used(slot), LITERAL)
        self.assign(place, LITERAL)


def holds_abort(found):
    match found:
        case p.Abort():
            return True
        case p.If(_, then, otherwise):
            return holds_abort(then) or holds_abort(otherwise)
        case p.Block(commands):
            return any(map(holds_abort, commands))
        case p.ForEach(_, _, _, body):
            return holds_abort(body)
    return False
