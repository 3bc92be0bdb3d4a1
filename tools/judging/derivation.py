"""Derives the treaty of a round from the workload and the round's base, as docs/PROTOCOL.md says how.

Each ground call is walked at the base, of each `if` the branch that the base takes. Values are linear forms over the deltas of all
sites; the tests on the way give the clauses, and what a site prints and writes gives the freezes.
"""
import collections
import dataclasses
import functools

import judging.programs as p
from judging.treaty import Clause, Treaty, split


@dataclasses.dataclass
class Form:
    """A constant, and a factor other than 0 for each delta, which is a pair of a name and a site.

    It is right while its mixed deltas stay 0: those of products that are taken for what they are now.
    """

    constant: int
    factors: dict
    mixed: frozenset = frozenset()

    def plus(self, other, times=1):
        if not other.may_change():
            return Form(self.constant + times * other.constant, self.factors, self.mixed)
        factors = dict(self.factors)
        for delta, factor in other.factors.items():
            factors[delta] = factors.get(delta, 0) + times * factor
        kept = {delta: factor for delta, factor in factors.items() if factor}
        return Form(self.constant + times * other.constant, kept, self.mixed | other.mixed)

    def times(self, number):
        factors = {delta: factor * number for delta, factor in self.factors.items() if number}
        return Form(self.constant * number, factors, self.mixed)

    def product(self, other):
        if self.may_change() and other.may_change():
            return Form(self.constant * other.constant, {}, (self.mixed | other.mixed).union(self.factors, other.factors))
        return self.times(other.constant) if self.may_change() else other.times(self.constant)

    def may_change(self):
        return bool(self.factors or self.mixed)


def constant(number):
    return Form(number, {})


@dataclasses.dataclass
class Test:
    """A comparison of two forms by one of the nodes Less, AtMost and Equal."""

    kind: type
    left: Form
    right: Form

    def holds(self):
        left, right = self.left.constant, self.right.constant
        return left < right if self.kind is p.Less else left <= right if self.kind is p.AtMost else left == right

    def atoms(self, wanted):
        """The forms that are at most 0 where the test is as it is at the base, which is `wanted`."""
        if self.kind is p.Less:
            return [self.below(1)] if wanted else [self.above(0)]
        if self.kind is p.AtMost:
            return [self.below(0)] if wanted else [self.above(1)]
        if wanted:
            return [self.below(0), self.above(0)]
        return [self.below(1)] if self.left.constant < self.right.constant else [self.above(1)]

    def below(self, number):
        """The left side less the right one, and a number."""
        return self.left.plus(self.right, -1).plus(constant(number))

    def above(self, number):
        return self.right.plus(self.left, -1).plus(constant(number))


@dataclasses.dataclass
class Opposite:
    part: object

    def holds(self):
        return not self.part.holds()

    def atoms(self, wanted):
        return self.part.atoms(not wanted)


@dataclasses.dataclass
class Together:
    """Tests that all hold, or of which the first that fails is kept failing."""

    tests: list

    def holds(self):
        return all(it.holds() for it in self.tests)

    def atoms(self, wanted):
        if wanted:
            return [atom for it in self.tests for atom in it.atoms(True)]
        return next(it for it in self.tests if not it.holds()).atoms(False)


class Walk:
    """A call at a site, walked at a base: the atoms of its tests, and the deltas that are frozen for it."""

    def __init__(self, sites, site, base, call):
        self.sites, self.site, self.base, self.slots = range(sites), site, base, {}
        self.parameters = dict(zip(call.transaction.parameters, call.arguments))
        self.names = {name: constant(it) for name, it in self.parameters.items()}
        self.written, self.atoms, self.frozen = {}, [], set()
        try:
            self.command(call.transaction.body)
            self.freeze_written()
        except p.Ended:
            # All that was written is as it was, so that the site's deltas stay.
            pass

    def object(self, name):
        """What a number of the database is: its base with all deltas, or what was written."""
        return self.written.get(name) or Form(self.base[name], {(name, site): 1 for site in self.sites})

    def decide(self, condition):
        """Whether a condition holds at the base. What is mixed in the tests that keep it so is frozen, at every site."""
        found = condition.holds()
        for atom in condition.atoms(found):
            self.atoms.append(atom)
            self.frozen |= atom.mixed
        return found

    def freeze_others(self, form):
        """Freezes the deltas of other sites in what the site prints or writes: its own it knows, in products too."""
        self.frozen.update(delta for delta in form.mixed.union(form.factors) if delta[1] != self.site)

    def freeze_written(self):
        """The site leaves its own delta of what it wrote: the value in the end less the base and less the deltas of all others."""
        for name, value in self.written.items():
            others = Form(self.base[name], {(name, site): 1 for site in self.sites if site != self.site})
            self.freeze_others(value.plus(others, -1))

    def write_within(self, name, bounds, value):
        if self.decide(self.within(bounds, value)):
            self.written[name] = value

    def within(self, bounds, value):
        return Together([Test(p.AtMost, constant(bounds.low), value), Test(p.AtMost, value, constant(bounds.high))])

    # ---- expressions and conditions
    def value(self, found):
        match found:
            case p.Number(number):
                return constant(number)
            case p.Name(name):
                return self.names.get(name, constant(0))
            case p.Read(name):
                return self.object(name)
            case p.Negation(part):
                return self.value(part).times(-1)
            case p.Sum(left, right):
                return self.value(left).plus(self.value(right))
            case p.Difference(left, right):
                return self.value(left).plus(self.value(right), -1)
            case p.Product(left, right):
                return self.value(left).product(self.value(right))
            case p.RowField(relation, row, field):
                return self.object(relation.field(self.slots[row], field))
            case p.SlotField(relation, index, field):
                slot = self.slot(relation, index)
                return constant(0) if slot is None else self.object(relation.field(slot, field))
            case p.Count(relation, row, condition):
                return constant(sum(1 for _ in self.visited(relation, row, condition)))
            case p.Total(relation, row, field, condition):
                total = constant(0)
                for slot in self.visited(relation, row, condition):
                    total = total.plus(self.object(relation.field(slot, field)))
                return total

    def slot(self, relation, index):
        """The slot of an index, None where there is no such slot. Unless it is known, one test a slot finds it."""
        slot = p.known(index, self.parameters)
        if slot is not None:
            return slot if relation.has(slot) else None
        return self.searched(relation, self.value(index))

    def searched(self, relation, value):
        return next((slot for slot in range(relation.slots) if self.decide(Test(p.Equal, value, constant(slot)))), None)

    def visited(self, relation, row, condition):
        for slot in range(relation.slots):
            self.slots[row] = slot
            condition_there = self.condition(condition)
            if self.decide(Together([Test(p.Equal, self.object(relation.used(slot)), constant(1)), condition_there])):
                yield slot

    def condition(self, found):
        match found:
            case p.Always():
                return Together([])
            case p.Not(part):
                return Opposite(self.condition(part))
            case p.All(tests):
                return Together([self.condition(it) for it in tests])
        return Test(type(found), self.value(found.left), self.value(found.right))

    # ---- commands
    def command(self, found):
        match found:
            case p.Block(commands):
                for it in commands:
                    self.command(it)
            case p.Assign(name, value):
                self.names[name] = self.value(value)
            case p.Write(target, value):
                self.write_within(target.name, target.bounds, self.value(value))
            case p.Print(value):
                self.freeze_others(self.value(value))
            case p.If(condition, then, otherwise):
                self.command(then if self.decide(self.condition(condition)) else otherwise)
            case p.SetRowField(relation, row, field, value):
                self.write_within(relation.field(self.slots[row], field), relation.fields[field], self.value(value))
            case p.SetSlotField():
                self.set_slot_field(found)
            case p.ForEach(relation, row, condition, body):
                for _ in self.visited(relation, row, condition):
                    self.command(body)
            case p.Insert():
                self.insert(found)
            case p.Delete(relation, row, condition):
                for slot in self.visited(relation, row, condition):
                    self.written[relation.used(slot)] = constant(0)
            case p.Update(relation, row, condition, field, value):
                for slot in self.visited(relation, row, condition):
                    self.write_within(relation.field(slot, field), relation.fields[field], self.value(value))
            case p.Abort():
                raise p.Ended

    def set_slot_field(self, found):
        relation, bounds = found.relation, found.relation.fields[found.field]
        slot = p.known(found.index, self.parameters)
        if slot is not None:
            if relation.has(slot):
                self.write_within(relation.field(slot, found.field), bounds, self.value(found.value))
            return
        index, value = self.value(found.index), self.value(found.value)
        if self.decide(self.within(bounds, value)):
            slot = self.searched(relation, index)
            if slot is not None:
                self.written[relation.field(slot, found.field)] = value

    def insert(self, found):
        relation = found.relation
        values = {name: self.value(value) for name, value in found.values.items()}
        self.names[found.place] = constant(0)
        if not self.decide(Together([self.within(relation.fields[name], value) for name, value in values.items()])):
            return
        for slot in range(relation.slots):
            if self.decide(Test(p.Equal, self.object(relation.used(slot)), constant(0))):
                self.written[relation.used(slot)] = constant(1)
                for name, value in values.items():
                    self.written[relation.field(slot, name)] = value
                self.names[found.place] = constant(slot + 1)
                return


def ground_calls(workload):
    """Each call at its site once, in the order in which the text first calls them."""
    calls = [(call, client.site) for client in workload.clients.values() for call in client.calls]
    return list({(str(call), site): (call, site) for call, site in calls}.values())


def may_write(found, parameters):
    """The numbers that a command writes in one case or another."""
    match found:
        case p.Block(commands):
            return {name for it in commands for name in may_write(it, parameters)}
        case p.Write(target):
            return {target.name}
        case p.If(_, then, otherwise):
            return may_write(then, parameters) | may_write(otherwise, parameters)
        case p.ForEach(_, _, _, body):
            return may_write(body, parameters)
        case p.SetRowField(relation, _, field) | p.Update(relation, _, _, field):
            return {relation.field(slot, field) for slot in range(relation.slots)}
        case p.SetSlotField(relation, index, field):
            known = p.known(index, parameters)
            return {relation.field(slot, field) for slot in range(relation.slots) if known in (None, slot)}
        case p.Delete(relation):
            return {relation.used(slot) for slot in range(relation.slots)}
        case p.Insert(relation):
            fields = {relation.field(slot, field) for slot in range(relation.slots) for field in relation.fields}
            return fields | {relation.used(slot) for slot in range(relation.slots)}
    return set()


class Derivation:
    """Derives the treaties of a workload's rounds from its ground calls."""

    def __init__(self, workload):
        self.sites, self.weights, self.calls = workload.sites, workload.weights, ground_calls(workload)

    @functools.cached_property
    def writers(self):
        """The sites whose calls write a number in one case or another, in whatever round, by its name."""
        found = collections.defaultdict(set)
        for call, site in self.calls:
            for name in may_write(call.transaction.body, dict(zip(call.transaction.parameters, call.arguments))):
                found[name].add(site)
        return dict(found)

    def writers_of(self, names):
        """The sites whose calls write one of these numbers."""
        return frozenset(site for name in names for site in self.writers.get(name, ()))

    def shares(self, form):
        """The share of each site in a clause: its weight, where its calls write one of its deltas there. Without any, all are even."""
        if not self.weights:
            return [1] * self.sites
        writers = {site for _, name, site in form if site in self.writers.get(name, ())}
        found = [weight if site in writers else 0 for site, weight in enumerate(self.weights)]
        return found if any(found) else [1] * self.sites

    def treaty(self, base):
        """The treaty of a round with this base."""
        order = {name: number for number, name in enumerate(base)}
        clauses, frozen = {}, set()

        def by_place(delta):
            return order[delta[0]], delta[1]

        for call, site in self.calls:
            walk = Walk(self.sites, site, base, call)
            frozen |= walk.frozen
            for atom in walk.atoms:
                form = tuple((atom.factors[delta], *delta) for delta in sorted(atom.factors, key=by_place))
                if form:
                    clauses.setdefault((-atom.constant, form))
        made = [Clause(slack, split(slack, self.shares(form)), list(form)) for slack, form in clauses]
        return Treaty(made, sorted(frozen, key=by_place))
