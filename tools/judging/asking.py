"""What the ground calls of a text ask of the sites, followed from one base to the next.

A call is walked as the derivation of treaties walks it, once for all sites: its tests are the same at each of them. What a test asks is
kept as a sum of the database's numbers, with a factor for each, and what has to be added so that it is at most 0 (its `rest`). At another
base the walk stays the same as long as all its sums are at most 0, so that only those calls are walked anew for which one isn't.
"""
import collections
import itertools

import judging.programs as p
from judging import derivation

PRINTS, SETS, USES, MULTIPLIES = "prints it", "sets it anew", "sets another number by it", "multiplies it in a test"
# The one delta that a number has in a walk for all sites is that of the others, who aren't told apart.
OTHERS, NOBODY = 0, -1
# What a test is of, where it is none of an `if`.
WITHIN, VISITS, FINDS, INSERTS = "within", "visits", "finds", "inserts"


def passed(condition, wanted):
    """The forms that are at most 0 while those tests stay true that stand before the first one that fails."""
    match condition:
        case derivation.Opposite(part):
            return passed(part, not wanted)
        case derivation.Together(tests):
            held = list(tests if wanted else itertools.takewhile(lambda it: it.holds(), tests))
            before = [] if wanted else [form for it in held for form in it.atoms(True)]
            inside = [form for it in held for form in passed(it, True)]
            return before + inside + ([] if wanted else passed(tests[len(held)], False))
    return []


class Walk(derivation.Walk):
    """A call walked for all sites at a base.

    `asked` has its sums that may change, as pairs of a form and a rest, each with what it tests, and whether that holds; `guards` those that
    keep the walk as it is besides; `pinned` the numbers that are taken for what they are at the base; `frozen_for` how it uses each number
    that the other sites may not move, and of those that nobody may move that it multiplies them.
    """

    def __init__(self, base, call):
        self.asked, self.guards, self.pinned, self.frozen_for, self.tests = {}, set(), set(), {}, 0
        self.use, self.of = lambda name: PRINTS, None
        super().__init__(1, NOBODY, base, call)

    def key(self, atom):
        """A sum's form and its rest."""
        factors, rest, base = [], atom.constant, self.base
        for (name, _), factor in atom.factors.items():
            factors.append((name, factor))
            rest -= factor * base[name]
        return frozenset(factors), rest

    def decide(self, condition):
        found, self.tests = condition.holds(), self.tests + 1
        for atom in condition.atoms(found):
            if atom.mixed:
                self.pin(atom)
                self.note(atom.mixed, lambda name: MULTIPLIES)
            if atom.factors:
                self.asked.setdefault(self.key(atom), (self.of, found))
        for atom in passed(condition, found):
            self.pin(atom)
            self.guards.add(self.key(atom))
        return found

    def pin(self, atom):
        self.pinned.update(name for name, _ in atom.mixed)

    def note(self, deltas, use):
        for name, _ in deltas:
            uses = self.frozen_for.setdefault(name, [])
            uses += [] if use(name) in uses else [use(name)]

    def freeze_others(self, form):
        self.note(form.mixed.union(form.factors), self.use)

    def freeze_written(self):
        self.use = lambda name: SETS if name in self.written else USES
        super().freeze_written()

    # ---- what a test is of
    def testing(self, of, step):
        """Does a step, whose tests are of this."""
        before, self.of = self.of, of
        found = step()
        self.of = before
        return found

    def command(self, found):
        if isinstance(found, p.If):
            self.of = found.condition
        super().command(found)

    def write_within(self, name, bounds, value):
        self.testing((WITHIN, name), lambda: super(Walk, self).write_within(name, bounds, value))

    def searched(self, relation, value):
        return self.testing((FINDS, relation.name), lambda: super(Walk, self).searched(relation, value))

    def insert(self, found):
        self.testing((INSERTS, found.relation.name), lambda: super(Walk, self).insert(found))

    def visited(self, relation, row, condition):
        slots = super().visited(relation, row, condition)
        while (slot := self.testing((VISITS, relation.name), lambda: next(slots, None))) is not None:
            yield slot


class Asker:
    """A ground call, with its place among all: it is walked once, with those of the same text at other sites."""

    def __init__(self, place, call, site):
        self.place, self.call, self.site = place, call, site

    def __str__(self):
        return f"{self.call} at {self.site}"


class Sums:
    """The sums of one form, as rests with the walks that have them, and what the form comes to at the base."""

    def __init__(self, form, base):
        self.form, self.walks = form, {}
        self.value = self.value_at(base)

    def value_at(self, base):
        return sum(factor * base[name] for name, factor in self.form)

    def moved(self, base):
        """The walks that don't stay, since a sum of theirs is above 0 at this base."""
        self.value = self.value_at(base)
        if not self.walks or max(self.walks) + self.value <= 0:
            return set()
        return {walk for rest, walks in self.walks.items() if rest + self.value > 0 for walk in walks}


class Asking:
    """The walks of a text's ground calls at a base, which can be moved to another one. `tests` counts the tests of all walks so far."""

    def __init__(self, workload, base):
        self.sites, self.base, self.tests = range(workload.sites), dict(base), 0
        self.order = {name: number for number, name in enumerate(base)}
        self.askers = [Asker(place, *it) for place, it in enumerate(derivation.ground_calls(workload))]
        # The ground calls of one text are one walk, which stands where the first of them does.
        self.alike = {}
        for asker in self.askers:
            self.alike.setdefault(str(asker.call), []).append(asker)
        self.calls = [it[0].call for it in self.alike.values()]
        self.alike = list(self.alike.values())
        self.walks = [None] * len(self.calls)
        # The forms with their sums; the forms and the walks that name a number; of each sum the walks that ask it, and the first of them.
        self.sums, self.forms_of, self.pinned_by = {}, collections.defaultdict(list), collections.defaultdict(set)
        self.asked_by, self.first, self.counts = {}, {}, [0] * len(self.calls)
        self.frozen = None
        self.walk(range(len(self.calls)))

    def move_to(self, base, changed):
        """Goes on to a base that differs from the last one in these numbers alone."""
        self.base = base
        forms = {id(it): it for name in changed for it in self.forms_of[name]}.values()
        stale = set().union(*(self.pinned_by[name] for name in changed), *(it.moved(base) for it in forms))
        if stale:
            self.walk(sorted(stale))

    def walk(self, numbers):
        """Walks these calls anew, and keeps what they ask in place of what they asked."""
        touched = set()
        for number in numbers:
            before, made = self.walks[number], Walk(self.base, self.calls[number])
            self.tests += made.tests
            self.keep_sums(number, before, made)
            touched.update(before.asked if before else (), made.asked)
            self.walks[number] = made
        self.find_first(touched)
        self.frozen = None

    def keep_sums(self, number, before, made):
        old = {*before.asked, *before.guards} if before else set()
        new = {*made.asked, *made.guards}
        for form, rest in old - new:
            walks = self.sums[form].walks
            walks[rest].discard(number)
            if not walks[rest]:
                del walks[rest]
        for form, rest in new - old:
            self.sums_of(form).walks.setdefault(rest, set()).add(number)
        for name in before.pinned - made.pinned if before else ():
            self.pinned_by[name].discard(number)
        for name in made.pinned:
            self.pinned_by[name].add(number)
        for key in before.asked if before else ():
            self.asked_by[key].discard(number)
        for key in made.asked:
            self.asked_by.setdefault(key, set()).add(number)

    def sums_of(self, form):
        if form not in self.sums:
            self.sums[form] = Sums(form, self.base)
            for name, _ in form:
                self.forms_of[name].append(self.sums[form])
        return self.sums[form]

    def find_first(self, keys):
        """Counts for each walk the sums that it is the first to ask."""
        for key in keys:
            if key in self.first:
                self.counts[self.first.pop(key)] -= 1
            if self.asked_by[key]:
                self.first[key] = min(self.asked_by[key])
                self.counts[self.first[key]] += 1
            else:
                del self.asked_by[key]

    # ---- the parts of the treaty at the base
    def clauses(self):
        """How many clauses the treaty has."""
        return len(self.first)

    def numbered(self):
        """The sums of the clauses, in their order."""
        return [key for number, made in enumerate(self.walks) for key in made.asked if self.first[key] == number]

    def tested(self, key):
        """What the first call that asks for a sum tests, and whether it holds."""
        return self.walks[self.first[key]].asked[key]

    def clause(self, wanted):
        """The sum of a clause: its form and its rest."""
        for number, upto in enumerate(itertools.accumulate(self.counts)):
            if wanted < upto:
                mine = [key for key in self.walks[number].asked if self.first[key] == number]
                return mine[wanted - upto + self.counts[number]]
        raise IndexError

    def slack(self, key):
        form, rest = key
        return -(rest + self.sums[form].value)

    def askers_of(self, key):
        """The ground calls that ask for a sum, in the order of the text."""
        return sorted((asker for number in self.asked_by[key] for asker in self.alike[number]), key=lambda it: it.place)

    def freezes(self):
        """The frozen deltas in their order, as pairs of a name and a site, each with the walks that freeze it."""
        if self.frozen is None:
            self.frozen = {}
            for number, made in enumerate(self.walks):
                for name, uses in made.frozen_for.items():
                    for site in self.frozen_at(number, uses):
                        self.frozen.setdefault((name, site), []).append(number)
            self.frozen = dict(sorted(self.frozen.items(), key=lambda it: (self.order[it[0][0]], it[0][1])))
        return self.frozen

    def frozen_at(self, number, uses):
        """The sites where a call freezes a number: all but its own, and its own too where it multiplies the number or stands at two sites."""
        if MULTIPLIES in uses or len(self.alike[number]) > 1:
            return self.sites
        return [it for it in self.sites if it != self.alike[number][0].site]

    def freezers_of(self, delta):
        """The ground calls that freeze a delta, each with how it uses the number."""
        name, site = delta
        found = []
        for number in self.freezes()[delta]:
            uses = self.walks[number].frozen_for[name]
            for asker in self.alike[number]:
                mine = uses if asker.site != site else [it for it in uses if it == MULTIPLIES]
                found += [(asker, mine)] if mine else []
        return sorted(found, key=lambda it: it[0].place)
