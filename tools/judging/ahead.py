"""What may happen before the first round of a text closes, in the text's words: what ./why says of a treaty.

Of each sum that a clause bounds it is told by how much the sites may move it, which calls move it there, and which ask that it stays so;
and of each frozen number who may not move it, and why. What leaves room for the fewest calls comes first.
"""
import collections
import dataclasses

from judging import asking, rules, spoken
from judging.causes import Cause, named, sum_of
from judging.derivation import Derivation
from judging.report import Closing, Entry
from judging.summary import counted, general, subject
from judging.treaty import split

# A clause has little room where it has less than so many of the largest calls; of such ones so many kinds are shown unasked.
LITTLE, MOST_SHOWN, MOST_SITES = 10, 10, 4


@dataclasses.dataclass
class Part:
    """A sum or a frozen number with its cause as if the closest call had closed the round: `steps` has the largest step of a call at each site
    that moves it, and `room` how many such calls the site with the least room has; `sites` are those where it is frozen, of so many."""

    cause: Cause
    bounds: list
    steps: dict
    room: int
    sites: list
    count: int

    def what(self):
        factors = self.cause.factors
        if self.cause.is_freeze():
            return f"{next(iter(factors))} may not move at {self.where()}"
        if max(factors.values()) > 0:
            return f"{sum_of(factors)} may {'rise' if self.cause.slack else 'not rise'}{self.by()}"
        return f"{sum_of(factors)} may {'fall' if self.cause.slack else 'not fall'}{self.by()}"

    def where(self):
        if len(self.sites) == self.count:
            return "any site"
        return f"site {self.sites[0]}" if len(self.sites) == 1 else f"the sites {', '.join(map(str, self.sites))}"

    def by(self):
        """By how much in all, and at each site."""
        if not self.cause.slack:
            return ""
        shares = ", ".join(f"site {site} by {it:,}" for site, it in enumerate(self.bounds))
        shares = shares if len(self.bounds) <= MOST_SITES else f"each site by {min(self.bounds):,} to {max(self.bounds):,}"
        return f" by {self.cause.slack:,} in all, {shares}"

    def movers(self):
        """How many calls there is room for, at the site that has the least."""
        site, (step, call) = min(self.steps.items(), key=lambda it: self.room_at(it[0]))
        if self.cause.is_freeze():
            return f"{call} at {site} closes a round at once"
        moved = f"{call} at {site} ({'+' if max(self.cause.factors.values()) > 0 else '-'}{step:,})"
        return f"{moved} closes a round at once" if not self.room else f"room for {counted(self.room, 'call')} such as {moved}"

    def room_at(self, site):
        return 0 if self.cause.is_freeze() else self.bounds[site] // self.steps[site][0]


def tested(of, workload):
    """What a test is, in the text's words."""
    match of:
        case None:
            return ""
        case (asking.WITHIN, name):
            bounds = workload.bounds(name)
            return f": the write of {general(name)} within {bounds.low}..{bounds.high}"
        case (asking.INSERTS, relation):
            return f": an insert looks for a free slot of {relation}"
        case (asking.VISITS, relation):
            return f": a loop over {relation} looks at its slots"
        case (asking.FINDS, relation):
            return f": a computed index finds a slot of {relation}"
    return f": if {spoken.condition(of)}"


class Ahead:
    """The parts of a text's first treaty, or of the one that begins with another base, that leave room for few calls: `parts`, those with the
    least room first."""

    def __init__(self, workload, base=None):
        self.workload, self.base = workload, base or workload.initial()
        self.asking, self.derivation = asking.Asking(workload, self.base), Derivation(workload)
        self.made = collections.Counter(call.transaction.name for client in workload.clients.values() for call in client.calls)
        self.moves = {it: self.moves_of(it) for it in self.asking.askers}
        self.movers = collections.defaultdict(list)
        for asker, moves in self.moves.items():
            for name in moves:
                self.movers[name].append(asker)
        self.clauses = self.asking.numbered()
        found = [*self.frozen(), *(self.clause(key) for key in self.tightest())]
        self.parts = sorted((it for it in found if it), key=lambda it: (it.room, it.cause.slack or 0))

    def moves_of(self, asker):
        """By how much a call moves each number, made by itself at the base."""
        after = dict(self.base)
        run = asker.call.run_on(after)
        return {name: after[name] - self.base[name] for name in run.written if after[name] != self.base[name]}

    def tightest(self):
        """Of the sums of each form the one with the least slack."""
        found = {}
        for form, rest in self.clauses:
            if form not in found or rest > found[form][1]:
                found[form] = (form, rest)
        return list(found.values())

    def steps(self, form):
        """The largest step of a call at each site that moves a form up, with the call."""
        found = {}
        for asker in dict.fromkeys(it for name in sorted(name for name, _ in form) for it in self.movers[name]):
            step = sum(factor * self.moves[asker].get(name, 0) for name, factor in form)
            if step > found.get(asker.site, (0, ""))[0]:
                found[asker.site] = (step, str(asker.call))
        return found

    def bounds(self, key):
        form = [(factor, name, at) for name, factor in key[0] for at in self.asking.sites]
        weights = self.workload.weights
        return split(self.asking.slack(key), self.derivation.shares(form) if weights else [1] * self.workload.sites)

    def clause(self, key):
        steps, bounds = self.steps(key[0]), self.bounds(key)
        if not steps:
            return None
        site = min(steps, key=lambda it: bounds[it] // steps[it][0])
        room, factors = bounds[site] // steps[site][0], dict(sorted(key[0], key=lambda it: self.asking.order[it[0]]))
        askers = [(it, []) for it in self.asking.askers_of(key)]
        closing = self.closing(site, steps[site], bounds[site])
        tested = (*self.asking.tested(key), self.derivation.writers_of(factors))
        cause = Cause(0, closing, factors, self.asking.slack(key), askers, self.values(factors), steps[site][0], *tested)
        return Part(cause, bounds, steps, room, [site], self.workload.sites)

    def closing(self, site, step, bound):
        """As if a call had closed the round."""
        return Closing(site, 0, step[0], bound, Entry("", 0, step[1], []))

    def values(self, names):
        return {name: self.base[name] for name in names}

    def frozen(self):
        """The frozen numbers that a call moves, those of a name together."""
        sites = collections.defaultdict(list)
        for name, site in self.asking.freezes():
            sites[name].append(site)
        for name, frozen in sites.items():
            steps = {}
            for asker in self.movers[name]:
                if asker.site in frozen:
                    steps.setdefault(asker.site, (self.moves[asker][name], str(asker.call)))
            if steps:
                site = min(steps)
                closing = self.closing(site, steps[site], 0)
                yield Part(Cause(0, closing, {name: 1}, None, self.asking.freezers_of((name, site)), self.values([name])), [], steps, 0, frozen, self.workload.sites)

    # ---- words
    def kinds(self):
        """The parts with little room, those of one declared number that the same transactions ask for together."""
        found = {}
        for it in self.parts:
            if it.room < LITTLE:
                asked = tuple(dict.fromkeys(asker.call.transaction.name for asker, _ in it.cause.askers))
                found.setdefault((subject(it.cause), it.cause.is_freeze(), max(it.cause.factors.values()) > 0, asked), []).append(it)
        return list(found.values())

    def head(self):
        little, none = (sum(it.room < most for it in self.parts) for most in (LITTLE, 1))
        said = f"{counted(self.asking.clauses(), 'clause')} and {counted(len(self.asking.freezes()), 'freeze')}"
        if not little:
            return f"{said}; whatever calls move has room for {LITTLE} calls or more at each site"
        return f"{said}; of what calls move {little:,} {'has' if little == 1 else 'have'} room for fewer than {LITTLE} calls at a site, {none:,} of them for none"

    def lines_of(self, kind):
        first, more = kind[0], len(kind) - 1
        said = [first.what() + (f"; and so {more:,} more" if more else "")]
        said.append(f"    {first.movers()}")
        said.append(f"    asked for by {named(first.cause.askers)}{tested(first.cause.of, self.workload)}")
        return said + [f"    rule: {it}, {rules.link(it)}" for it in rules.rules_of(first.cause, self.workload, self.made)]

    def lines(self, shows_all):
        """What is said of the text's first treaty."""
        kinds = [[it] for it in self.parts if it.room < LITTLE] if shows_all else self.kinds()
        shown = kinds if shows_all else kinds[:MOST_SHOWN]
        said = [self.head(), *(line for it in shown for line in self.lines_of(it))]
        left = sum(map(len, kinds[len(shown) :]))
        if left or any(len(it) > 1 for it in shown):
            said.append(f"--all shows each of them{f', and {left:,} more' if left else ''}")
        return said
