"""Why the rounds of a report were closed: which number was to move, by how much its site might move it, and which calls of the text
ask for that.

What the ground calls ask is followed from base to base (asking.py), which gives the clause or the freeze that a closing line names.
The report's own numbers say how far the closing call would have gone.
"""
import dataclasses

from judging import legality
from judging.asking import Asking
from judging.derivation import Derivation
from judging.report import Illegal
from judging.treaty import split

# Some so many tests are walked for one report at most, half of them at its begin if need be, the others evenly; the most calls that a line names.
MOST_TESTS, MOST_NAMED = 400_000, 3


@dataclasses.dataclass
class Cause:
    """Why a call closed its round: the factors of its site's numbers in a clause, with the slack, or a number that is frozen there.

    `askers` are the ground calls that ask for it, each with how it uses a frozen number, nothing for a clause; `values` has what these
    numbers are at the base; `together` what all sites came to by the end of the round, and for a clause `of` what the first call tests,
    `holds` whether that was so, and `writers` the sites whose calls may move it.
    """

    number: int
    closing: object
    factors: dict
    slack: int | None
    askers: list
    values: dict
    together: int = 0
    of: object = None
    holds: bool = True
    writers: frozenset = frozenset()

    def is_freeze(self):
        return self.slack is None

    def moved(self):
        """What the site would have done, and what it might do."""
        name, factor = next(iter(self.factors.items()))
        site, sum_, bound = self.closing.site, self.closing.sum, self.closing.bound
        if self.is_freeze():
            return f"{name} is frozen at site {site}"
        relation, _, slot = name.removesuffix(".used").partition(".")
        if name.endswith(".used") and len(self.factors) == 1 and abs(factor) == 1:
            return f"site {site} would have {'filled' if factor == 1 else 'freed'} slot {slot} of {relation}, and may not"
        did, does, to = ("added", "add", "to") if max(self.factors.values()) > 0 else ("taken", "take", "from")
        return f"site {site} would have {did} {sum_} {to} {sum_of(self.factors)}, and may {does} {bound} (all sites together {self.slack})"

    def asked_for(self):
        """The calls that ask for it, the last ones as a number where they are many."""
        return f"asked for by {named(self.askers)}"

    def __str__(self):
        return f"round {self.number}: {self.closing.entry} closed: {self.moved()}; {self.asked_for()}"


def sum_of(factors, said=str):
    """The sum of numbers, those that are added before those that are subtracted; all with a plus, where all are subtracted."""
    sign = 1 if max(factors.values()) > 0 else -1
    terms = sorted(((factor * sign, said(name)) for name, factor in factors.items()), key=lambda it: it[0] < 0)
    told = [f"{'-' if factor < 0 else '+'} {'' if abs(factor) == 1 else f'{abs(factor)}*'}{name}" for factor, name in terms]
    return " ".join(told).removeprefix("+ ")


def named(askers):
    said = ", ".join(f"{asked} ({', '.join(uses)})" if uses else str(asked) for asked, uses in askers[:MOST_NAMED])
    more = len(askers) - MOST_NAMED
    return said + (f" and {more} more" if more > 0 else "")


class Causes:
    """The causes of a report's closed rounds. The report is checked as it is made: it has to be one of the text, from `initial` on.

    `wanted` has the rounds whose causes are to be found, all where there is none; `say` is told of each round that was done.
    Where that would be too much work, some are left out evenly, which `left_out` counts.
    """

    def __init__(self, workload, history, wanted=None, initial=None, say=lambda done: None):
        self.workload, self.history, self.say, self.asking, self.left_out = workload, history, say, None, 0
        self.initial = initial or workload.initial()
        self.derivation = Derivation(workload)
        self.calls = {str(call): call for client in workload.clients.values() for call in client.calls}
        self.check()
        self.numbers = [it for it, found in enumerate(history.rounds) if found.closing and (wanted is None or it in wanted)]
        self.found = list(self.all_found())

    def check(self):
        """That the report is of this text, and that its calls print what it says and leave what it ends with. Notes what each round changes."""
        legality.check_shape(self.workload, self.history)
        legality.check_first_calls(self.workload, self.history)
        self.changes, database = [], dict(self.initial)
        for number, found in enumerate(self.history.rounds):
            written = {}
            for _, entry in found.entries():
                run = self.calls[entry.call].run_on(database)
                written.update((name, database[name]) for name in run.written)
                if run.prints != entry.prints:
                    raise Illegal(f"round {number}: {entry} prints otherwise, or the report begins with another database than the text")
            self.changes.append(written)
        self.last = database
        self.check_last(database)

    def check_last(self, database):
        try:
            legality.check_database(self.history, database)
        except Illegal as fault:
            raise Illegal(f"it begins or ends with another database: {fault}") from None

    def all_found(self):
        base, changed, places = dict(self.initial), set(), {number: place for place, number in enumerate(self.numbers, 1)}
        for number, written in enumerate(self.changes):
            self.say(number)
            if number in places and self.has_room(places[number] / len(places)):
                self.move_to(base, changed)
                yield self.cause(number, self.history.rounds[number].closing)
                changed = set()
            elif number in places:
                self.left_out += 1
            base.update(written)
            changed.update(written)

    def has_room(self, part):
        """Whether the tests so far are few enough for this part of the report."""
        return self.asking is None or self.asking.tests <= MOST_TESTS * (1 + part) / 2

    def move_to(self, base, changed):
        if self.asking is None:
            self.asking = Asking(self.workload, base)
        else:
            self.asking.move_to(base, changed)

    def cause(self, number, closing):
        clauses = self.asking.clauses()
        if closing.clause < clauses:
            return self.clause(number, closing, self.asking.clause(closing.clause))
        frozen = list(self.asking.freezes())
        if closing.clause - clauses >= len(frozen) or frozen[closing.clause - clauses][1] != closing.site:
            raise Illegal(f"round {number}: the treaty has no freeze {closing.clause} at site {closing.site}")
        delta = frozen[closing.clause - clauses]
        return Cause(number, closing, {delta[0]: 1}, None, self.asking.freezers_of(delta), self.values([delta[0]]))

    def values(self, names):
        return {name: self.asking.base[name] for name in names}

    def clause(self, number, closing, key):
        factors = dict(sorted(key[0], key=lambda it: self.asking.order[it[0]]))
        slack, bound = self.asking.slack(key), self.bound(key, closing.site)
        if closing.bound != bound or closing.sum <= bound:
            raise Illegal(f"round {number}: clause {closing.clause} has bound {bound} at site {closing.site}")
        askers = [(it, []) for it in self.asking.askers_of(key)]
        values, after = self.values(factors), self.changes[number]
        together = sum(factor * (after.get(name, values[name]) - values[name]) for name, factor in factors.items())
        return Cause(number, closing, factors, slack, askers, values, together, *self.asking.tested(key), self.derivation.writers_of(factors))

    def bound(self, key, site):
        form = [(factor, name, at) for name, factor in key[0] for at in range(self.workload.sites)] if self.workload.weights else []
        return split(self.asking.slack(key), self.derivation.shares(form) if form else [1] * self.workload.sites)[site]
