"""A round's treaty, read as `homeo treaty` prints it, and what breaks it."""
import dataclasses
import itertools
import re

from judging.report import COUNT, NUMBER, Illegal

DELTA = r"([A-Za-z][A-Za-z0-9_.]*)@(\d+)"
CLAUSE = re.compile(rf"({COUNT}) slack ({COUNT}) bounds((?: {COUNT})+) form((?: {NUMBER}\*{DELTA})+)")
FREEZE = re.compile(rf"({COUNT}) {DELTA}")


@dataclasses.dataclass
class Clause:
    """The bounds of the sites on the deltas of a form, which is a list of factors, names and sites."""

    slack: int
    bounds: list
    form: list


@dataclasses.dataclass
class Treaty:
    """`clauses` and behind them the frozen deltas, pairs of a name and a site, numbered together."""

    clauses: list
    freezes: list

    def __post_init__(self):
        self.parts_of = {}

    def parts(self, site):
        """What the treaty asks of a site: by its number, a form of factors and names, and its bound, None for a frozen delta.

        And by the name of each of these deltas, the numbers of what is asked of it.
        """
        if site not in self.parts_of:
            asked, numbers = {}, {}
            for number, clause in enumerate(self.clauses):
                asked[number] = [(factor, name) for factor, name, at in clause.form if at == site], clause.bounds[site]
            for number, (name, at) in enumerate(self.freezes, len(self.clauses)):
                asked[number] = [(1, name)] if at == site else [], None
            for number, (form, _) in asked.items():
                for _, name in form:
                    numbers.setdefault(name, []).append(number)
            self.parts_of[site] = asked, numbers
        return self.parts_of[site]

    def broken(self, site, base, database, written):
        """What the site's own deltas, the database less the base, break first: its number, the sum and the bound, or None.

        Only these names were written since the treaty was kept. The clauses come first, by their numbers, and then the freezes,
        whose sum is the delta and whose bound is 0.
        """
        asked, numbers = self.parts(site)
        for number in sorted({it for name in written for it in numbers.get(name, ())}):
            form, bound = asked[number]
            found = sum(factor * (database[name] - base[name]) for factor, name in form)
            is_kept = found == 0 if bound is None else found <= bound
            if not is_kept:
                return number, found, bound or 0
        return None


def split(slack, shares):
    """The bounds of the sites by the share of each: whole numbers that sum to the slack."""
    whole, up_to = sum(shares), list(itertools.accumulate(shares, initial=0))
    return [slack * after // whole - slack * before // whole for before, after in itertools.pairwise(up_to)]


def listed(lines, word, form, first):
    """The lines behind `word` and their number, each in its form and with its own number, which goes on from `first`."""
    head = re.fullmatch(rf"{word} ({COUNT})", lines.pop(0)) if lines else None
    found = [form.fullmatch(lines.pop(0)) for _ in range(int(head[1]))] if head and int(head[1]) <= len(lines) else [None]
    if not all(found) or [int(it[1]) for it in found] != list(range(first, first + len(found))):
        raise Illegal(f"the {word} of a treaty aren't told as they are to be")
    return found


def read(text):
    lines = text.split("\n")
    clauses = []
    for found in listed(lines, "clauses", CLAUSE, 0):
        form = [(int(factor), name, int(site)) for factor, name, site in re.findall(rf"({NUMBER})\*{DELTA}", found[4])]
        clauses.append(Clause(int(found[2]), list(map(int, found[3].split())), form))
    freezes = [(found[2], int(found[3])) for found in listed(lines, "freezes", FREEZE, len(clauses))]
    if lines != [""]:
        raise Illegal("a treaty has a line behind its last")
    return Treaty(clauses, freezes)


def renamed(treaty, names):
    clauses = [Clause(it.slack, it.bounds, [(factor, names[name], site) for factor, name, site in it.form]) for it in treaty.clauses]
    return Treaty(clauses, [(names[name], site) for name, site in treaty.freezes])
