"""What the closings of a report, or of the reports of a session, come to: how many there were, of which numbers, at which sites and in
which transactions, and the rules of docs/LOCALITY.md for those causes that most closings had."""
import collections
import dataclasses

from judging import causes, rules

# The most entries of a line, the most causes with their rules, and so many closings at most are shown one by one unasked.
MOST_LISTED, MOST_CAUSES, MOST_CLOSINGS = 10, 6, 10


def counted(number, word):
    return f"{number:,} {word}" + ("" if number == 1 else "s")


def percent(part, whole):
    """A share to one decimal, which is 100 or 0 only where it is exactly that."""
    said = f"{100 * part / whole:.1f} %"
    if said == "100.0 %" and part < whole:
        return "more than 99.9 %"
    return "less than 0.1 %" if said == "0.0 %" and part else said.replace(".0 %", " %") if part in (0, whole) else said


def listed(counts, said=str):
    """The most frequent of some things, with their numbers."""
    most = sorted(counts.items(), key=lambda it: -it[1])
    found = ", ".join(f"{said(it)} ({number:,})" for it, number in most[:MOST_LISTED])
    return found + (f" and {len(most) - MOST_LISTED:,} more" if len(most) > MOST_LISTED else "")


def general(name):
    """A number of the database as the text declares it: an object, a field of a relation, or the slots of one."""
    relation, _, rest = name.partition(".")
    field = rest.partition(".")[2]
    return f"slots of {relation}" if field == "used" else f"{relation}[].{field}" if field else name


def subject(cause):
    """What was to move: a number, or a sum of some, each as it is declared."""
    return causes.sum_of({(general(name), factor > 0): factor for name, factor in cause.factors.items()}, lambda it: it[0])


@dataclasses.dataclass(frozen=True)
class Kind:
    """What the causes of many closings have in common."""

    subject: str
    what: str
    transactions: tuple
    uses: tuple
    rules: tuple

    def lines(self, number):
        asked = ", ".join(self.transactions[:3]) + (f" and {len(self.transactions) - 3} more" if len(self.transactions) > 3 else "")
        uses = f" ({', '.join(self.uses)})" if self.uses else ""
        said = [f"{counted(number, 'closing')}: {self.what}; asked for by {asked}{uses}"]
        return said + [f"    rule: {it}, {rules.link(it)}" for it in self.rules]


def kind(cause, workload, made):
    transactions = tuple(dict.fromkeys(it.call.transaction.name for it, _ in cause.askers))
    uses = tuple(dict.fromkeys(use for _, uses in cause.askers for use in uses))
    return Kind(subject(cause), words(cause), transactions, uses, tuple(rules.rules_of(cause, workload, made)))


def words(cause):
    """What was to happen, of all closings of this kind."""
    about = subject(cause)
    if cause.is_freeze():
        return f"{about} frozen"
    is_added = max(cause.factors.values()) > 0
    if about.startswith("slots of ") and len(cause.factors) == 1:
        return f"{about} to be {'filled' if is_added else 'freed'}"
    return f"more to be {'added to' if is_added else 'taken from'} {about} than a site may alone"


@dataclasses.dataclass
class Part:
    """A report with its text and its causes, where they are known, which is a batch of a session where it has a number."""

    workload: object
    history: object
    causes: object
    number: int | None = None

    def lines(self):
        said = "" if self.number is None else f"batch {self.number}, "
        return [f"{said}{it}" for it in self.causes.found]


class Summary:
    """That of reports, each a `Part`."""

    def __init__(self, parts):
        self.parts = parts
        self.rounds = [it for part in parts for it in part.history.rounds]
        self.closings = [it.closing for it in self.rounds if it.closing]
        self.calls = sum(part.history.calls() for part in parts)
        self.made = collections.Counter(entry.transaction() for it in self.rounds for _, entry in it.entries())
        self.found = [(cause, part) for part in parts if part.causes for cause in part.causes.found]
        self.left_out = sum(part.causes.left_out for part in parts if part.causes)

    def local(self):
        return self.calls - len(self.closings)

    def head(self):
        """How many calls were local, and how many of the closed rounds had none."""
        share = f" ({percent(self.local(), self.calls)})" if self.calls else ""
        empty = sum(bool(it.closing) and not any(it.segments) for it in self.rounds)
        said = f"{self.local():,} of {counted(self.calls, 'call')} were local{share}, {len(self.closings):,} closed a round"
        return said + (f"; {empty:,} of these rounds had no local call" if self.closings else "")

    def by_object(self):
        return collections.Counter(subject(cause) for cause, _ in self.found)

    def with_most(self, declared):
        """A field of a relation, with the slot's number for which most of its calls closed."""
        numbers = collections.Counter(causes.sum_of(cause.factors) for cause, _ in self.found if subject(cause) == declared)
        ((most, number),) = numbers.most_common(1)
        return f"{declared}, of {counted(len(numbers), 'slot')} most for {most}, {number:,}" if "[]" in declared and len(numbers) > 1 else declared

    def by_site(self):
        return collections.Counter(it.site for it in self.closings)

    def by_transaction(self):
        return collections.Counter(it.transaction() for it in self.closings)

    def by_kind(self):
        return collections.Counter(kind(cause, part.workload, self.made) for cause, part in self.found)

    def counts(self):
        """The closings by what they have in common."""
        of = f" (of the {len(self.found):,} whose causes were looked for, evenly over the report)" if self.left_out else ""
        said = [f"closings by object: {listed(self.by_object(), self.with_most)}{of}"] if self.found else []
        said.append(f"closings by site: {listed(self.by_site(), lambda it: f'site {it}')}")
        return [*said, f"closings by transaction: {listed(self.by_transaction())}"]

    def largest(self):
        """The causes that most closings had, with the rules about them."""
        kinds = sorted(self.by_kind().items(), key=lambda it: -it[1])
        said = [line for it, number in kinds[:MOST_CAUSES] for line in it.lines(number)]
        rest = sum(number for _, number in kinds[MOST_CAUSES:])
        return said + ([f"{counted(rest, 'closing')} of {counted(len(kinds) - MOST_CAUSES, 'other kind')}"] if rest else [])

    def one_by_one(self, shows_all):
        found = [line for part in self.parts for line in part.lines()]
        if shows_all or len(found) <= MOST_CLOSINGS:
            return found
        return [f"--all shows the {len(found):,} closings one by one"]

    def lines(self, shows_all):
        """What is said of it all."""
        if not self.closings:
            return [self.head()]
        return [self.head(), *self.counts(), *self.largest(), *self.one_by_one(shows_all)]
