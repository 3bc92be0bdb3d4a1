"""Judges a forecast: each beginning of the schedule is tried, with a search over the configurations that fit.

A configuration gives each clause bounds, one for each site, none negative, which sum to the slack. The clauses ask for theirs apart
from each other, so each is searched by itself: all its bounds are tried where they are few, and else those that the sums ask for.
"""
import dataclasses
import itertools
import math
import re

from judging.report import COUNT, NAME, NUMBER, Illegal
from judging.treaty import DELTA

KEPT = re.compile(rf"kept ({COUNT}) of ({COUNT})")
BOUNDS = re.compile(rf"({COUNT}) bounds((?: {COUNT})+)")
SPENT = re.compile(rf"stop ({NAME}) ({COUNT}) clause ({COUNT}) peaks((?: {COUNT})+) slack ({COUNT})")
FROZEN = re.compile(rf"stop ({NAME}) ({COUNT}) freeze ({COUNT}) {DELTA} value ({NUMBER})")

# The most bounds of a clause that are all tried.
MOST_TRIED = 5_000


def all_bounds(slack, sites):
    """All lists of so many bounds that sum to the slack."""
    for cuts in itertools.combinations(range(slack + sites - 1), sites - 1):
        ends = [-1, *cuts, slack + sites - 1]
        yield [after - before - 1 for before, after in itertools.pairwise(ends)]


def hold(bounds, sums):
    return all(it <= bound for bound, found in zip(bounds, sums) for it in found)


def is_held(slack, sums):
    """Whether some bounds hold a clause's sums, which are a list for each site."""
    if math.comb(slack + len(sums) - 1, len(sums) - 1) <= MOST_TRIED:
        return any(hold(it, sums) for it in all_bounds(slack, len(sums)))
    return sum(max([0, *found]) for found in sums) <= slack


class Replay:
    """The calls of a schedule, each on its own site's deltas alone, and the sums that each clause has had at each site."""

    def __init__(self, workload, treaty, base):
        self.treaty, self.base, self.choices = treaty, base, {}
        self.databases = [dict(base) for _ in range(workload.sites)]
        self.sums = [[[] for _ in range(workload.sites)] for _ in treaty.clauses]
        self.frozen = None

    def make(self, site, call):
        """Makes a call. The row that it takes at the base is the one that it takes here, as long as some treaty is kept."""
        if (site, str(call)) not in self.choices:
            self.choices[site, str(call)] = call.run_on(dict(self.base)).choices
        database = self.databases[site]
        if call.run_on(database).choices != self.choices[site, str(call)]:
            raise Illegal(f"{call} goes another way at site {site} than at the base, though a configuration serves the calls before")
        for clause, sums in zip(self.treaty.clauses, self.sums):
            sums[site].append(sum(factor * (database[name] - self.base[name]) for factor, name, at in clause.form if at == site))
        for number, (name, at) in enumerate(self.treaty.freezes, len(self.treaty.clauses)):
            if at == site and database[name] != self.base[name] and self.frozen is None:
                self.frozen = number, name, at, database[name] - self.base[name]

    def unheld(self):
        """The lowest clause that no bounds hold, None where there are bounds for each."""
        return next((number for number, clause in enumerate(self.treaty.clauses) if not is_held(clause.slack, self.sums[number])), None)

    def peaks(self, number):
        return [max([0, *found]) for found in self.sums[number]]


def scheduled(workload):
    """The calls of the schedule, each with its client and its number."""
    made = dict.fromkeys(workload.clients, 0)
    for name in workload.schedule:
        made[name] += 1
        client = workload.clients[name]
        yield name, made[name], client.site, client.calls[made[name] - 1]


def bounds_of(treaty, replay):
    """Each site from 1 on has its greatest sum, and site 0 what is left of the slack."""
    for number, clause in enumerate(treaty.clauses):
        peaks = replay.peaks(number)
        yield [clause.slack - sum(peaks[1:]), *peaks[1:]]


def spaced(numbers):
    return " ".join(map(str, numbers))


def stop_line(treaty, replay, name, seq):
    number = replay.unheld()
    if number is not None:
        return f"stop {name} {seq} clause {number} peaks {spaced(replay.peaks(number))} slack {treaty.clauses[number].slack}"
    number, object_name, site, value = replay.frozen
    return f"stop {name} {seq} freeze {number} {object_name}@{site} value {value}"


def forecast(workload, treaty):
    """The lines of the forecast of a workload's schedule with the treaty of its first round."""
    base, calls = workload.initial(), list(scheduled(workload))
    replay, bounds, kept, stop = Replay(workload, treaty, base), None, 0, "stop none"
    bounds = list(bounds_of(treaty, replay))
    for name, seq, site, call in calls:
        replay.make(site, call)
        if replay.frozen or replay.unheld() is not None:
            stop = stop_line(treaty, replay, name, seq)
            break
        kept, bounds = kept + 1, list(bounds_of(treaty, replay))
        check_bounds(treaty, replay, bounds)
    return [f"kept {kept} of {len(calls)}", *(f"{number} bounds {spaced(it)}" for number, it in enumerate(bounds)), stop]


def check_bounds(treaty, replay, bounds):
    """These bounds fit, and hold every sum so far."""
    for number, (clause, found) in enumerate(zip(treaty.clauses, bounds)):
        if min(found) < 0 or sum(found) != clause.slack or not hold(found, replay.sums[number]):
            raise Illegal(f"clause {number}: the bounds {spaced(found)} don't serve, though some do")


def check_form(lines):
    """Each line has its form."""
    forms = [KEPT, *[BOUNDS] * (len(lines) - 2)]
    for line, form in zip(lines, forms):
        if not form.fullmatch(line):
            raise Illegal(f"no forecast has the line {line!r} there")
    if lines[-1] != "stop none" and not SPENT.fullmatch(lines[-1]) and not FROZEN.fullmatch(lines[-1]):
        raise Illegal(f"no forecast ends with the line {lines[-1]!r}")


@dataclasses.dataclass
class Verdict:
    """A right forecast keeps so many of the calls; the program was asked for the treaty, which is the same, or refused it."""

    kept: int
    calls: int
    asked: int
    refused: int


def judge(workload, treaty, told, treaties):
    """The verdict on the forecast of a workload's schedule, or `Illegal`."""
    lines = told.split("\n")
    if len(lines) < 3 or lines.pop():
        raise Illegal("a forecast has at least two lines, and ends with a newline")
    check_form(lines)
    wanted = forecast(workload, treaty)
    for found, line in itertools.zip_longest(lines, wanted):
        if found != line:
            raise Illegal(f"the forecast says {found!r}, and {line!r} is right")
    kept = KEPT.fullmatch(lines[0])
    return Verdict(int(kept[1]), int(kept[2]), treaties.asked, treaties.refused)
