"""Runs the merges of a round: its calls one after another on one database, in every order that keeps each site's own.

All merges are run where few states lie on their ways: a state is how many calls each site has made, and merges that come to one
state with one database go on as one. Otherwise the sites are taken one after another, rising and falling, then in turns, and then
in random orders.
"""
import random

from judging.report import Illegal

# The most states whose merges are all run, and the most calls that random merges of a round make.
MOST_STATES, MOST_CALLS = 3_000, 60_000
LEAST_MERGES = 4


def numbers(found):
    return " ".join(map(str, found)) or "nothing"


def check_prints(where, entry, prints, said):
    if prints != entry.prints:
        raise Illegal(f"{where}: {entry} prints {numbers(prints)} {said}, and not {numbers(entry.prints)}")


def states(segments):
    """How many states the merges have."""
    found = 1
    for segment in segments:
        found *= len(segment) + 1
    return found


class Merges:
    """Runs merges with the calls of a workload, `calls`, by their texts."""

    def __init__(self, calls, count, seed):
        self.calls, self.count, self.random = calls, count, random.Random(seed)
        self.whole, self.sampled = 0, 0

    def last_database(self, where, base, segments):
        """The one database that the merges leave, all of which print the reported numbers, or `Illegal`."""
        if states(segments) <= MOST_STATES:
            self.whole += 1
            found = self.all_databases(where, base, segments)
        else:
            self.sampled += 1
            found = self.some_databases(where, base, segments)
        if len(found) > 1:
            name = next(it for it in base if found[0][it] != found[1][it])
            raise Illegal(f"{where}: one merge leaves {name} = {found[0][name]}, and another {found[1][name]}")
        return found[0]

    def step(self, where, entry, database):
        check_prints(where, entry, self.calls[entry.call].run_on(database).prints, "in a merge")

    def all_databases(self, where, base, segments):
        """The databases that all merges leave, by going from each state over each site's next call."""
        level = {(0,) * len(segments): [base]}
        for _ in range(sum(map(len, segments))):
            following = {}
            for state, databases in level.items():
                for site, segment in enumerate(segments):
                    if state[site] < len(segment):
                        reached = following.setdefault(state[:site] + (state[site] + 1,) + state[site + 1 :], [])
                        for database in databases:
                            made = dict(database)
                            self.step(where, segment[state[site]], made)
                            if made not in reached:
                                reached.append(made)
            level = following
        (found,) = level.values()
        return found

    def some_databases(self, where, base, segments):
        found = []
        for order in self.orders([len(it) for it in segments]):
            database, places = dict(base), [0] * len(segments)
            for site in order:
                self.step(where, segments[site][places[site]], database)
                places[site] += 1
            if database not in found:
                found.append(database)
        return found

    def orders(self, lengths):
        """Merges as lists of sites, their number bounded by the calls that they make."""
        rising = [site for site, length in enumerate(lengths) for _ in range(length)]
        turns = [site for number in range(max(lengths)) for site, length in enumerate(lengths) if number < length]
        yield from (rising, rising[::-1], turns)
        for _ in range(max(LEAST_MERGES, min(self.count, MOST_CALLS // len(rising))) - 3):
            order = rising[:]
            self.random.shuffle(order)
            yield order
