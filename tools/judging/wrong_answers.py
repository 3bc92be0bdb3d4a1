"""Answers of nodes that were made wrong, and what has to be said of the history that they tell."""
import collections
import dataclasses

from judging import answers, legality, report, treaties, workload, wrong_reports


@dataclasses.dataclass
class Seen:
    """What callers saw: requests with the bodies of their answers, and the nodes' last status."""

    given: list
    statuses: list

    def judged(self):
        """The verdict, or `Illegal`."""
        kept, made = answers.Answers(), workload.read(wrong_reports.TICKETS)
        for request, body in self.given:
            kept.take(request, body)
        history = report.read(report.write(answers.history(made, kept, self.statuses)))
        return legality.judge(made, history, treaties.Treaties(None, made, wrong_reports.TICKETS, 10, 0), 100, 1, "nodes")

    def body(self, number):
        return self.given[number][1]


def answer_of(history_round, number, site, entry):
    closing = history_round.closing
    if closing and closing.entry is entry:
        where = {"path": answers.CLOSING, "place": None, "finding": [closing.clause, closing.sum, closing.bound]}
    else:
        where = {"path": answers.LOCAL, "place": history_round.segments[site].index(entry)}
    return {"type": "call_ok", "call": entry.number, "prints": entry.prints, "round": number} | where


def right():
    """What the callers of a right report saw. Its calls are all different entries, so that each has its place."""
    history, asked, given = report.read(wrong_reports.NODES_REPORT), collections.Counter(), []
    for number, found in enumerate(history.rounds):
        for segment in found.segments:
            segment[:] = [Apart(**vars(it)) for it in segment]
        for site, entry in found.entries():
            asked[entry.client] += 1
            given.append((answers.Request(entry.client, asked[entry.client], entry.call), answer_of(found, number, site, entry)))
    status = {"round": len(history.rounds) - 1, "mode": "running", "base": {"tickets": 7}, "deltas": [0]}
    return Seen(given, [dict(status) for _ in range(3)])


class Apart(report.Entry):
    """An entry that is equal to itself alone."""

    __eq__ = object.__eq__


def again(seen, number, change):
    """An answer once more, with a change."""
    request, body = seen.given[number]
    seen.given.append((request, body | change))


def renumbered(seen, one, other):
    """Two requests of a client with each other's numbers."""
    (a, of_a), (b, of_b) = seen.given[one], seen.given[other]
    seen.given[one] = (dataclasses.replace(a, number=b.number), of_a)
    seen.given[other] = (dataclasses.replace(b, number=a.number), of_b)


# What is done to what the callers saw, and a part of what is said of it. Requests 0 to 2 are the hall's at site 0, 6 closes round 0.
CASES = [
    ("answers, nothing changed", lambda it: None, "legal"),
    ("an answer that comes again", lambda it: again(it, 0, {}), "legal"),
    ("an answer that comes again with other prints", lambda it: again(it, 0, {"prints": [3]}), "request 1 of hall, buy(4), is answered {"),
    ("a request that was made again elsewhere", lambda it: again(it, 7, {"round": 2}), "request 5 of hall, buy(1), is answered {"),
    ("an answer that lacks in the midst", lambda it: it.given.pop(1), "round 0, site 0: no answer stands at place 1, and 2 calls were answered"),
    ("an answer that lacks at the end of a segment", lambda it: it.given.pop(5), "the database: tickets = 7, and the calls leave 9"),
    ("no answer of a closing call", lambda it: it.given.pop(6), "round 0: no answer is that of its closing call, and the nodes have gone on"),
    ("two at one place", lambda it: it.body(1).update(place=0), "round 0, site 0, place 0: hall 2 buy(4) and hall 1 buy(2) stand there"),
    ("two closing calls of a round", lambda it: it.body(9).update(round=0), "stand there"),
    ("requests of a client in another order", lambda it: renumbered(it, 0, 1), "request 2 of hall, buy(4), stands before request 1 of hall, buy(2)"),
    ("a client that there isn't", lambda it: it.given.append((answers.Request("booth", 1, "buy(1)"), it.body(0))), "there is no such client"),
    ("another path", lambda it: it.body(0).update(path="shared"), "request 1 of hall, buy(4), is answered by the path 'shared'"),
    ("an answer of a round to come", lambda it: it.body(8).update(round=3), "round 3: a call was answered there, and all nodes are in round 2"),
    ("deltas that nobody asked for", lambda it: it.statuses[1].update(deltas=[-1]), "the database: tickets = 6, and the calls leave 7"),
    ("another base in the end", lambda it: it.statuses[0].update(base={"tickets": 8}), "the database: tickets = 8, and the calls leave 7"),
    ("a node that is behind", lambda it: it.statuses[2].update(round=1, base={"tickets": 13}), "legal"),
    ("a node that is behind, with another base", lambda it: it.statuses[2].update(round=1, base={"tickets": 12}), "tickets = 12, and the calls leave 13"),
]


def faults():
    """What isn't said as it is to be."""
    for name, change, reason in CASES:
        seen = right()
        change(seen)
        try:
            found = f"legal: {seen.judged()}"
        except report.Illegal as it:
            found = f"not legal: {it}"
        if reason not in found or found.startswith("legal") != (reason == "legal"):
            yield f"{name}: {found!r} doesn't say {reason!r}"
