"""The history of nodes from what their callers saw: all answers, and the nodes' last status, make the report that the judge reads.

An answer says where its call stands: the round, and the place in its site's segment or that the call closed the round. What every call
was answered, with no place left free, is the whole history, whatever nobody ever saw as one; and what the nodes are in the end, base and
deltas added up, is its last database.

Where all nodes are in one round the history goes up to their present calls. Otherwise it ends at the beginning of the least round of a
node: what was made behind that may be answered only when this node has gone on.
"""
import collections
import dataclasses

from judging.report import Closing, Entry, History, Illegal, Round

LOCAL, CLOSING = "local", "closing"


@dataclasses.dataclass(frozen=True)
class Request:
    """What a caller asks: a call of a client, with a number that rises from request to request of this client."""

    client: str
    number: int
    call: str

    def __str__(self):
        return f"request {self.number} of {self.client}, {self.call}"


def entry_of(request, answer):
    return Entry(request.client, answer["call"], request.call, answer["prints"])


class Answers:
    """The answers of all requests. However often one is answered, it is the same."""

    def __init__(self):
        self.found, self.again = {}, 0

    def take(self, request, answer):
        """Keeps the body of a `call_ok`, or `Illegal` where the request had another answer."""
        before = self.found.setdefault(request, answer)
        self.again += before is not answer
        if before != answer:
            raise Illegal(f"{request}, is answered {before}, and then {answer}")

    def has(self, request):
        return request in self.found

    def by_client(self):
        """Each client's requests with their answers, in the order of their numbers."""
        found = collections.defaultdict(list)
        for request in sorted(self.found, key=lambda it: it.number):
            found[request.client].append((request, self.found[request]))
        return found


def check_order(answers):
    """A client's requests stand in the order of their numbers: each in a later round, or later in the round, than those before it."""
    for found in answers.by_client().values():
        stand = [(it["round"], it["path"] == CLOSING, it["place"] if it["path"] == LOCAL else 0) for _, it in found]
        for number, (one, next_one) in enumerate(zip(stand, stand[1:])):
            if next_one < one:
                raise Illegal(f"{found[number + 1][0]}, stands before {found[number][0]}")


def put(kept, key, entry, where):
    if key in kept:
        raise Illegal(f"{where}: {kept[key]} and {entry} stand there")
    kept[key] = entry


class Places:
    """Where answered calls stand: the closing call of each round, and of each segment the call at each place."""

    def __init__(self, workload, answers):
        self.workload, self.closings, self.segments = workload, {}, collections.defaultdict(dict)
        self.findings = {}
        for request, answer in answers.found.items():
            self.add(request, answer)

    def add(self, request, answer):
        number, site, entry = answer["round"], self.site(request), entry_of(request, answer)
        if answer["path"] == CLOSING:
            put(self.closings, number, entry, f"round {number}, closing")
            self.findings[number] = Closing(site, *answer["finding"], entry)
        elif answer["path"] == LOCAL:
            put(self.segments[number, site], answer["place"], entry, f"round {number}, site {site}, place {answer['place']}")
        else:
            raise Illegal(f"{request}, is answered by the path {answer['path']!r}")

    def site(self, request):
        if request.client not in self.workload.clients:
            raise Illegal(f"{request}, is answered, and there is no such client")
        return self.workload.clients[request.client].site

    def segment(self, number, site):
        """The calls of a segment, which leave no place free."""
        found = self.segments.get((number, site), {})
        lacking = [place for place in range(len(found)) if place not in found]
        if lacking:
            raise Illegal(f"round {number}, site {site}: no answer stands at place {lacking[0]}, and {len(found)} calls were answered")
        return [found[place] for place in range(len(found))]

    def closed(self, number):
        """A round that was closed."""
        if number not in self.findings:
            raise Illegal(f"round {number}: no answer is that of its closing call, and the nodes have gone on")
        return Round([self.segment(number, site) for site in range(self.workload.sites)], self.findings[number])

    def open(self, number):
        """The last round, which has no closing call, and no call of a later round."""
        later = [it for it in [*self.findings, *(number for number, _ in self.segments)] if it > number]
        if later or number in self.findings:
            raise Illegal(f"round {max([*later, number])}: a call was answered there, and all nodes are in round {number}")
        return Round([self.segment(number, site) for site in range(self.workload.sites)], None)


class Bases:
    """The base that nodes told of each round, which is one."""

    def __init__(self):
        self.of = {}

    def take(self, status):
        before = self.of.setdefault(status["round"], status["base"])
        if before != status["base"]:
            raise Illegal(f"round {status['round']}: one node begins with {before}, and another with {status['base']}")

    def check(self, bases):
        """Nodes began rounds with these bases, which the calls of the history leave."""
        for number, base in self.of.items():
            if number < len(bases) and list(bases[number].items()) != list(base.items()):
                raise Illegal(f"round {number}: the nodes begin with {base}, and the calls leave {bases[number]}")


def sum_of(statuses):
    """The database that nodes in one round come to: the base with the deltas of all."""
    base = statuses[0]["base"]
    deltas = [sum(it) for it in zip(*(status["deltas"] for status in statuses))]
    return [(name, value + delta) for (name, value), delta in zip(base.items(), deltas)]


def history(workload, answers, statuses):
    """What the answers and the last status of each node tell, or `Illegal`."""
    check_order(answers)
    places, least = Places(workload, answers), min(statuses, key=lambda it: it["round"])
    end = least["round"]
    rounds = [places.closed(number) for number in range(end)]
    if all(it["round"] == end for it in statuses):
        rounds, database = rounds + [places.open(end)], sum_of(statuses)
    else:
        rounds, database = rounds + [Round([[] for _ in range(workload.sites)], None)], list(least["base"].items())
    return History(rounds, database, len(rounds), sum(len(it.entries()) for it in rounds))
