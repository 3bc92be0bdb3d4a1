"""What ./why says of a call that is too large, or comes after calls that are too large together (E11), and under `tables` of one that has too
many rows, or comes after calls that have together (E12): its size or rows, the limit, and what makes it so."""
import collections

import judging.programs as p
from judging import workload
from sizing import BEYOND, Measure, Reader

MOST_SIZE, MOST_DEPTH, MOST_TOGETHER, MOST_PRINTS = 200_000, 1_000, 2_000_000, 1_000_000
MOST_ROWS, MOST_ROWS_TIMES_SIZES = 4_096, 8_000_000
MOST_LETTERS = 60


class Calls:
    """The calls of a text up to the one at an offset, with the measures of the different ones."""

    def __init__(self, text, offset):
        self.text, self.reader = text, Reader(text)
        self.made = self.reader.workload()
        all_calls = [(call, client.site) for client in self.made.clients.values() for call in client.calls]
        self.calls = [it for it in all_calls if self.reader.places[id(it[0])] <= offset]
        self.ground = list({(str(call), site): call for call, site in reversed(self.calls)}.items())[::-1]
        self.measures = {}
        for (said, _), call in self.ground:
            if said not in self.measures:
                self.measures[said] = Measure(self.made, call)

    def last(self):
        return str(self.calls[-1][0])

    def together(self):
        return sum(self.measures[said].size for (said, _), _ in self.ground)

    def prints(self):
        return sum(self.measures[str(call)].prints for call, _ in self.calls)

    def tables(self):
        """The rows times the size of each different call, added up."""
        return sum(it.rows * it.size for it in (self.measures[said] for (said, _), _ in self.ground))

    def by_transaction(self, extent=lambda it: it.size):
        """The sizes of the different calls together, by transaction, and how many there are."""
        sizes, counts = collections.Counter(), collections.Counter()
        for (said, _), call in self.ground:
            sizes[call.transaction.name] += extent(self.measures[said])
            counts[call.transaction.name] += 1
        return sizes, counts


def said_of(calls):
    """The lines of a hint."""
    said = calls.last()
    found = calls.measures[said]
    if found.size > MOST_SIZE:
        more = "more than " if found.size > BEYOND else ""
        return f"{said} has size {more}{min(found.size, BEYOND):,}, and a call has at most {MOST_SIZE:,}{because(calls, found)}"
    if found.depth > MOST_DEPTH:
        return f"{said} has depth {found.depth:,}, and a call has at most {MOST_DEPTH:,}: a name that is set from itself again and again gets deeper each time"
    if calls.together() > MOST_TOGETHER:
        return said_together(calls, said)
    return f"the {len(calls.calls):,} calls up to {said} have {calls.prints():,} print commands, and all calls have at most {MOST_PRINTS:,}"


def said_together(calls, said):
    sizes, counts = calls.by_transaction()
    ((name, size),) = sizes.most_common(1)
    first = next(calls.measures[text] for (text, _), call in calls.ground if call.transaction.name == name)
    head = f"the {len(calls.ground):,} different calls up to {said} have size {calls.together():,} together, and all calls have at most {MOST_TOGETHER:,}"
    return f"{head}; {counts[name]:,} are of {name}, with size {size:,}{because(calls, first)}"


def said_of_rows(calls):
    """The lines of a hint of rows."""
    said = calls.last()
    found, ways = calls.measures[said], "a write has 2 rows, an if those of both branches together, and commands one after another have the product"
    if found.rows > MOST_ROWS:
        number = f"{found.rows:,}" if found.rows < BEYOND else f"more than {BEYOND:,}"
        return f"under tables {said} has {number} rows, and a call has at most {MOST_ROWS:,}: {ways}"
    ((name, extent),) = calls.by_transaction(lambda it: it.rows * it.size)[0].most_common(1)
    head = f"under tables the {len(calls.ground):,} different calls up to {said} have {calls.tables():,} by rows times size"
    return f"{head}, and all calls have at most {MOST_ROWS_TIMES_SIZES:,}; {extent:,} are of {name}"


def because(calls, found):
    """The inmost part of a call that is at least half of it, with the loops around it."""
    large = [(size, -len(found.loops[key]), key) for key, size in found.parts.items() if 2 * size >= found.size and not isinstance(found.nodes[key], p.Block)]
    if not large:
        return ""
    size, _, key = min(large)
    node, place = found.nodes[key], calls.reader.places[key]
    line, share = calls.text.count("\n", 0, place) + 1, 100 * size // found.size
    loops = [it for it in found.loops[key] if isinstance(it, (p.ForEach, p.Update, p.Delete, p.Count, p.Total))]
    within = "".join(f", at each of the {it.relation.slots} slots of {it.relation.name}" for it in loops[-2:])
    more = f", in {len(loops) - 2} more loops" if len(loops) > 2 else ""
    return f"; {share} % of it is line {line}, {excerpt(calls.text, place)}: {why_large(node, found)}{within}{more}"


def why_large(node, found):
    relation = getattr(node, "relation", None)
    match node:
        case p.SetSlotField(_, index, _) | p.SlotField(_, index, _) if p.known(index, found.parameters) is None:
            return f"its index is computed, so each of the {relation.slots} slots of {relation.name} is looked at"
        case p.ForEach() | p.Update() | p.Delete() | p.Count() | p.Total():
            return f"it goes over the {relation.slots} slots of {relation.name}"
        case p.Insert():
            return f"it looks through the {relation.slots} slots of {relation.name}"
    return "a temporary stands for the whole of what it was set to, so what is set from itself grows"


def excerpt(text, place):
    """A command or an expression, as the text has it, or its beginning."""
    said = text[place : place + end_of(text[place : place + 20 * MOST_LETTERS])]
    said = " ".join(said.split())
    return said if len(said) <= MOST_LETTERS else f"{said[:MOST_LETTERS].rstrip()} .."


def end_of(text):
    """Where a phrase ends: before a ; or a bracket that closes what is open around it, or behind the bracket that closes its last."""
    depth = 0
    for at, letter in enumerate(text):
        depth += (letter in "([{") - (letter in ")]}")
        if depth < 0 or depth == 0 and letter == ";":
            return at
        if depth == 0 and (letter == "}" or letter == ")" and text.startswith(("count", "sum"))):
            return at + 1
    return len(text)


def too_large(text, offset, said=said_of):
    """The hint for a call at an offset, None where the text can't be read."""
    try:
        return said(Calls(text, offset))
    except workload.Unreadable:
        return None


def too_branched(text, offset):
    """The hint for a call that has too many rows."""
    return too_large(text, offset, said_of_rows)
