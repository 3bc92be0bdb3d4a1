"""Certificates with small changes, for the gate: numbers, names and items that are others, left out, doubled or exchanged, and bytes that
are. `changed` makes the same of the same text and seed."""
import copy
import json
import random

NUMBERS = [0, 1, 2, 5, 64, 2**31, 2**32 - 1, 2**32, 10**12, 4 * 10**18, 4 * 10**18 + 1, 2**63 - 1, 2**63]
NAMES = "skip assign write print seq if named fresh true not < <= = lit base delta sum product neg other".split()
OTHERS = [None, True, 1.0, "lit", [], {}]
BYTES = b'0123456789-.eE,[]{}":\\ \n\x00\x80\xff'


def places(value):
    """Each list or object of a value, with each index or key of it."""
    found, left = [], [value]
    while left:
        it = left.pop()
        if isinstance(it, (list, dict)):
            keys = range(len(it)) if isinstance(it, list) else list(it)
            found += [(it, key) for key in keys]
            left += [it[key] for key in keys]
    return found


def change_item(holder, key, draws):
    """Another item in its place; of a list also none, two, or that of another place."""
    item, kind = holder[key], draws.randrange(8)
    if kind == 0 and isinstance(holder, list):
        del holder[key]
    elif kind == 1 and isinstance(holder, list):
        holder.insert(key, copy.deepcopy(item))
    elif kind == 2 and isinstance(holder, list):
        other = draws.randrange(len(holder))
        holder[key], holder[other] = holder[other], item
    elif kind == 3 and draws.random() < 0.3:
        holder[key] = draws.choice(OTHERS)
    elif type(item) is int:
        holder[key] = draws.choice([item + 1, item - 1, -item, draws.choice(NUMBERS), -draws.choice(NUMBERS)])
    elif type(item) is str:
        holder[key] = draws.choice(NAMES)


def share_slacks(value):
    """Bounds that come to the slacks, so that what comes behind them is looked at."""
    try:
        value["bounds"] = [[it["slack"], *[0] * (value["sites"] - 1)] for it in value["clauses"]]
    except (KeyError, TypeError):
        pass


def change_number(value, draws):
    """Another number within its range, where the certificate stays one: what it then says has to be looked at."""
    call = draws.choice(value["calls"])
    nodes = [it for it in call["command"] if it[0] in ("lit", "delta", "write")]
    kind = draws.randrange(6)
    if kind == 0:
        call["site"] = draws.randrange(value["sites"])
    elif kind == 1 and value["freezes"]:
        value["freezes"].remove(draws.choice(value["freezes"]))
    elif kind == 2 and value["clauses"]:
        draws.choice(value["clauses"])["slack"] += draws.choice([-1, 1, 2])
        share_slacks(value)
    elif kind == 3 and value["base"]:
        value["base"][draws.randrange(len(value["base"]))] += draws.choice([-1, 1, 3])
    elif nodes:
        node = draws.choice(nodes)
        node[-1] = draws.choice(NUMBERS) * draws.choice([1, -1]) if node[0] == "lit" else draws.randrange(value["sites"])


def change_bytes(text, draws):
    place, byte = draws.randrange(len(text)), bytes([draws.choice(BYTES)])
    rest = [text[place:], text[place + 1 :], byte + text[place:], byte + text[place + 1 :], b""]
    return text[:place] + draws.choice(rest)


def changed(text, seed):
    draws = random.Random(seed)
    if draws.random() < 0.15:
        return change_bytes(text, draws)
    value = json.loads(text)
    for _ in range(draws.choice([1, 1, 2])):
        change_number(value, draws)
    if draws.random() < 0.5:
        change_item(*draws.choice(places(value)), draws)
    if draws.random() < 0.3:
        share_slacks(value)
    return json.dumps(value, separators=(",", ":")).encode()
