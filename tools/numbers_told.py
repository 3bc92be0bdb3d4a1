"""What ./why says of a number that is out of its bounds (E9): of which, and what they are."""
import re

from names import Names

MOST_WEIGHT, MOST_BOUND = 1_000, 1_000_000_000_000


def of_weights(at):
    """What is wrong with a weight, or with their number, which is told at the first."""
    count, sites, weight = len(re.match(r"[0-9,\s]*", at.rest)[0].split(",")), int(at.before[3]), int(at.token)
    if at.last == "weights" and count != sites:
        return f"one weight for each site: {sites} and not {count}"
    return f"a weight is at most {MOST_WEIGHT:,}" if weight > MOST_WEIGHT else "one of the weights is above 0"


def out_of_bounds(at, text, offset):
    """Which of the faults it is, with the bounds."""
    if at.is_in_client:
        return argument(at, text, offset)
    if at.last == "at":
        sites = int(at.before[3])
        return f"sites are counted from 0: there {'is site 0 alone' if sites == 1 else f'are the sites 0 to {sites - 1}'}"
    if at.last == "=":
        name, bounds = object_before(at)
        return f"{name} is in {bounds}, and its start has to be"
    return bound(at)


def argument(at, text, offset):
    begin = at.brackets[-1]
    name, bounds = Names(text, offset).bounds_of(at.before[begin - 1], at.before[begin:].count(","))
    return f"the parameter {name} of {at.before[begin - 1]} is in {bounds}" if name else None


def object_before(at):
    """The object whose start stands at the place, and its bounds."""
    place = max(it for it, token in enumerate(at.before) if token == "object")
    return at.before[place + 1], "".join(at.before[place + 3 : -1])


def bound(at):
    number = re.match(r"(-?)\s*([0-9]+)(?:\s*\.\.\s*(-?\s*[0-9]+))?", at.rest)
    if number is None or int(number[2]) > MOST_BOUND:
        return f"a bound is at most {MOST_BOUND:,}, without its sign"
    upper = number[3] and number[3].replace(" ", "")
    return f"the lower bound stands first: {upper}..{number[1]}{number[2]}" if upper else f"a bound is at most {MOST_BOUND:,}, without its sign"
