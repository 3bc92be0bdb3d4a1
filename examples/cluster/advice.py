"""What calls that closed rounds are nearest to break, as `./why TEXT treaty` says it, and which rules of docs/LOCALITY.md are about that.

The treaty of a round that was closed is gone. So this looks at the one that begins with the database as it is now: of all that a call moves,
and of what its site may move, what leaves room for the fewest of these calls.
"""
import collections
import dataclasses
import sys

from nodes import ROOT


@dataclasses.dataclass
class Reason:
    """An object, or what a relation has of it, with how many closings were of calls that are nearest to break what is asked of it, those
    calls, what is asked of it in words, and the rules."""

    subject: str
    count: int = 0
    calls: collections.Counter = dataclasses.field(default_factory=collections.Counter)
    words: str = ""
    rules: tuple = ()


def library():
    """tools/judging, None where these sources stand without it."""
    sys.path.append(str(ROOT / "tools"))
    try:
        from judging import ahead, rules, summary, workload
    except ImportError:
        return None
    return ahead, rules, summary, workload


def reasons(text, closings, database):
    """The reasons of closings, which are counted by calls, those of most closings first; none without tools/judging."""
    if not closings or not (found := library()):
        return []
    ahead, rules, summary, workload = found
    treaty, all_reasons = ahead.Ahead(workload.read(text), database), {}
    for call, count in closings.items():
        part = nearest(treaty, call)
        subject = summary.subject(part.cause) if part else "what nothing asks now"
        reason = all_reasons.setdefault(subject, Reason(subject))
        reason.count += count
        reason.calls[call] += count
        if part and not reason.words:
            reason.words = f"{part.what()}; {part.movers()}"
            reason.rules = tuple(rules.rules_of(part.cause, treaty.workload, treaty.made))
    return sorted(all_reasons.values(), key=lambda it: -it.count)


def nearest(treaty, call):
    """The part of a treaty that leaves room for the fewest calls as this one; where it moves nothing now, of those that it asks for."""
    moving = [(room_of(part, asker.site, moves), part) for part in treaty.parts for asker, moves in treaty.moves.items() if str(asker.call) == call]
    found = [it for it in moving if it[0] is not None] or [(part.room, part) for part in asked_by(treaty, call)]
    return min(found, key=lambda it: it[0], default=(0, None))[1]


def asked_by(treaty, call):
    """The parts that a call asks for, a sum with whatever slack."""
    forms = {key[0] for key in treaty.clauses if any(str(it.call) == call for it in treaty.asking.askers_of(key))}
    for part in treaty.parts:
        if frozenset(part.cause.factors.items()) in forms or any(str(it.call) == call for it, _ in part.cause.askers):
            yield part


def room_of(part, site, moves):
    """How many calls with these moves a site has room for in a part, None where they don't come nearer to it."""
    if part.cause.is_freeze():
        return 0 if site in part.sites and part.cause.factors.keys() & moves.keys() else None
    step = sum(factor * moves.get(name, 0) for name, factor in part.cause.factors.items())
    return part.bounds[site] // step if step > 0 else None
