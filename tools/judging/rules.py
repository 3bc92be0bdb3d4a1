"""Which rule of docs/LOCALITY.md is about a cause: each is a heading of that page."""
import judging.programs as p
from judging.asking import INSERTS, PRINTS, SETS, USES, VISITS

PRINT = "A print of a shared number freezes it"
LAST = "The last item always closes"
WEIGHTS = "Weights from a forecast"
START = "A number that starts at its bound has no slack"
CLAIM = "An insert and a claim close"
ONCE = "A call made once binds for the whole text"
RANGE = "A range for each site"
VERSION = "Begin with version 2"
HOME = "A home site for each key"
APART = "Rare calls in a batch of their own"
ALL = (PRINT, LAST, WEIGHTS, START, CLAIM, ONCE, RANGE, VERSION, HOME, APART)
# Calls are rare of which there is one, or at most one among so many.
RARE = 20


def link(rule):
    """Where a rule stands."""
    return f"docs/LOCALITY.md#{rule.lower().replace(' ', '-')}"


def rules_of(cause, workload, made):
    """The rules about a cause, the first one first; `made` counts the calls of a report by their transactions."""
    found = rules_of_freeze(cause) if cause.is_freeze() else rules_of_clause(cause, workload)
    if not is_rare(cause, made):
        return found
    return [ONCE, APART] if uses_of(cause) == {SETS} else [ONCE, *found[:1]]


def rules_of_clause(cause, workload):
    if any(name.endswith(".used") for name in cause.factors) or is_claim(cause):
        return [CLAIM]
    is_scarce = cause.together > cause.slack or cause.slack < workload.sites
    # (a test that fails is kept failing, as where a number stands at its bound)
    found = WEIGHTS if not is_scarce else LAST if cause.holds else START
    if is_slack_elsewhere(cause, workload):
        return [VERSION, found]
    is_keyed = all("." in name for name in cause.factors)
    return [found, HOME] if workload.weights and is_keyed and len(cause.writers) > 1 else [found]


def is_slack_elsewhere(cause, workload):
    """Whether the call had stayed local, had only the sites that move it the slack, as in version 2."""
    is_spread = not workload.weights and len(cause.writers) < workload.sites
    return is_spread and cause.closing.sum * len(cause.writers) <= cause.slack


def is_rare(cause, made):
    """Whether few calls are of the transactions that ask for it, and the closing one isn't."""
    asking = {asker.call.transaction.name for asker, _ in cause.askers}
    return cause.closing.transaction() not in asking and sum(made[it] for it in asking) <= max(1, sum(made.values()) / RARE)


def uses_of(cause):
    """How the calls that ask for it use a frozen number."""
    return {it for _, all_uses in cause.askers for it in all_uses}


def rules_of_freeze(cause):
    uses = uses_of(cause)
    is_own = cause.closing.transaction() in {it.call.transaction.name for it, _ in cause.askers}
    (name,) = cause.factors
    if is_own and "." in name and uses == {SETS}:
        return [CLAIM]
    return [PRINT, *([RANGE] if is_own and PRINTS in uses else [])] if uses & {PRINTS, SETS, USES} else []


def is_claim(cause):
    """Whether it is for a test of equality that the closing call makes itself, of what is to move."""
    asks = any(str(it.call) == cause.closing.entry.call for it, _ in cause.askers)
    if isinstance(cause.of, tuple):
        return asks and cause.of[0] in (INSERTS, VISITS)
    return asks and any(tests_one_of(it, cause.factors) for it in equalities(cause.of))


def equalities(found):
    match found:
        case p.Equal():
            yield found
        case p.Not(part):
            yield from equalities(part)
        case p.All(tests):
            for it in tests:
                yield from equalities(it)


def tests_one_of(found, names):
    """Whether a test names one of these numbers, or a temporary, which may stand for one."""
    for part in (found.left, found.right):
        match part:
            case p.Name(_, is_parameter) if not is_parameter:
                return True
            case p.Read(name) if name in names:
                return True
            case p.SlotField(relation, _, field) | p.RowField(relation, _, field):
                if any(it.startswith(f"{relation.name}.") and it.endswith(f".{field}") for it in names):
                    return True
    return False
