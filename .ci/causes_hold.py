"""What ./why names as the cause of a closing, asked of the program: that the number fails there, and that these calls ask for it and no
others do."""
import dataclasses
import subprocess

from judging import causes, derivation, legality, plain_text, report, treaty, workload
from judging.merges import Merges

# Of so many of a cause's calls each is asked for by itself.
MOST_ASKERS = 6


def treaty_of(program, made, text, base, askers):
    """The program's treaty of a round with this base and these ground calls, None where the program refuses such a text."""
    clients = {f"client{number}": workload.Client(f"client{number}", site, [call]) for number, (call, site) in enumerate(askers)}
    plain = plain_text.PlainText(dataclasses.replace(made, clients=clients), text)
    run = subprocess.run([program, "treaty"], input=plain.starting_with(base).encode(), capture_output=True)
    if run.returncode == 2 and run.stderr.startswith(b"refused E"):
        return None
    return treaty.renamed(treaty.read(run.stdout.decode()), {made: name for name, made in plain.names.items()})


def asks(found, cause, is_weighted):
    """Whether a treaty has the clause or the freeze of a cause, with the bound that the report tells; with weights a bound is said by all
    calls of a text that write, and a treaty of some of them has another one."""
    site = cause.closing.site
    if cause.is_freeze():
        return any((name, site) in found.freezes for name in cause.factors)
    for it in found.clauses:
        factors = {name: factor for factor, name, at in it.form if at == site}
        if (it.slack, factors) == (cause.slack, cause.factors) and (is_weighted or it.bounds[site] == cause.closing.bound):
            return True
    return False


def fault_of(program, made, text, found, base, cause):
    """What is wrong with the cause of a closed round, None where nothing is."""
    calls, alone = {str(call): call for client in made.clients.values() for call in client.calls}, dict(base)
    for entry in [*found.segments[cause.closing.site], cause.closing.entry]:
        calls[entry.call].run_on(alone)
    moved = sum(factor * (alone[name] - base[name]) for name, factor in cause.factors.items())
    if moved != cause.closing.sum or (moved == 0 if cause.is_freeze() else moved <= cause.closing.bound):
        return f"its site moves {cause.factors} by {moved}, and the report says {cause.closing.sum} of {cause.closing.bound}"
    askers = [(it.call, it.site) for it, _ in cause.askers]
    named = {(str(call), site) for call, site in askers}
    others = [(call, site) for call, site in derivation.ground_calls(made) if (str(call), site) not in named]
    for calls, is_wanted in [*(([it], True) for it in askers[:MOST_ASKERS]), (others, False)]:
        told = treaty_of(program, made, text, base, calls)
        if told is not None and asks(told, cause, bool(made.weights)) != is_wanted:
            return f"{', '.join(str(call) for call, _ in calls)} {'do not ask' if is_wanted else 'ask'} for it"
    return None


def faults(program, text, told, most):
    """The faults of the causes of a report, of the first closings of a long one, and of how many they were looked for."""
    made, history = workload.read(text), report.read(told)
    calls = {str(call): call for client in made.clients.values() for call in client.calls}
    bases, _ = legality.bases_of(history, Merges(calls, 4, 1), made.initial())
    found = causes.Causes(made, history).found
    wrong = [] if len(found) == len(history.rounds) - 1 else [f"{len(found)} causes, and {len(history.rounds) - 1} closings"]
    for cause in found[:most]:
        fault = fault_of(program, made, text, history.rounds[cause.number], bases[cause.number], cause)
        wrong += [f"{cause}: {fault}"] if fault else []
    return wrong, min(len(found), most)
