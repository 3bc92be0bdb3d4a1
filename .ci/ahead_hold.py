"""What ./why says of a treaty before a run, asked of the program's own treaty: the sums and their bounds, and which calls close a round at once."""
import pathlib
import re
import subprocess

from judging import ahead, derivation, random_texts, treaty, workload

ROOT = pathlib.Path(__file__).resolve().parent.parent
BUILT = str(ROOT / ".build" / "homeo")


def parts_fault(found, made):
    """What is wrong with the parts of a text: each is in the treaty, with its bounds and its room, and each call that breaks it is told."""
    base, told = made.initial(), []
    for it in ahead.Ahead(made).parts:
        factors = it.cause.factors
        if it.cause.is_freeze():
            (name,) = factors
            if sorted(site for frozen, site in found.freezes if frozen == name) != it.sites:
                return f"{name} is frozen at other sites than {it.sites}"
        elif not any(clause.slack == it.cause.slack and clause.bounds == it.bounds and is_form(clause, factors, made.sites) for clause in found.clauses):
            return f"the treaty has no clause for {it.what()}"
        told += [(site, set(factors)) for site in it.steps if it.room_at(site) == 0]
    for call, site in derivation.ground_calls(made):
        after = dict(base)
        run = call.run_on(after)
        broken = found.broken(site, base, after, run.written)
        if broken and not any(at == site and names & set(run.written) for at, names in told):
            return f"{call} at {site} breaks {broken}, and isn't told"
    return None


def is_form(clause, factors, sites):
    return {(name, at): factor for factor, name, at in clause.form} == {(name, at): factor for name, factor in factors.items() for at in range(sites)}


def check(verdict):
    texts = [(it.name, it.read_text()) for it in sorted((ROOT / "examples").glob("*.homeo"))]
    texts += [(f"random text {seed}", random_texts.text(seed)) for seed in range(1, 61)]
    count = 0
    for name, text in texts:
        run = subprocess.run([BUILT, "treaty"], input=text.encode(), capture_output=True, text=False)
        if run.returncode == 0:
            made = workload.read(text)
            count += len(ahead.Ahead(made).parts)
            verdict(f"./why of the treaty of {name}", parts_fault(treaty.read(run.stdout.decode()), made))
    verdict("./why of treaties", None if count > 100 else f"tells {count} sums alone")
    run = subprocess.run([str(ROOT / "why"), "--all", str(ROOT / "examples" / "shops.homeo"), "treaty"], capture_output=True, text=True)
    rooms = [int(it) if it else 0 for it in re.findall(r"^    (?:room for (\d+) call|.* closes a round at once)", run.stdout, re.M)]
    verdict("./why of a treaty: the least room first", None if run.returncode == 0 and rooms and rooms == sorted(rooms) else f"{run}")
