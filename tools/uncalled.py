#!/usr/bin/env python3
"""tools/uncalled.py

Prints the public functions that no program calls: those of the crates under the heading HEADING of crates.txt, and the others, each
with the reason for which it stands where it does. The gate refuses one that has neither, and a reason of one that is called after all.

Calls are followed from `main` of each program by their names, in the bodies of functions alone: `.name(` may be a method of that name of
any type, `Type::name` one of that type, `name(` a function of no type, and each in the crate itself and in those that it names in
crates.txt. The functions of a trait count as called. So what is printed isn't called, and a few more may not be that have the name of one
that is.
"""
import collections
import pathlib
import re
import sys

sys.dont_write_bytecode = True
sys.path.insert(0, str(pathlib.Path(__file__).resolve().parent))
import crates

HEADING = "# for programs that build on these crates; no command uses them"
TESTS = "# tests: "
# Why a public function that no program calls stands in a crate that one uses.
REASONS = {
    "homeo_io::MemorySink::new": "a sink in memory, for what calls homeo::run without real streams",
    "homeo_io::MemorySink::bytes": "the same",
    "homeo_io::MemorySource::new": "a source in memory, likewise",
    "homeo_syntax::List::spare": "the number of which the list's contracts speak",
    "homeo_eval::eval": "a run of one ground call; it is the run of `eval_call`, which is private to the crate",
    "homeo_eval::serial": "calls one after another, each by `eval_call`",
    "homeo_split::eval_l": "a run of a command on a split database; what it runs on is the state that is private to the crate",
    "homeo_split::Split::has_places": "the test of what `eval_l` asks",
    "homeo_table::walk": "its row is made by the steps of `Rows`, which are private to the crate",
    "homeo_build::residual": "the residual of a ground call, by `walk`",
    "homeo_template::join_clauses": "its clauses stand in the set of `object_clauses`, which is private to the crate",
    "homeo_print::print_template": "its lines are those of `print_plan`",
    "homeo_site::Site::delta": "one of the deltas that `deltas` lends",
    "homeo_core::Core::begin": "`begin_at` at the initial database; a core's fields are private",
    "homeo_core::Core::step": "one call of a core; its fields are private",
    "homeo_session::Session::spent": "a field of which the session's contracts speak",
    "homeo_wire::Wire::base": "a part of the nodes of which the contracts of a wire speak",
    "homeo_cluster::ClientPass::log": "the answers of which the contracts of a pass speak",
}

FUNCTION = re.compile(r"( *)(pub )?(?:pub\(\w+\) )?(?:const )?fn (\w+)")
IMPL = re.compile(r"(?:impl|trait)\b(?:<[^>]*>)? (?:.* for )?(?P<type>\w+)")
STRING = re.compile(r'"(?:[^"\\]|\\.)*"')
CALL = re.compile(r"(?:(?P<method>\.)|\b(?P<type>[A-Z]\w*)(?:::<[^>]*>)?::|\b)(?P<name>[a-z_]\w*)(?:::<[^>]*>)?\(")

Function = collections.namedtuple("Function", "crate type name is_public is_of_trait body")


def under(heading):
    """The crates that stand in crates.txt under the comment that begins so."""
    text = (crates.ROOT / "crates.txt").read_text().partition(f"\n{heading}")[2].partition("\n")[2]
    return [line.partition(":")[0] for line in text.partition("\n\n")[0].splitlines() if not line.startswith("#")]


def functions_in(crate, text):
    """The functions of a file that have code. A body begins behind a line that ends with a brace and is indented as the function is."""
    rows, of, is_of_trait, place = text.splitlines(), None, False, 0
    while place < len(rows):
        row, place = rows[place], place + 1
        if row.startswith("#[cfg(test)]"):
            return
        if row.startswith(("impl", "trait", "pub trait")):
            head = row.removeprefix("pub ")
            of, is_of_trait = IMPL.match(head)["type"], " for " in head or head.startswith("trait")
        elif row == "}":
            of, is_of_trait = None, False
        found = FUNCTION.match(row)
        if found:
            indent, begin = found[1], place - 1
            while place < len(rows) and rows[place - 1] not in (f"{indent}}}", f"{indent}{{}}") and not FUNCTION.match(rows[place]):
                place += 1
            lines = rows[begin:place]
            heads = [at for at, line in enumerate(lines) if line.endswith("{") and not line.startswith(f"{indent}    ")]
            if heads:
                body = " ".join(STRING.sub('""', line).partition("//")[0] for line in lines[heads[0] + 1 :])
                yield Function(crate, of, found[3], bool(found[2]), is_of_trait, body)


def functions():
    """Those of all crates but the tests."""
    for crate in crates.named():
        if crate not in under(TESTS):
            for file in sorted((crates.ROOT / "crates" / crate / "src").rglob("*.rt")):
                yield from functions_in(crate, file.read_text())


def called(all_functions):
    """Those that a program may call."""
    lines, by_name, seen = crates.named(), collections.defaultdict(list), set()
    for it in all_functions:
        by_name[it.name].append(it)
    left = [it for it in all_functions if it.crate not in under(HEADING) and (it.is_of_trait or it.name == "main")]
    while left:
        it = left.pop()
        if it in seen:
            continue
        seen.add(it)
        for call in CALL.finditer(it.body):
            for other in by_name[call["name"]]:
                is_near = other.crate == it.crate or other.crate in lines[it.crate]
                of = it.type if call["type"] == "Self" else call["type"]
                is_meant = other.type is not None if call["method"] else other.type == of
                left += [other] if is_near and is_meant else []
    return seen


def uncalled():
    """The public functions that no program calls, in the order of crates.txt."""
    found = list(functions())
    seen = called(found)
    return [it for it in found if it.is_public and not it.is_of_trait and it not in seen]


def name_of(function):
    return "::".join(filter(None, [function.crate, function.type, function.name]))


def listed():
    leaves = under(HEADING)
    for it in uncalled():
        yield f"{name_of(it)}: {'for other programs' if it.crate in leaves else REASONS.get(name_of(it), 'NO REASON')}"


def check(verdict):
    """Each public function that no program calls stands under the heading or has a reason, and each with a reason isn't called; no crate of
    a program names one under the heading."""
    lines, apart = crates.named(), under(HEADING)
    names = {name_of(it) for it in uncalled() if it.crate not in apart}
    wrong = [f"{it} is called by no program" for it in sorted(names - REASONS.keys())]
    wrong += [f"{it} has a reason, and is called" for it in sorted(REASONS.keys() - names)]
    wrong += [f"{it} names {of}" for it in lines if it not in [*apart, *under(TESTS)] for of in apart if of in lines[it]]
    wrong += [] if apart else [f"crates.txt has no line {HEADING!r}"]
    verdict("public functions that no program calls", f"tools/uncalled.py: {'; '.join(wrong)}" if wrong else None)


if __name__ == "__main__":
    print("\n".join(listed()))
