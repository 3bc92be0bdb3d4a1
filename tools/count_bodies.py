#!/usr/bin/env python3
"""tools/count_bodies.py

Prints how many wrong bodies each crate has, those that the gate tries (crates/*/must-fail/) and the others (crates/*/wrong-bodies/, which
tools/wrong-bodies tries with the first), and writes the table into docs/TESTS.md between the marker lines of `wrong-bodies`. It says which
don't fit their files, and where a crate has more in must-fail/ than its share. The gate refuses both, and another table.
"""
import pathlib
import sys

sys.dont_write_bytecode = True
sys.path.insert(0, str(pathlib.Path(__file__).resolve().parent))
import crates
import edits
import marked

ROOT = crates.ROOT
DOCUMENT = ROOT / "docs" / "TESTS.md"
GATED, OTHERS = "must-fail", "wrong-bodies"
# How many of a crate's wrong bodies the gate tries.
MOST = 4
# Crates whose contracts the proofs of the crates above try already, and the bodies that the gate tries all the same.
INNER = {
    "homeo_io": [],
    "homeo_notes": [],
    "homeo_tokens": [],
    "homeo_meaning": [],
    "homeo_context": [],
    "homeo_ground": [],
    "homeo_size": [],
    "homeo_desugar": [],
    "homeo_split": [],
    "homeo_local": [],
    "homeo_outline": [],
    "homeo_delta": [],
    "homeo_joint": [],
    "homeo_substitution": ["write_is_not_put_in"],
    "homeo_table": [],
    "homeo_form": [],
    "homeo_linear": ["followed_prints_need_nothing", "tests_before_a_false_one_are_taken", "written_form_is_not_set", "written_objects_are_not_needed"],
    "homeo_config": ["all_bounds_are_zero", "even_bounds_are_not_parted", "remainder_is_lost", "whole_slack_for_each"],
    "homeo_template": [],
    "homeo_build": [],
    "homeo_effect": [],
    "homeo_cert_reader": [],
    "homeo_words": [],
}
# Crates that take minutes to prove, and would be proved once more for their wrong bodies: tools/wrong-bodies alone tries these.
DEAR = ["homeo_syntax", "homeo_reader", "homeo_rules", "homeo_print", "homeo_print_workload", "homeo_core", "homeo_forecast", "homeo_cert", "homeo_verify", "homeo_session", "homeo_wire", "homeo_cluster", "homeo_lines", "homeo_process"]
# Those of which the gate tries what stands here, and nothing else.
FIXED = {**INNER, **{crate: [] for crate in DEAR}}


def edits_in(crate, part):
    return sorted((ROOT / "crates" / crate / part).glob("*.edit"))


def wrong_bodies(crate):
    return [*edits_in(crate, GATED), *edits_in(crate, OTHERS)]


def listed():
    """A table with a crate a line, in the order of crates.txt, and all together."""
    rows = [[crate, *(len(edits_in(crate, part)) for part in (GATED, OTHERS))] for crate in crates.named() if wrong_bodies(crate)]
    return marked.table(["crate", "tried by the gate", "outside it"], [*rows, ["all", *(sum(row[place] for row in rows) for place in (1, 2))]])


def check(verdict):
    """The table in docs/TESTS.md is that of the folders, the gate tries no more of a crate than its share, and each edit can be made."""
    part = DOCUMENT.read_text().partition(marked.begin_of("wrong-bodies"))[2].partition(marked.end_of("wrong-bodies"))[0]
    written, wanted = part.strip().splitlines(), listed()
    wrong = [line for line in written if line not in wanted] + [line for line in wanted if line not in written]
    fault = f"run tools/count_bodies.py; it differs at {wrong[0]!r}" if wrong else None
    verdict("TESTS.md: wrong bodies", fault or (None if written == wanted else "another order: run tools/count_bodies.py"))
    for crate in crates.named():
        if wrong_bodies(crate):
            verdict(f"wrong bodies of {crate}", next(faults_of(crate), None))


def faults_of(crate):
    gated = [it.stem for it in edits_in(crate, GATED)]
    wanted = FIXED.get(crate)
    if wanted is not None and gated != wanted:
        yield f"{GATED}/ has {gated}, and not {wanted}"
    if len(gated) > MOST:
        yield f"{GATED}/ has {len(gated)}, more than {MOST}: the others belong in {OTHERS}/"
    for name in sorted({*gated} & {it.stem for it in edits_in(crate, OTHERS)}):
        yield f"{name} stands in {GATED}/ and in {OTHERS}/"
    for edit in edits_in(crate, GATED):
        if not edits.is_of_code(edit):
            yield f"{edit.name} turns a definition or a proof, which shows nothing of a body: it belongs in {OTHERS}/"
    for edit in wrong_bodies(crate):
        try:
            edits.applied(edit, ROOT / "crates" / crate)
        except edits.Misfit as misfit:
            yield str(misfit)


def main():
    print("\n".join(listed()))
    faults = [f"{crate}: {fault}" for crate in crates.named() for fault in faults_of(crate)]
    lacking = marked.put(DOCUMENT, "wrong-bodies", listed())
    if faults or lacking:
        sys.exit("\n".join([*faults, *[lacking] * bool(lacking)]))


if __name__ == "__main__":
    main()
