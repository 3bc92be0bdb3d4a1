#!/usr/bin/env python3
"""tools/theorem.py

Writes into docs/THEOREM.md, between marker lines, what is taken from the sources: the clause `done` of homeo::run (`clause`), the
files of the heart with their lines (`heart`), and all files that the clauses of homeo::run reach (`files`). Run it after a change of
crates/homeo/src/top.rt or of definitions. The gate compares, and looks that the tables of words and signs, which are written by hand,
lack none that the document says they have. Lines are those of definitions that the clauses reach, without comments and imports, as
.ci/reach.py counts them.
"""
import collections
import pathlib
import re
import sys

sys.dont_write_bytecode = True
ROOT = pathlib.Path(__file__).resolve().parent.parent
sys.path[:0] = [str(ROOT / "tools"), str(ROOT / ".ci")]
import marked
import reach

DOCUMENT = ROOT / "docs" / "THEOREM.md"
TOP = ROOT / "crates" / "homeo" / "src" / "top.rt"
HEART = [
    ("homeo/specs/Outcome.antt", "what the words of a run come to, and what it is to be done"),
    ("homeo_commands/specs/Made.antt", "what each command makes and refuses"),
    ("homeo_meaning/specs/Verdict.antt", "which texts are accepted"),
    ("homeo_history/specs/History.antt", "rounds, entries and closing calls, as data"),
    ("homeo_history/specs/Legal.antt", "which histories are legal, in five parts"),
    ("homeo_history/specs/Merge.antt", "the orders in which the calls of a round may have been made"),
    ("homeo_history/specs/Replayed.antt", "each entry by its site's local step, and where a round ends"),
    ("homeo_plan/specs/Local.antt", "what a site does by itself"),
    ("homeo_plan/specs/Treaty.antt", "what a site's deltas have to keep, and what fails first"),
    ("homeo_history/specs/Follows.antt", "that a history came from the calls of the schedule"),
    ("homeo_meaning/specs/Serial.antt", "calls one after another on one database"),
    ("homeo_meaning/specs/Meaning.antt", "what each expression and each command means"),
]
# A line for each command: the document says what every definition says that one of these lines names.
LINES = ("Rattle.homeo_commands.specs.Made", ("IsMade", "IsRefusal"))
# Of each of these it says what every definition says that the clause `done` reaches.
TOLD = [
    "homeo.specs.Outcome",
    "homeo_commands.specs.Made",
    *(f"homeo_history.specs.{it}" for it in ("History", "Legal", "Merge", "Follows", "Replayed")),
    "homeo_plan.specs.Treaty",
]


def clause(name):
    """The lines of a clause of homeo::run, as they stand in the source."""
    text = TOP.read_text()
    start = text.index(f"    ensures {name} {{")
    depth, end = 0, text.index("{", start)
    while True:
        depth += (text[end] == "{") - (text[end] == "}")
        end += 1
        if depth == 0:
            return [line[4:] for line in text[start:end].splitlines()]


def link(path):
    return f"../crates/{path}"


def reached():
    """How many lines of each file the clauses of homeo::run reach, by its path under crates/."""
    found = reach.Reach(ROOT)
    lines = reach.lines_of(found.of_top())
    return {str(found.modules[it].file.relative_to(ROOT / "crates")): count for it, count in lines.items()}


def reached_by_clause():
    """What reads the definitions, and those that the clause `done` reaches."""
    found = reach.Reach(ROOT)
    imports = next(it.imports for it in found.public if (it.crate, it.name) == reach.TOP)
    return found, found.reached([reach.Promise("homeo", None, "run", " ".join(clause("done")), imports)])


def signs(found, definitions):
    """The names of std that these definitions use, with the signs that stand between their arguments."""
    used = set()
    for it in definitions:
        words = {part for word in reach.NAME.findall(it.text) for part in word.split(".")} | set(it.text.split())
        names = found.modules[it.module].imports.names.items()
        used |= {name.strip("◌") for name, (path, _) in names if path.startswith("Rattle.std") and name.strip("◌") in words}
    return used


def heart_table(lines):
    rows = [[f"[{path}]({link(path)})", purpose, lines[path]] for path, purpose in HEART]
    return [
        "| file, under `crates/` | what it is for | lines |",
        "|---|---|---:|",
        *(f"| {' | '.join(map(str, row))} |" for row in rows),
        f"| together | | {sum(row[2] for row in rows)} |",
    ]


def files_table(lines):
    crates = collections.defaultdict(list)
    for path, count in sorted(lines.items()):
        crates[path.partition("/")[0]].append((path, count))
    said = ["| crate | files, each with its lines | together |", "|---|---|---:|"]
    for crate, files in crates.items():
        listed = ", ".join(f"[{pathlib.Path(path).stem}]({link(path)}) {count}" for path, count in files)
        said.append(f"| `{crate}` | {listed} | {sum(count for _, count in files)} |")
    return [*said, f"| all | {len(lines)} files | {sum(lines.values())} |"]


def parts():
    """What stands between the markers of each name."""
    lines = reached()
    return {
        "clause": ["```text", *clause("done"), "```"],
        "heart": heart_table(lines),
        "files": files_table(lines),
    }


def check(verdict):
    """What docs/THEOREM.md has taken from the sources is what stands there; each word stands in the file that it is linked to; and
    no word and no sign is left out that it says it has."""
    text = DOCUMENT.read_text()
    for name, lines in parts().items():
        part = text.partition(marked.begin_of(name))[2].partition(marked.end_of(name))[0]
        verdict(f"THEOREM.md: {name}", None if part.strip().splitlines() == lines else "not what stands in the sources: run tools/theorem.py")
    rows = re.findall(r"^\| (`\w+`(?:, `\w+`)*) \| [^|]* \| \[[^\]]*\]\(([^)]+)\) \|$", text, re.M)
    words = [(word, (DOCUMENT.parent / target).resolve()) for listed, target in rows for word in re.findall(r"\w+", listed)]
    verdict("THEOREM.md: words", None if words else "there is no table of them")
    for word, file in words:
        is_there = file.exists() and re.search(rf"^\s*(?:(?:abbrev|unfoldable)\s+)?pub (?:record )?{word}\b|^\s*ghost {word}:", file.read_text(), re.M)
        verdict(f"THEOREM.md: {word}", None if is_there else f"{file.name} doesn't define it")
    cited = set(re.findall(r"\b(?:[A-Z]\.)?(\w+)\b", " ".join(clause("done")).partition("→")[2]))
    names = cited - {"words", "now", "items", "old", "new", "source", "out", "S", "O"}
    lacking = names - {word for word, _ in words}
    verdict("THEOREM.md: words of the clause", f"{sorted(lacking)} have no row" if lacking else None)
    found, definitions = reached_by_clause()
    made, named = found.modules[LINES[0]], set()
    for name in LINES[1]:
        named |= {it for it in found.named(made.definitions[name].text, made.imports, made) if isinstance(it, reach.Definition)}
    told = {it for it in definitions if it.module.removeprefix("Rattle.") in TOLD} | named
    lacking = {f"{it.name} of {it.module}" for it in told if (it.name, found.modules[it.module].file.resolve()) not in words}
    verdict("THEOREM.md: words of outcomes and histories", f"{sorted(lacking)} have no row" if lacking or not told else None)
    legend = text.partition("## The legend")[2].partition("\n## ")[0]
    lacking = signs(found, definitions) - {it.replace("\\", "") for it in re.findall(r"(?:\\\||[^\s`,;|])+", legend)}
    verdict("THEOREM.md: signs", f"{sorted(lacking)} have no row" if lacking else None)


def main():
    for name, lines in parts().items():
        print("\n".join(lines))
        lacking = marked.put(DOCUMENT, name, lines)
        if lacking:
            sys.exit(lacking)


if __name__ == "__main__":
    main()
