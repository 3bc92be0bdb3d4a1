#!/usr/bin/env python3
"""The lemmas whose statement stands elsewhere: in a crate below, in std, or, where it has words of std alone, in any other crate.

.ci/shelf.py         prints them
.ci/shelf.py --all   prints those that are left too, and those of words of this project in crates of which none stands on another

Two statements are the same that differ in the names of variables alone. An imported name counts as what it names: one of std by its last
part, any other by its path. What stands behind a `where` is a step of one proof, and no lemma.
"""
import collections
import pathlib
import re
import shutil
import sys

ROOT = pathlib.Path(__file__).resolve().parent.parent
sys.path.append(str(ROOT / "tools"))
import crates

WORD = re.compile(r"[(){};,]|[^\s(){};,]+")
USE = re.compile(r"^ *(?:pub )?use ([^\s{]+?)(?:\.\{(.*)\}| as (\S+))$", re.M)
HEAD = re.compile(r"( *)(?:pub )?([^\s(){};,:.]+) :(?: (.*))?$")
OF_STD = re.compile(r"Rattle\.(?:std|core)\b|(?!Rattle\.)")
CLOSING = {"(": ")", "{": "}"}
# Words that need no import.
PLAIN = {*"(){};,:→×λ⊥=.", "[]", "Type", "tt", "Unit", "record", "let", "in"}
# What a function gives that is no lemma.
VALUES = {"ℕ", "ℤ", "Bool", "Type 0"}
# Those that are left, by the names of their lemmas, which the lowest crate that has them doesn't show to the others: each would have to be
# public there, and the crates above proved again.
LEFT = {"each_there", "each_at"}
# Files of proofs/ that have no lemmas for others.
ANSWERS = {"Lib.antt", "Answers.antt", "Invariants.antt", "Proof.antt"}


def imports(text):
    """What each imported name stands for; of an operator each part."""
    found = {}
    for path, names, alias in USE.findall(text):
        for item in names.split(", ") if names else []:
            name, _, other = item.partition(" as ")
            whole = name if OF_STD.match(path) else f"{path}.{name}"
            found |= {part: whole for part in (other or name).split("◌") if part}
        if alias:
            found[alias] = path
    return found


def signatures(text):
    """The name and the statement of each lemma, which begins with what its module is given."""
    rows, given, place = text.split("\n"), "", 0
    while place < len(rows):
        row, place = rows[place], place + 1
        given = given if row.startswith(" ") or not row else ""
        if row.startswith("module _"):
            while not row.endswith("where"):
                row, place = f"{row} {rows[place].strip()}", place + 1
            given = row[len("module _") : -len("where")]
        head = HEAD.match(row)
        if head and head[1] == "  " * bool(given):
            said = [given, head[3] or ""]
            while place < len(rows) and rows[place].startswith(head[1] + "  "):
                said.append(rows[place].strip())
                place += 1
            yield head[2], " ".join(said)


def words_of(statement):
    """Its words, without levels, a dot behind what a λ binds on its own."""
    for word in WORD.findall(re.sub(r"\{[ℓκμ ]+\}|(?<=Type )[ℓκμ]", lambda it: "" if "{" in it[0] else "0", statement)):
        yield from (word[:-1], ".") if len(word) > 1 and word.endswith(".") else (word,)


def grouped(words, bound):
    """The words up to the bracket that closes, each bound variable in brackets of its own, and no arrow behind them."""
    said, is_bound, binds = [], False, False
    for word in words:
        if word in CLOSING.values():
            break
        if word in CLOSING:
            inner = grouped(words, bound)
            names = inner[: inner.index(":")] if ":" in inner else []
            is_bound = bool(names) and not {"(", "{"} & set(names)
            bound.update(names if is_bound else [])
            for name in names if is_bound else [None]:
                said += [word, *([name, *inner[len(names) :]] if is_bound else inner), CLOSING[word]]
            continue
        binds = word == "λ" or binds and word != "."
        bound.update([word] if binds and word != "λ" else [])
        said += [] if word == "→" and is_bound else [word]
        is_bound = False
    return said


def plain(statement, names, home):
    """The statement with its variables numbered and its names in full, or None of what is no lemma."""
    bound, numbers, said = set(), {}, []
    words = grouped(words_of(statement), bound)
    if len(words) == 1 or words[-1] in VALUES or " ".join(words[-2:]) in VALUES:
        return None
    for word in words:
        head, dot, rest = word.partition(".")
        if word in PLAIN or word.isdigit():
            said.append(word)
        elif head in bound:
            said.append(f"{numbers.setdefault(head, len(numbers))}'{dot}{rest}")
        else:
            said.append({"zero": "0"}.get(word) or f"{names.get(head, home + head)}{dot}{rest}")
    return " ".join(said)


def of_std():
    """The lemmas that std offers, by their statements."""
    found = {}
    for page in (pathlib.Path(shutil.which("rt")).resolve().parent.parent / "rattle" / "std" / "lemmas").rglob("*.md"):
        for block in re.findall(r"^```text\n(.*?)^```", page.read_text(), re.M | re.S):
            names = imports(block)
            for name, statement in re.findall(r"^pub (\S+) : (.*)$", block, re.M):
                found.setdefault(plain(statement, names, ""), name)
    return found


def of_crates():
    """The crates and the names of the lemmas that have each statement."""
    found = collections.defaultdict(dict)
    for file in sorted((ROOT / "crates").glob("*/proofs/**/*.antt")):
        if file.name not in ANSWERS:
            text, place = file.read_text(), file.relative_to(ROOT / "crates")
            names, home = imports(text), "Rattle." + ".".join(place.with_suffix("").parts) + "."
            for name, statement in signatures(text):
                found[plain(statement, names, home)].setdefault(place.parts[0], f"{place}: {name}")
    found.pop(None, None)
    return found


def told(is_all=False):
    """A line for each statement that stands elsewhere."""
    std, lines = of_std(), crates.named()
    for statement, places in of_crates().items():
        said = ", ".join(places.values())
        is_over = any(one in crates.below(other, lines) for one in places for other in places)
        if statement in std:
            yield f"{said}: std has it as {std[statement]}"
        elif len(places) > 1 and (is_all or (is_over or "Rattle." not in statement) and said.split(": ")[1].split(",")[0] not in LEFT):
            yield said


def check(verdict):
    found = list(told())
    verdict("lemmas that stand elsewhere", "; ".join(found) or None)


if __name__ == "__main__":
    print("\n".join(told("--all" in sys.argv)))
