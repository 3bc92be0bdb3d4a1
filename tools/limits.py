#!/usr/bin/env python3
"""tools/limits.py

Measures with the program ($HOMEO, or the built one) how large texts may be before they are refused with E11, and writes the figures into
docs/LANGUAGE.md, between the marker lines of `slots`, and into docs/COOKBOOK.md and examples/README.md, between those of `growth`. It
takes some seconds.

slots    a command over the slots of a relation on 2 sites: how often it may stand in one call, and in how many different calls
growth   each text of the cookbook and of examples/, with 64 slots in each relation: how many different calls of a transaction it may have

A text is measured without being run: behind its calls stands one more, which is refused whatever stands before it (its product weighs
too much, E10). Where the refusal is that call's, the calls before it are accepted.
"""
import functools
import itertools
import pathlib
import re
import subprocess
import sys

sys.dont_write_bytecode = True
sys.path.insert(0, str(pathlib.Path(__file__).resolve().parent))
import marked
import program

ROOT = pathlib.Path(__file__).resolve().parent.parent
HEAVY = "transaction heavy_last() { print(999999999999 * 999999999999) }\n"
SLOTS = (16, 32, 64)
MOST_CALLS = 1_024
# Over a relation R with the fields f and g, in a call with the parameters p, a slot, and q.
COMMANDS = [
    "print(count(r of R when r.f = q))",
    "print(sum(r.g of R when r.f = q))",
    "foreach r of R when r.f = q { print(r.g) }",
    "delete r of R when r.f = q",
    "update r of R when r.f = q set g = 5",
    "update r of R when r.f = q set g = r.g + 1",
    "insert R (f = q, g = 2) into place",
    "R[p].f := q",
    "R[p - 1].f := q",
    "print(R[p].f)",
    "print(R[p - 1].f)",
    "foreach r of R when true { foreach s of R when s.f = q { skip } }",
]


chosen = functools.cache(program.chosen)


def complaint(text):
    run = subprocess.run([chosen(), "treaty"], input=text.encode(), stdout=subprocess.DEVNULL, stderr=subprocess.PIPE)
    return run.stderr.decode()


def is_accepted(declarations, calls):
    """Whether a client at site 0 may make these calls, which are different ones."""
    if len(calls) > MOST_CALLS:
        return False
    if len(calls) == MOST_CALLS:
        return complaint(f"{declarations}client all at 0 {{ {'; '.join(calls)} }}\nend\n") == ""
    begin = f"{declarations}{HEAVY}client all at 0 {{ {'; '.join([*calls, ''])}"
    told = complaint(f"{begin}heavy_last() }}\nend\n")
    return told in {f"refused {code} at {len(begin)}\n" for code in ("E10", "E11")}


def greatest(holds, most):
    """The greatest number up to `most` of which it holds, where it holds of none above one of which it doesn't."""
    low, high = 0, most + 1
    while high - low > 1:
        middle = (low + high) // 2
        low, high = (middle, high) if holds(middle) else (low, middle)
    return low


def slots_text(slots, body):
    relation = f"relation R[{slots}] (f in 0..1000, g in 0..1000)\n"
    return f"workload 1\nsites 2\n{relation}transaction t(p in 0..63, q in 0..1023) {{ {body} }}\n"


def fits_often(command, slots, count):
    return is_accepted(slots_text(slots, "; ".join([command] * count)), ["t(1, 1)"])


def fits_different(command, slots, count):
    return is_accepted(slots_text(slots, command), [f"t(1, {n})" for n in range(count)])


def shown(number):
    return f"{number:,}"


def slots_table():
    heads = ["command", *(f"often, {slots} slots" for slots in SLOTS), *(f"different calls, {slots} slots" for slots in SLOTS)]
    rows = []
    for command in COMMANDS:
        often = [greatest(lambda n: fits_often(command, slots, n), 60_000) for slots in SLOTS]
        different = [greatest(lambda n: fits_different(command, slots, n), MOST_CALLS) for slots in SLOTS]
        rows.append([f"`{command}`", *map(shown, often + different)])
    return marked.table(heads, rows)


# ---- texts
def widened(text):
    """The declarations of a text, with 64 slots in each relation."""
    declarations = text[: re.search(r"^client ", text, re.M).start()]
    return re.sub(r"^(relation \w+)\[\d+\]", r"\1[64]", declarations, flags=re.M)


def different_calls(declarations, name):
    """The different calls of a transaction, as many as may be."""
    head = re.search(rf"^transaction {name}\((.*?)\)", declarations, re.M)[1]
    ranges = [range(int(low), int(high) + 1) for low, high in re.findall(r"in (-?\d+)\.\.(-?\d+)", head)]
    made = itertools.islice(itertools.product(*ranges), MOST_CALLS + 1)
    return [f"{name}({', '.join(map(str, arguments))})" for arguments in made]


def named_texts(document):
    """The texts of a document, or of a folder, with their names."""
    if document.is_dir():
        return [(file.stem, file.read_text()) for file in sorted(document.glob("*.homeo"))]
    parts = re.split(r"^## (.*)\n", document.read_text(), flags=re.M)
    found = [(name, re.search(r"^```homeo\n(.*?)^```$", part, re.M | re.S)) for name, part in zip(parts[1::2], parts[2::2])]
    return [(name, block[1]) for name, block in found if block]


def growth_rows(texts):
    for name, text in texts:
        declarations = widened(text)
        for transaction in re.findall(r"^transaction (\w+)\(\w", declarations, re.M):
            calls = different_calls(declarations, transaction)
            fits = greatest(lambda n: is_accepted(declarations, calls[:n]), min(len(calls), MOST_CALLS))
            yield [name, f"`{transaction}`", shown(fits), "" if fits < len(calls) else "all that there are"]


def growth_table(texts):
    heads = ["text", "transaction", "different calls at one site, at most", ""]
    return marked.table(heads, growth_rows(texts))


# ---- for the gate
def measured_rows(document, name):
    """The rows between the markers of that name, each a list of its cells."""
    part = document.read_text().partition(marked.begin_of(name))[2].partition(marked.end_of(name))[0]
    rows = [line.strip("| ").split(" | ") for line in part.splitlines() if line.startswith("|")]
    return rows[2:]


def number(cell):
    return int(cell.replace(",", ""))


def check_slots(verdict):
    """Each figure of the table in docs/LANGUAGE.md is accepted, and one more isn't."""
    rows = measured_rows(ROOT / "docs" / "LANGUAGE.md", "slots")
    verdict("commands over slots", None if [row[0].strip("`") for row in rows] == COMMANDS else "the table has other commands")
    for row in rows:
        command = row[0].strip("`")
        for fits, cells in ((fits_often, row[1:4]), (fits_different, row[4:7])):
            for slots, most in zip(SLOTS, map(number, cells)):
                is_right = fits(command, slots, most) and not fits(command, slots, most + 1)
                verdict(f"{command}: {most} over {slots} slots", None if is_right else "another number is the most")


def check_growth(verdict, document, texts):
    """Each figure of the document's table is accepted, and one more isn't, where there are more."""
    declared = {name: widened(text) for name, text in texts}
    rows = measured_rows(document, "growth")
    wanted = [(name, f"`{it}`") for name, text in declared.items() for it in re.findall(r"^transaction (\w+)\(\w", text, re.M)]
    verdict(f"{document.name}: growth", None if [(row[0], row[1]) for row in rows] == wanted else "the table has other rows")
    for name, transaction, most, *_ in rows:
        calls = different_calls(declared[name], transaction.strip("`"))
        count = number(most)
        more = calls[: count + 1]
        is_right = is_accepted(declared[name], calls[:count]) and (len(more) == count or not is_accepted(declared[name], more))
        verdict(f"{document.name}: {name}: {count} of {transaction}", None if is_right else "another number is the most")


PLACES = [(ROOT / "docs" / "COOKBOOK.md", ROOT / "docs" / "COOKBOOK.md"), (ROOT / "examples" / "README.md", ROOT / "examples")]


def main():
    parts = [(ROOT / "docs" / "LANGUAGE.md", "slots", slots_table())]
    parts += [(document, "growth", growth_table(named_texts(source))) for document, source in PLACES]
    for document, name, lines in parts:
        print("\n".join(lines))
        lacking = marked.put(document, name, lines)
        if lacking:
            sys.exit(lacking)


if __name__ == "__main__":
    main()
