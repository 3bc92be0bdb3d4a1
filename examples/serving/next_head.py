#!/usr/bin/env python3
"""next_head.py HEAD < ANSWERS: prints the next head, in which each object starts with the value of the last whole answer's database, or of
what `cluster.py --database` says, and behind it the batches that put the slots of its relations back. HEAD may be such an output."""
import pathlib
import re
import sys

sys.dont_write_bytecode = True
sys.path.append(str(pathlib.Path(__file__).resolve().parent.parent / "python"))
import homeo

OBJECT = re.compile(r"(\bobject\s+(\w+)\s+in\s+-?\s*\d+\s*\.\.\s*-?\s*\d+\s*=\s*)(-?\s*\d+)")
RELATION = re.compile(r"\brelation\s+(\w+)\s*\[\s*(\d+)\s*\]\s*\(([^)]*)\)")
FIELD = re.compile(r"(\w+)\s+in\s+(-?)\s*(\d+)\s*\.\.\s*(-?)\s*(\d+)")
# The transactions that this script has put there before.
EARLIER = re.compile(r"^transaction (restore\d+_)\d+_(?:fill|put|free)\((?:\1.*)?\) \{ .* \}\n", re.M)


def relations(text):
    """The relations that a text declares, with how many slots, and the bounds of their fields."""
    for name, size, fields in RELATION.findall(text):
        yield name, int(size), {field: (int(low + least), int(high + most)) for field, low, least, high, most in FIELD.findall(fields)}


def main():
    if len(sys.argv) != 2:
        sys.exit(__doc__)
    head = re.split(r"^[ \t\r]*end[ \t\r]*$", pathlib.Path(sys.argv[1]).read_text(), maxsplit=1, flags=re.M)[0]
    head = EARLIER.sub("", head)
    answers = sys.stdin.read()
    last = (re.findall(r"^database\n((?:\S+ = -?\d+\n)*)(?:rounds \d+ calls \d+|round \d+)\n", answers, re.M) or [""])[-1]
    kept = homeo.read(f"{last}rounds 0 calls 0\n")
    # (the answers have the names of clients)
    prefix = homeo.prefix_of(re.findall(r"\w+", head + answers))
    rows = []
    for at, (name, size, fields) in enumerate(relations(head)):
        slots = kept.relations.get(name) or [homeo.start_of({"used": (0, 1), **fields})] * size
        rows.append(homeo.Rows(name, size, fields, slots, f"{prefix}{at}_"))
    head = OBJECT.sub(lambda it: f"{it[1]}{kept.objects.get(it[2], it[3])}", head)
    for it in rows:
        head = it.of_inserts(RELATION.sub(lambda found: it.declaration() if found[1] == it.name else found[0], head) if it.is_wider else head)
    place = re.search(r"\b(client|schedule)\b|\Z", head).start()
    added = [line for it in rows for line in it.transactions()]
    begun = head[:place] if not added or head[:place].endswith("\n") else f"{head[:place]}\n"
    print(begun, *(f"{line}\n" for line in added), head[place:], "end\n", *(it.batch() for it in rows if it.changed), sep="", end="")


if __name__ == "__main__":
    main()
