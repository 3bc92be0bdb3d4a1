"""The texts of .ci/row_texts: for each row of a document's tables, a text that shows it, and what it gives."""
import collections
import re

BODY = """workload 1
sites 2
object x in 0..9 = 5
object y in 0..9 = 0
relation R[4] (f in 0..9, g in 0..9)
transaction try() {{
{}
}}
client one at 0 {{ try() }}
schedule one
end
"""

Case = collections.namedtuple("Case", "rows text given")


def cases(file):
    """Each text with the rows that it shows, and what it gives: the numbers that are printed, or `refused` and a code."""
    found, rows, lines = [], [], []
    for line in file.read_text().splitlines():
        if line.startswith("== "):
            rows.append(tuple(line[3:].split(": ", 1)))
        elif line.startswith("=> "):
            text = "\n".join(lines)
            found.append(Case(rows, text + "\n" if text.startswith("workload") else BODY.format(text), line[3:]))
            rows, lines = [], []
        elif not line.startswith("# "):
            lines.append(line)
    return found


def rows_of(document):
    """The rows of a document's tables, but of those that a script has measured: the first cell, and the second where that is needed."""
    text = re.sub(r"<!-- (\S+): from here.*?<!-- \1: to here -->", "", document.read_text(), flags=re.S)
    found = []
    for table in re.findall(r"^\|.*\n\|[-| :]+\n((?:\|.*\n)*)", text, re.M):
        cells = [line.strip("|\n ").split(" | ") for line in table.splitlines()]
        firsts = collections.Counter(row[0] for row in cells)
        found += [" | ".join(row[: 1 if firsts[row[0]] == 1 else 2]) for row in cells]
    return found
