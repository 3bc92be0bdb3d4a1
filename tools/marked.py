"""Parts of a document that a script writes, between two marker lines."""


def begin_of(name):
    return f"<!-- {name}: from here a script writes -->"


def end_of(name):
    return f"<!-- {name}: to here -->"


def put(document, name, lines):
    """Writes the lines between the markers of that name, in the place of what stood there. Returns None, or what isn't there."""
    text = document.read_text()
    front, begin, rest = text.partition(begin_of(name) + "\n")
    _, end, back = rest.partition(end_of(name) + "\n")
    if not begin or not end:
        return f"{document.name} has no lines {begin_of(name)} and {end_of(name)}, between which this goes"
    made = front + begin + "\n".join(["", *lines, "", ""]) + end + back
    if made != text:
        document.write_text(made)
    return None


def table(heads, rows):
    """A table in Markdown, its first column words and the others numbers."""
    said = [heads, ["---", *["---:"] * (len(heads) - 1)], *rows]
    return [f"| {' | '.join(str(cell) for cell in row)} |" for row in said]


def rows(document, name):
    """The rows of the table between the markers of that name, each a list of words."""
    part = document.read_text().partition(begin_of(name))[2].partition(end_of(name))[0]
    found = [line.strip("|").split("|") for line in part.splitlines() if line.startswith("|")]
    return [[cell.strip() for cell in row] for row in found[2:]]
