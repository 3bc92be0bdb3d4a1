"""The relations of a report's database, as a picture shows them."""
import judging.programs as p
from picture import INK, LINE, MUTED, SIZE, SMALL, width

# The most rows of a relation in a column, and of letters in a line below them.
MOST_ROWS, MOST_LETTERS = 16, 40


class Slots:
    """A relation's slots that are used, or are free and have a field other than 0, and which slots are free.

    One whose slots are never used is used by index, as an array: its slots are shown as they are, but those that are all 0.
    """

    def __init__(self, name, slots, is_indexed):
        self.name, self.is_indexed, self.fields = name, is_indexed, [it for it in slots[0] if it != "used"]
        self.found = [(number, is_indexed or it["used"] == 1, [it[field] for field in self.fields]) for number, it in enumerate(slots)]

    def tables(self):
        """The slots in columns side by side."""
        shown = [it for it in self.joined() if it[1] and not self.is_indexed or any(it[2])]
        columns = [shown[begin : begin + MOST_ROWS] for begin in range(0, len(shown), MOST_ROWS)] or [[]]
        titles, belows = [self.name, *[""] * (len(columns) - 1)], [cut_lines(self.rest()), *[[]] * (len(columns) - 1)]
        return [Table(title, self.fields, rows, below) for title, rows, below in zip(titles, columns, belows)]

    def joined(self):
        """Slots in words, with whether they are used and their values; neighbours that are free, or of an array, and alike stand together."""
        found = []
        for number, is_used, values in self.found:
            if found and (self.is_indexed or not is_used) and found[-1][1:] == [is_used, values]:
                found[-1][0][1] = number
            else:
                found.append([[number, number], is_used, values])
        return [(words_of(*run) + ("" if is_used else " (free)"), is_used, values) for run, is_used, values in found]

    def rest(self):
        """Which slots of an array are all 0, or which of a relation are free."""
        if self.is_indexed:
            return slots_in_words("all 0", [number for number, _, values in self.found if not any(values)])
        return slots_in_words("free", [number for number, is_used, _ in self.found if not is_used])


class Table:
    """Some slots of a relation, and a text below them."""

    def __init__(self, name, fields, rows, below):
        self.name, self.below = name, below
        self.rows = [(True, ["slot", *fields]), *((is_used, [slot, *map(str, values)]) for slot, is_used, values in rows)]
        self.columns = [max(width(it, SIZE, True) for it in column) + 16 for column in zip(*(cells for _, cells in self.rows))]
        self.wide = max(sum(self.columns), width(self.name, SIZE, True), *(width(it, SMALL) for it in below or [""]))

    def draw(self, picture, x, y):
        """Draws the table, and returns where it ends."""
        picture.text(x, y + SIZE + 2, self.name, SIZE, INK, True)
        y += 22
        for number, (is_used, row) in enumerate(self.rows):
            size, fill = (SIZE, INK if is_used else MUTED) if number else (SMALL, MUTED)
            right = x
            for cell, wide in zip(row, self.columns):
                right += wide
                picture.text(right - 8, y + SIZE, cell.replace("-", "−"), size, fill, False, "end")
            y += 19
            picture.line(x, y, x + sum(self.columns), y)
        for said in self.below:
            picture.text(x, y + SIZE + 2, said, SMALL, MUTED)
            y += 16
        return y + (10 if self.below else 6)


def cut_lines(said):
    """A text in lines that aren't long."""
    found = []
    for word in said.split(" "):
        if found and len(found[-1]) + len(word) < MOST_LETTERS:
            found[-1] += f" {word}"
        else:
            found.append(word)
    return found if said else []


def words_of(first, last):
    return str(first) if first == last else f"{first} to {last}"


def slots_in_words(what, numbers):
    """Which slots are so, in words: neighbours together."""
    runs = []
    for number in numbers:
        if runs and runs[-1][1] == number - 1:
            runs[-1][1] = number
        else:
            runs.append([number, number])
    said = ", ".join(words_of(*it) for it in runs)
    return f"{what}: {said}" if said else ""


def inserted(workload):
    """The relations into which a text inserts rows."""
    return {it for transaction in workload.transactions.values() for it in inserted_by(transaction.body)}


def inserted_by(command):
    match command:
        case p.Insert(relation):
            yield relation.name
        case p.Block(commands):
            for it in commands:
                yield from inserted_by(it)
        case p.If(_, then, otherwise):
            yield from (*inserted_by(then), *inserted_by(otherwise))
        case p.ForEach(_, _, _, body):
            yield from inserted_by(body)


def relations_of(database, workload):
    """The tables of the relations of a report's database. Without its text one is taken for an array whose slots are all free."""
    found = {}
    for name, value in database:
        if "." in name:
            relation, slot, field = name.split(".")
            slots = found.setdefault(relation, [])
            slots.extend({} for _ in range(int(slot) + 1 - len(slots)))
            slots[int(slot)][field] = value
    rows = inserted(workload) if workload else {name for name, slots in found.items() if any(it["used"] for it in slots)}
    return [table for name, slots in found.items() for table in Slots(name, slots, name not in rows).tables()]
