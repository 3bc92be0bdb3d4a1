"""The picture of a table of bench/peers: how long calls take, at the first site and at the two others, on a scale by powers of ten."""
import math

import picture
from picture import DARK, GAP, INK, MARGIN, MUTED, PADDING, SHADE, SIZE, SMALL, TITLE

# The way and the callers of the rows that are drawn, and these rows by their systems and stocks.
WAY, CALLERS = 50, "8, 8, 8"
DRAWN = [
    ("live nodes", "25,000"),
    ("live nodes", "1,000"),
    ("live nodes", "30"),
    ("central PostgreSQL", "any"),
    ("central Redis", "any"),
    ("two-phase commit, a stock for each caller", "any"),
    ("two-phase commit", "any"),
]
HEADING = "How long a call takes"
CASE = f"three sites with {2 * WAY} ms there and back between any two, and eight callers at each, who buy of one stock where nothing else is said"
LEGEND = "dot: half of the calls are as fast; mark: 95 in a hundred; end of the bar: 99"
COLOURS, SITES = ["#2f6fb3", "#c4551d"], ["at the first site, where a central database is", "at each of the others"]
# The milliseconds at the ends of the scale and how long it is, how wide names and counts are, how high a row, a bar and a dot.
LEAST, MOST, WIDE, NAMES, COUNTS, HIGH, BAR, DOT = 0.1, 10_000, 560, 310, 90, 46, 4, 9


def numbers(cell, separator):
    return [float(it.replace(",", "")) for it in cell.split(separator)]


def calls(cell):
    """Calls a second at the first site, and at each of the others in the mean."""
    first, *others = numbers(cell, ", ")
    return [first, sum(others) / len(others)]


def name_of(system, stock):
    return f"{system}, a stock of {stock}" if stock != "any" else system


def place(milliseconds):
    """Where on the scale, from the left."""
    part = math.log(min(max(milliseconds, LEAST), MOST) / LEAST) / math.log(MOST / LEAST)
    return MARGIN + NAMES + part * WIDE


def said(milliseconds):
    return f"{milliseconds:g} ms" if milliseconds < 1_000 else f"{milliseconds / 1_000:g} s"


class Plot:
    def __init__(self):
        self.picture, self.y, self.right = picture.Picture(), MARGIN, MARGIN + NAMES + WIDE + COUNTS

    def dot(self, x, y, colour):
        self.picture.box(x - DOT / 2, y - DOT / 2, DOT, DOT, colour, None, DOT / 2)

    def draw_heading(self):
        self.picture.text(MARGIN, self.y + TITLE, HEADING, TITLE, INK, True)
        self.picture.text(MARGIN, self.y + TITLE + 22, CASE, SMALL, MUTED)
        self.picture.text(MARGIN, self.y + TITLE + 38, LEGEND, SMALL, MUTED)
        self.y += TITLE + 64
        x = MARGIN + NAMES
        for colour, name in zip(COLOURS, SITES):
            self.dot(x, self.y - SMALL / 3, colour)
            self.picture.text(x + DOT, self.y, name, SMALL, INK)
            x += DOT + picture.width(name, SMALL) + 2 * GAP
        self.picture.text(self.right - PADDING, self.y, "calls a second", SMALL, INK, True, "end")
        self.y += GAP

    def draw_scale(self):
        """The bands of the rows, the powers of ten, and half a round trip and a whole one."""
        end = self.y + HIGH * len(DRAWN)
        for number in range(0, len(DRAWN), 2):
            self.picture.box(MARGIN, self.y + HIGH * number, self.right - MARGIN, HIGH, SHADE)
        for power in range(round(math.log10(MOST / LEAST)) + 1):
            value = LEAST * 10**power
            self.picture.line(place(value), self.y, place(value), end)
            self.picture.text(place(value), end + SMALL + 5, said(value), SMALL, MUTED, False, "middle")
        for value, name, anchor in ((WAY, "half a round trip", "end"), (2 * WAY, "a round trip", "start")):
            self.picture.line(place(value), self.y, place(value), end, DARK)
            self.picture.text(place(value), end + 2 * SMALL + 10, name, SMALL, INK, False, anchor)

    def draw_row(self, name, row):
        self.picture.text(MARGIN + PADDING, self.y + HIGH / 2 + 4.5, name, SIZE, INK)
        counts, times = calls(row[5]), [numbers(cell, " / ") for cell in row[6:9]]
        for site, colour in enumerate(COLOURS):
            y = self.y + HIGH * (site + 1) / 3
            half, most, end = (place(it[site]) for it in times)
            self.picture.box(half, y - BAR / 2, end - half, BAR, colour)
            self.picture.box(most - 1, y - BAR - 1, 2, 2 * BAR + 2, colour)
            self.dot(half, y, colour)
            self.picture.text(self.right - PADDING, y + 4.5, f"{counts[site]:,.0f}", SIZE, colour, True, "end")
        self.y += HIGH

    def drawn(self, rows):
        found = {(row[0], row[2]): row for row in rows if row[1] == str(WAY) and row[3] == CALLERS}
        self.draw_heading()
        self.draw_scale()
        for key in DRAWN:
            self.draw_row(name_of(*key), found[key])
        return self.picture.svg(self.right + MARGIN, self.y + 2 * SMALL + MARGIN, HEADING)


def drawn(rows):
    """The picture of the rows of a table."""
    return Plot().drawn(rows)
