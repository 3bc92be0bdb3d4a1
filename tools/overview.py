"""The front of a picture of many rounds: how many calls were local, where in the run the closings lie, and of what they are."""
from judging.summary import counted, percent
from picture import DARK, INK, LARGE, LINE, MARGIN, MUTED, SHADE, SIZE, SMALL, colours, width

# The most bars over the run, their height, and the most rows of a column, each so high.
MOST_BARS, HIGH, MOST_ROWS, ROW = 120, 84, 8, 19
# Of a column the widths of the labels and of the numbers, and what stands between columns.
LABELS, NUMBERS, BETWEEN, MOST_LETTERS = 150, 46, 28, 22


def parts_of(history, most):
    """The calls of a history in equal parts, as many as may be: of each how many calls it has, and how many closed a round, by site."""
    closers = [None if entry is not getattr(it.closing, "entry", None) else site for it in history.rounds for site, entry in it.entries()]
    count = max(1, min(most, len(closers)))
    cuts = [len(closers) * place // count for place in range(count + 1)]
    return [closers[begin:end] for begin, end in zip(cuts, cuts[1:])]


class Overview:
    """That of a summary, whose parts are one report."""

    def __init__(self, summary, history, has_causes):
        self.summary, self.parts = summary, parts_of(history, MOST_BARS)
        self.columns = [("closings by object", summary.by_object(), str)] if has_causes else []
        self.columns.append(("closings by transaction", summary.by_transaction(), str))
        self.columns.append(("closings by site", summary.by_site(), lambda it: f"site {it}"))

    def head(self):
        share = percent(self.summary.local(), self.summary.calls)
        return f"{share} of {counted(self.summary.calls, 'call')} were local; {counted(len(self.summary.closings), 'closing')}"

    def wide(self):
        return max(width(self.head(), LARGE, True), len(self.columns) * (LABELS + NUMBERS + 90 + BETWEEN))

    def draw(self, picture, y, right):
        """Draws it from y on, and returns where it ends."""
        picture.text(MARGIN, y + LARGE, self.head(), LARGE, INK, True)
        y = self.draw_run(picture, y + LARGE + 18, right)
        wide, lowest = (right - MARGIN + BETWEEN) / len(self.columns), y
        for place, (title, counts, said) in enumerate(self.columns):
            end = self.draw_column(picture, MARGIN + place * wide, y, wide - BETWEEN, title, counts, said)
            lowest = max(lowest, end)
        return lowest + 12

    def draw_run(self, picture, y, right):
        """A bar for each part of the run, as high as the share of its calls that closed, in the colours of their sites."""
        each = max(len(it) for it in self.parts)
        picture.text(MARGIN, y + SMALL, f"closings over the run, among each {counted(each, 'call')} in turn: a full bar means that each of them closed a round", SMALL, MUTED)
        y += SMALL + 8
        picture.box(MARGIN, y, right - MARGIN, HIGH, SHADE)
        step = (right - MARGIN) / len(self.parts)
        for place, part in enumerate(self.parts):
            at = y + HIGH
            for site in sorted({it for it in part if it is not None}):
                high = HIGH * part.count(site) / len(part)
                at -= high
                picture.box(MARGIN + place * step, at, max(step - 1, 0.6), high, colours(site)[1])
        picture.line(MARGIN, y + HIGH, right, y + HIGH, DARK)
        return y + HIGH + 16

    def draw_column(self, picture, x, y, wide, title, counts, said):
        picture.text(x, y + SIZE, title, SIZE, INK, True)
        y += ROW + 2
        most = counts.most_common()
        for it, number in most[:MOST_ROWS]:
            self.draw_row(picture, x, y, wide, said(it), number / most[0][1], f"{number:,}", it if isinstance(it, int) else None)
            y += ROW
        if len(most) > MOST_ROWS:
            rest = sum(number for _, number in most[MOST_ROWS:])
            picture.text(x, y + SIZE, f"and {len(most) - MOST_ROWS} more, with {counted(rest, 'closing')}", SMALL, MUTED)
            y += ROW
        return y

    def draw_row(self, picture, x, y, wide, label, share, number, site):
        said = label if len(label) <= MOST_LETTERS else f"{label[: MOST_LETTERS - 1]}…"
        room = wide - LABELS - NUMBERS
        picture.text(x, y + SIZE, said.replace("-", "−"), SIZE, INK)
        picture.box(x + LABELS, y + 3, max(1, room * share), ROW - 7, DARK if site is None else colours(site)[1])
        picture.text(x + LABELS + room * share + 6, y + SIZE, number, SIZE, MUTED)
