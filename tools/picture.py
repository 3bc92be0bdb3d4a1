"""The parts of an SVG, and how wide a text is in it."""
import colorsys
import html

FONT = "Helvetica, Arial, 'Liberation Sans', sans-serif"
SIZE, SMALL, TITLE, LARGE = 13, 11, 16, 24
INK, MUTED, DARK, PAPER, LINE, SHADE = "#1f2933", "#66717f", "#3a4557", "#ffffff", "#d5dae1", "#eef0f3"
MARGIN, GAP, PADDING = 20, 10, 9
# Hues of neighbours differ.
HUES = [212, 28, 146, 280, 352, 180, 48, 316, 240, 100, 12, 198, 64, 260, 332, 164]
# The widths of Helvetica's letters, in thousandths of the size, by the letters that have them; fonts in its place are wider.
WIDTHS = {
    191: "'", 222: "ijl", 278: " !,./:;Ift[]\\", 333: "()-r`", 355: '"', 389: "*", 500: "Jcksvxyz", 556: "0123456789#$?L_abdeghnopqu",
    584: "+<=>", 611: "FTZ", 667: "&ABEKPSVXY", 722: "CDHNRUw", 778: "GOQ", 833: "Mm", 889: "%", 944: "W", 1000: "→…−",
}
WIDTH = {letter: width for width, letters in WIDTHS.items() for letter in letters}
WIDER, BOLDER = 1.2, 1.1


def width(text, size=SIZE, is_bold=False):
    return sum(WIDTH.get(letter, 700) for letter in text) * size * WIDER * (BOLDER if is_bold else 1) / 1000


def colours(site):
    """The fill and the edge of a site's boxes."""
    hue = HUES[site % len(HUES)] / 360
    return ["#" + "".join(f"{round(part * 255):02x}" for part in colorsys.hls_to_rgb(hue, *it)) for it in ((0.94, 0.75), (0.68, 0.45))]


class Picture:
    """The parts of an SVG, from the top down."""

    def __init__(self):
        self.parts = []

    def box(self, x, y, wide, high, fill, edge=None, round_by=0):
        around = f' stroke="{edge}"' if edge else ""
        corner = f' rx="{round_by}"' if round_by else ""
        self.parts.append(f'<rect x="{x:.1f}" y="{y:.1f}" width="{wide:.1f}" height="{high:.1f}" fill="{fill}"{around}{corner}/>')

    def line(self, x, y, to_x, to_y, colour=LINE):
        self.parts.append(f'<path d="M{x:.1f} {y:.1f}L{to_x:.1f} {to_y:.1f}" stroke="{colour}"/>')

    def text(self, x, y, text, size=SIZE, fill=INK, is_bold=False, anchor="start"):
        bold = ' font-weight="bold"' if is_bold else ""
        at = f' text-anchor="{anchor}"' if anchor != "start" else ""
        self.parts.append(f'<text x="{x:.1f}" y="{y:.1f}" font-size="{size}" fill="{fill}"{bold}{at}>{html.escape(text, quote=False)}</text>')

    def svg(self, wide, high, title):
        size = f'width="{wide:.0f}" height="{high:.0f}" viewBox="0 0 {wide:.0f} {high:.0f}"'
        head = f'<svg xmlns="http://www.w3.org/2000/svg" {size} font-family="{FONT}">'
        return "\n".join([head, f"<title>{title}</title>", f'<rect width="100%" height="100%" fill="{PAPER}"/>', *self.parts, "</svg>", ""])
