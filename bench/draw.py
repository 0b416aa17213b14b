#!/usr/bin/env python3
"""Draws how the measured times grow: draw.py FIGURES.tsv PICTURE.svg (bench/run --draw calls it).

Left by the records of the book, right by the entries of the request; both axes logarithmic. Bachumoi is drawn solid,
plain C dashed, each thing in a colour of its own.
"""
import math
import sys

COLOURS = {"judge": "#6b6b6b", "translate": "#0072b2", "decide": "#d55e00", "run": "#00825f", "tick of 0": "#b0528a",
           "step": "#2b8fc9"}
NAMES = {"run": "whole run", "tick of 0": "tick of 0 steps", "step": "a step"}
WIDTH, HEIGHT, TOP, BOTTOM = 990, 470, 74, 64
PANEL = 320                                 # width of a panel; its labels stand to the right of it


def read(path):
    """Rows of the growing books: (what, records, entries) to nanoseconds of plain C and, if there are any, of Bachumoi."""
    rows = {}
    with open(path) as file:
        for line in file:
            what, book, records, entries, unit, plain, proved, _ = line.rstrip("\n").split("\t")
            if book == "growth" and unit == "ns":
                at = what, int(records), 0 if entries == "-" else int(entries)
                rows[at] = float(plain), None if proved == "-" else float(proved)
    return rows


def by_records(rows, what):
    """A judged or translated book has no request; for the others, a request of 8 entries."""
    return [(r, rows[w, r, e]) for w, r, e in sorted(rows) if w == what and e in (0, 8)]


def by_entries(rows, what):
    return [(e, rows[w, r, e]) for w, r, e in sorted(rows) if w == what and r == 1000]


class Panel:
    """A pair of logarithmic axes."""

    def __init__(self, left, xs, decades):
        self.left, self.xs, self.decades = left, xs, decades

    def x(self, value):
        first, last = math.log(self.xs[0]), math.log(self.xs[-1])
        return self.left + PANEL * (math.log(value) - first) / (last - first)

    def y(self, value):
        low, high = self.decades
        return HEIGHT - BOTTOM - (HEIGHT - BOTTOM - TOP) * (math.log10(value) - low) / (high - low)

    def axes(self, title, below):
        yield f'<text x="{self.left}" y="{TOP - 18}" class="title">{title}</text>'
        for decade in range(self.decades[0], self.decades[1] + 1):
            y, name = self.y(10 ** decade), f"{10 ** decade:,} ns" if decade < 3 else f"{10 ** (decade - 3):,} µs"
            yield f'<line x1="{self.left}" y1="{y:.1f}" x2="{self.left + PANEL}" y2="{y:.1f}" class="grid"/>'
            yield f'<text x="{self.left - 8}" y="{y + 4:.1f}" text-anchor="end">{name}</text>'
        for value in self.xs:
            yield f'<text x="{self.x(value):.1f}" y="{HEIGHT - BOTTOM + 20}" text-anchor="middle">{value:,}</text>'
        yield f'<text x="{self.left + PANEL / 2}" y="{HEIGHT - BOTTOM + 40}" text-anchor="middle">{below}</text>'

    def line(self, what, points, dashes):
        path = " ".join(f"{self.x(x):.1f},{self.y(y):.1f}" for x, y in points)
        yield f'<polyline points="{path}" class="line" stroke="{COLOURS[what]}"{dashes}/>'
        for x, y in points:
            yield f'<circle cx="{self.x(x):.1f}" cy="{self.y(y):.1f}" r="3" fill="{COLOURS[what]}"/>'

    def labels(self, ends):
        """Names at the ends of the upper lines, at least a line of text apart."""
        at = -math.inf
        for value, what in sorted(ends, reverse=True):
            at = max(self.y(value) + 4, at + 15)
            x, name = self.left + PANEL + 10, NAMES.get(what, what)
            yield f'<text x="{x}" y="{at:.1f}" fill="{COLOURS[what]}">{name}</text>'

    def draw(self, title, below, series):
        yield from self.axes(title, below)
        ends = []
        for what, points in series:
            plain = [(x, p) for x, (p, _) in points]
            proved = [(x, b) for x, (_, b) in points if b is not None]
            yield from self.line(what, plain, ' stroke-dasharray="5 4"')
            if proved:
                yield from self.line(what, proved, "")
            ends.append(((proved or plain)[-1][1], what))
        yield from self.labels(ends)


def picture(rows):
    left = [(w, by_records(rows, w)) for w in ("judge", "translate", "decide", "run")]
    right = [(w, by_entries(rows, w)) for w in ("decide", "run", "tick of 0", "step")]
    values = [v for _, points in left + right for _, pair in points for v in pair if v is not None]
    decades = math.floor(math.log10(min(values))), math.ceil(math.log10(max(values)))
    yield (f'<svg xmlns="http://www.w3.org/2000/svg" viewBox="0 0 {WIDTH} {HEIGHT}" width="{WIDTH}" height="{HEIGHT}" '
           'font-family="sans-serif" font-size="12" fill="#333">')
    yield ("<style>.title{font-size:14px;font-weight:bold}.grid{stroke:#ddd}"
           ".line{fill:none;stroke-width:2;stroke-linejoin:round}</style>")
    yield f'<rect width="{WIDTH}" height="{HEIGHT}" fill="#fff"/>'
    yield ('<text x="70" y="28">Time of one call, from one run of bench/run. '
           'Solid: Bachumoi. Dashed: plain C, gcc -O2.</text>')
    book, request = Panel(70, (10, 100, 1000), decades), Panel(530, (1, 8, 64), decades)
    yield from book.draw("A book grows", "records of the book; requests of 8 entries", left)
    yield from request.draw("A request grows", "entries of the request; book of 1,000 records", right)
    yield "</svg>"


def main(figures, svg):
    drawn = "\n".join(picture(read(figures))) + "\n"
    with open(svg, "w") as file:
        file.write(drawn)


main(*sys.argv[1:])
