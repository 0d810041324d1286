#!/usr/bin/env python3
"""Draws how the time of a load grows with the number of instructions, from the raw numbers of bench/run.sh, as an SVG.

usage: plot.py RAW.tsv OUT.svg

Two rows of panels, the upper for the pick policy first-in and the lower for highest: on the left the time of a load, and on
the right the time of one take of the solver, both over the number of instructions. A colour is a program and a mark a shape
of code. All scales are logarithmic.
"""
import math
import os
import sys
from collections import namedtuple

sys.dont_write_bytecode = True  # reading the report's functions leaves no file in the repository

from report import SIDES, read  # noqa: E402

Series = namedtuple("Series", "shape side points")
Panel = namedtuple("Panel", "title left top ticks texts")

# Of each program its colour, its dashes and its width: lines that meet are still told apart.
LOOKS = {"clock": ("#0072b2", "", 2.2), "baseline": ("#d55e00", "7 4", 1.8), "packed": ("#00845a", "2 3", 1.8)}
SHAPES = ("straight", "branching", "loops")
POLICIES = ("first-in", "highest")
SIZES = (8, 16, 32, 64, 128)
WIDTH, HEIGHT = 980, 1010
PANEL_WIDTH, PANEL_HEIGHT = 390, 370
LEFTS, TOPS = (70, 560), (54, 524)
INK, FAINT = "#222222", "#dddddd"


# The figures


def loads(rows):
    """The rows of loads, as shape, size and row."""
    for row in rows:
        if row.task == "load":
            shape, size = row.unit.split("-")
            yield shape, int(size), row


def series(rows, policy, value):
    """One list of points for each shape and side; `value` is the figure of a row on a side."""
    found = {}
    for shape, size, row in loads(row for row in rows if row.policy == policy):
        for side in SIDES:
            found.setdefault((shape, side), []).append((size, value(row, side)))
    return [Series(*key, sorted(points)) for key, points in found.items()]


def microseconds(row, side):
    return row.median(side) / 1000


def nanoseconds_a_take(row, side):
    return row.median(side) / row.count


# Scales


def decades(values):
    """1, 2 and 5 of each power of ten, from at or below the lowest value to at or above the highest."""
    steps = [m * 10.0**p for p in range(-6, 10) for m in (1, 2, 5)]
    low = max(step for step in steps if step <= min(values))
    high = min(step for step in steps if step >= max(values))
    return [step for step in steps if low <= step <= high]


def figure(value):
    return f"{value:,.0f}" if value >= 1 else f"{value:g}"


def across(panel, size):
    low, high = math.log(SIZES[0]), math.log(SIZES[-1])
    inset = 16
    return panel.left + inset + (PANEL_WIDTH - 2 * inset) * (math.log(size) - low) / (high - low)


def down(panel, value):
    low, high = math.log(panel.ticks[0]), math.log(panel.ticks[-1])
    return panel.top + PANEL_HEIGHT * (1 - (math.log(value) - low) / (high - low))


# Elements


def text(x, y, words, anchor="middle", size=13, weight="normal"):
    return f'<text x="{x:.1f}" y="{y:.1f}" text-anchor="{anchor}" font-size="{size}" font-weight="{weight}">{words}</text>'


def stroke(colour, width=1.0, dash=""):
    dashes = f' stroke-dasharray="{dash}"' if dash else ""
    return f'stroke="{colour}" stroke-width="{width}"{dashes}'


def rule(x1, y1, x2, y2, look):
    return f'<line x1="{x1:.1f}" y1="{y1:.1f}" x2="{x2:.1f}" y2="{y2:.1f}" {look}/>'


def mark(x, y, shape, colour):
    """A disc for straight code, a triangle for branching, and a square for loops."""
    paint = f'fill="#ffffff" {stroke(colour, 1.6)}'
    if shape == "straight":
        return f'<circle cx="{x:.1f}" cy="{y:.1f}" r="3.8" {paint}/>'
    if shape == "branching":
        return f'<path d="M{x:.1f} {y - 5:.1f}l4.8 8.4h-9.6z" {paint}/>'
    return f'<rect x="{x - 3.6:.1f}" y="{y - 3.6:.1f}" width="7.2" height="7.2" {paint}/>'


def places(panel, one):
    return [(across(panel, size), down(panel, value)) for size, value in one.points]


def curve(panel, one):
    path = " ".join(f"{x:.1f},{y:.1f}" for x, y in places(panel, one))
    colour, dash, width = LOOKS[one.side]
    return f'<polyline points="{path}" fill="none" {stroke(colour, width, dash)}/>'


def marks(panel, one):
    return [mark(x, y, one.shape, LOOKS[one.side][0]) for x, y in places(panel, one)]


def axes(panel):
    right, bottom = panel.left + PANEL_WIDTH, panel.top + PANEL_HEIGHT
    parts = [text(panel.left, panel.top - 16, panel.title, "start", 15, "bold")]
    for tick, words in zip(panel.ticks, panel.texts):
        y = down(panel, tick)
        parts += [rule(panel.left, y, right, y, stroke(FAINT)), text(panel.left - 8, y + 4.5, words, "end")]
    for size in SIZES:
        x = across(panel, size)
        parts += [rule(x, bottom, x, bottom + 5, stroke(INK)), text(x, bottom + 20, size)]
    parts += [rule(panel.left, panel.top, panel.left, bottom, stroke(INK))]
    parts += [rule(panel.left, bottom, right, bottom, stroke(INK))]
    return parts + [text((panel.left + right) / 2, bottom + 40, "instructions")]


def drawn(panel, lines):
    """A panel with its lines; those of the library are the last, and so above the others, and marks are above all lines."""
    order = sorted(lines, key=lambda one: list(SIDES).index(one.side), reverse=True)
    return axes(panel) + [curve(panel, one) for one in order] + [part for one in order for part in marks(panel, one)]


def column(rows, words, left, of):
    """A panel for each policy, all on one scale; `of` is the figure of a row on a side."""
    found = [(policy, series(rows, policy, of)) for policy in POLICIES]
    ticks = decades([value for _, lines in found for one in lines for _, value in one.points])
    parts = []
    for top, (policy, lines) in zip(TOPS, found):
        parts += drawn(Panel(f"{words}, {policy}", left, top, ticks, [figure(tick) for tick in ticks]), lines)
    return parts


def legend():
    """One row that names the programs and the marks."""
    y, x, parts = HEIGHT - 26, LEFTS[0], []
    for side in SIDES:
        colour, dash, width = LOOKS[side]
        parts += [rule(x, y, x + 40, y, stroke(colour, width, dash)), text(x + 48, y + 4.5, SIDES[side], "start")]
        x += 150
    for shape in SHAPES:
        parts += [mark(x + 6, y, shape, INK), text(x + 18, y + 4.5, shape, "start")]
        x += 110
    return parts


def drawing(rows):
    parts = column(rows, "Time of a load (microseconds)", LEFTS[0], microseconds)
    parts += column(rows, "Time of one take (nanoseconds)", LEFTS[1], nanoseconds_a_take)
    return "\n".join(
        [
            f'<svg xmlns="http://www.w3.org/2000/svg" viewBox="0 0 {WIDTH} {HEIGHT}" width="{WIDTH}" height="{HEIGHT}"'
            f' font-family="Helvetica, Arial, sans-serif" fill="{INK}">',
            "<title>Time of a load and of one take against the number of instructions</title>",
            f'<rect width="{WIDTH}" height="{HEIGHT}" fill="#ffffff"/>',
            *parts,
            *legend(),
            "</svg>\n",
        ]
    )


def main():
    if len(sys.argv) != 3:
        sys.exit("usage: plot.py RAW.tsv OUT.svg")
    rows = read(sys.argv[1])
    if not any(loads(rows)):
        sys.exit(f"plot.py: there are no loads in {sys.argv[1]}")
    os.makedirs(os.path.dirname(sys.argv[2]) or ".", exist_ok=True)
    with open(sys.argv[2], "w", encoding="ascii") as out:
        out.write(drawing(rows))


if __name__ == "__main__":
    main()
