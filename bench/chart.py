#!/usr/bin/env python3
"""Draws the figures of bench/speed.tsv as a chart, and prints it as SVG: docs/speed.svg is what it prints.

usage: bench/chart.py > docs/speed.svg

The same figures give the same bytes. The chart has its own background, so that it can be read on a light page and on a
dark one.
"""

import sys
from pathlib import Path
from xml.sax.saxutils import escape

FIGURES = Path(__file__).resolve().parent / "speed.tsv"
TITLE = "Instructions for each byte of a file that is listed"
SUBTITLE = "Fewer is better. Counted by callgrind."
SERIES = ["dotenvy here", "Rust crate dotenvy 0.15.7"]

WIDTH, MARGIN = 760, 20
LEFT, RIGHT = 258, 700  # where the bars begin, and where the longest tick is
TOP, ROW, BAR = 110, 36, 12
TICKS = [0, 100, 200, 300, 400]

STYLE = """
    .page { fill: #ffffff; stroke: #d0d7de }
    text { font: 13px system-ui, -apple-system, "Segoe UI", "DejaVu Sans", sans-serif; fill: #1f2328 }
    .title { font-size: 17px; font-weight: 600 }
    .small { font-size: 12px; fill: #57606a }
    .end { text-anchor: end }
    .middle { text-anchor: middle }
    .grid { stroke: #d0d7de }
    .here { fill: #0b62c4 }
    .crate { fill: #c8781e }
    @media (prefers-color-scheme: dark) {
      .page { fill: #161b22; stroke: #30363d }
      text { fill: #e6edf3 }
      .small { fill: #9da7b1 }
      .grid { stroke: #30363d }
      .here { fill: #6cb6ff }
      .crate { fill: #f0a860 }
    }
"""


def figures():
    """The kinds of files, each with its two figures as they are written, and what its lines are."""
    lines = FIGURES.read_text(encoding="utf-8").splitlines()
    rows = [line.split("\t") for line in lines if line and not line.startswith("#")]
    if not rows or any(len(row) != 4 for row in rows):
        sys.exit(f"{FIGURES.name} has no rows of four fields")
    return rows


def place(value):
    """Where a bar of this value ends."""
    return round(LEFT + (RIGHT - LEFT) * float(value) / TICKS[-1], 1)


def text(x, y, words, kind=""):
    """A line of text."""
    return f'<text x="{x}" y="{y}"' + (f' class="{kind}"' if kind else "") + f">{escape(words)}</text>"


def legend():
    """Which colour is which."""
    for number, (name, kind) in enumerate(zip(SERIES, ("here", "crate"))):
        x = LEFT + 130 * number
        yield f'<rect x="{x}" y="{TOP - 31}" width="12" height="12" class="{kind}"/>'
        yield text(x + 18, TOP - 20, name)


def axis(bottom):
    """The grid, its numbers, and their unit."""
    for tick in TICKS:
        yield f'<line x1="{place(tick)}" x2="{place(tick)}" y1="{TOP - 8}" y2="{bottom}" class="grid"/>'
        yield text(place(tick), bottom + 17, str(tick), "small middle")
    yield text((LEFT + RIGHT) // 2, bottom + 37, "instructions for each byte of the file", "small middle")


def bars(row, y):
    """The two bars of a kind of file, with its name to their left and their figures to their right."""
    kind, *values, lines = row
    yield text(LEFT - 10, y + 11, kind, "end")
    yield text(LEFT - 10, y + 26, lines, "small end")
    for number, (value, series) in enumerate(zip(values, ("here", "crate"))):
        top = y + (BAR + 2) * number
        yield f'<rect x="{LEFT}" y="{top}" width="{round(place(value) - LEFT, 1)}" height="{BAR}" class="{series}"/>'
        yield text(place(value) + 5, top + 10, value, "small")


def description(rows):
    """All figures in words, for anyone who can't see the chart."""
    each = [f"{kind} ({lines}): {here} and {crate}" for kind, here, crate, lines in rows]
    return f"For each kind of file the figures of {SERIES[0]} and of the {SERIES[1]}. " + "; ".join(each) + "."


def chart(rows):
    """The lines of the chart."""
    bottom = TOP + ROW * len(rows)
    height = bottom + 52
    yield f'<svg xmlns="http://www.w3.org/2000/svg" width="{WIDTH}" height="{height}" viewBox="0 0 {WIDTH} {height}"'
    yield '  role="img" aria-labelledby="title description">'
    yield f'<title id="title">{escape(TITLE)}</title>'
    yield f'<desc id="description">{escape(description(rows))}</desc>'
    yield f"<style>{STYLE}</style>"
    yield f'<rect x="0.5" y="0.5" width="{WIDTH - 1}" height="{height - 1}" rx="8" class="page"/>'
    yield text(MARGIN, 33, TITLE, "title")
    yield text(MARGIN, 54, SUBTITLE, "small")
    yield text(LEFT - 10, TOP - 20, "kind of file", "small end")
    yield from legend()
    yield from axis(bottom)
    for number, row in enumerate(rows):
        yield from bars(row, TOP + ROW * number)
    yield "</svg>"


if __name__ == "__main__":
    sys.stdout.buffer.write(("\n".join(chart(figures())) + "\n").encode("utf-8"))
