#!/usr/bin/env python3
"""Draws the benchmark's figures as an SVG: chart.py FIGURES.csv CHART.svg

Each bar is the library's time over the original's whole rendering of the same score, on a
logarithmic scale; the line marks 1, the original itself.
"""
import csv
import math
import sys

LOW, HIGH = 1e-4, 2.0
LEFT, WIDTH, BAR, GAP, TOP = 280, 480, 16, 6, 44
VOICES = {"0": "wavetable", "1": "terrain", "2": "terrain with map", "3": "oscillator"}
COLOURS = {
    "render": "#2b6cb0",
    "edit": "#2f855a",
    "insert": "#6b46c1",
    "remove": "#97266d",
    "move": "#718096",
    "read": "#b7791f",
    "write": "#c05621",
}
TEXTS = {"read": "reading the text", "write": "writing the text"}


def x_of(ratio):
    share = math.log(max(ratio, LOW) / LOW) / math.log(HIGH / LOW)
    return LEFT + WIDTH * share


def label(measurement):
    words = measurement.split()
    if words[0] in TEXTS:
        return TEXTS[words[0]]
    if words[0] == "render":
        return f"render, {VOICES[words[1]]}, {words[2]} bank"
    if words[0] in ("insert", "remove", "move"):
        place = "the end" if words[-1] == "end" else f"row {int(words[-1]):,}"
        return f"plain move, {place}" if words[0] == "move" else f"{words[0]} at {place}, {VOICES[words[1]]}"
    rows = "1 row" if words[-1] == "1" else f"{int(words[-1]):,} rows"
    return f"edit, {rows}, {VOICES[words[1]]}"


def bar(index, row):
    y = TOP + index * (BAR + GAP)
    ratio = float(row["ratio"])
    end = x_of(ratio)
    colour = COLOURS[row["measurement"].split()[0]]
    return (
        f'<text x="{LEFT - 8}" y="{y + 12}" text-anchor="end">{label(row["measurement"])}</text>'
        f'<rect x="{LEFT}" y="{y}" width="{end - LEFT:.1f}" height="{BAR}" fill="{colour}"/>'
        f'<text x="{end + 6:.1f}" y="{y + 12}">{ratio:.3g}</text>'
    )


def chart(rows):
    bottom = TOP + len(rows) * (BAR + GAP)
    parts = [
        f'<svg xmlns="http://www.w3.org/2000/svg" width="{LEFT + WIDTH + 90}" height="{bottom + 34}" '
        'font-family="sans-serif" font-size="12">',
        '<rect width="100%" height="100%" fill="white"/>',
        f'<text x="{LEFT}" y="20" font-size="14">4,096 rows of 24 frames: time over the original\'s whole rendering (less is faster)</text>',
    ]
    for tick in (1e-4, 1e-3, 1e-2, 1e-1, 1.0):
        x = x_of(tick)
        stroke = "#c53030" if tick == 1.0 else "#cccccc"
        parts.append(f'<line x1="{x:.1f}" y1="{TOP - 8}" x2="{x:.1f}" y2="{bottom}" stroke="{stroke}"/>')
        parts.append(f'<text x="{x:.1f}" y="{bottom + 18}" text-anchor="middle">{tick:g}</text>')
    parts += [bar(i, row) for i, row in enumerate(rows)]
    return "\n".join(parts + ["</svg>"]) + "\n"


def main():
    figures, svg = sys.argv[1:]
    with open(figures) as file:
        rows = list(csv.DictReader(file))
    with open(svg, "w") as file:
        file.write(chart(rows))


main()
