#!/usr/bin/env python3
"""Draws the example's take before and after its edits, with the rendered rows marked: usage: picture.py FILE.svg

Runs target/bin/retake (from `examples/build retake`) twice on the example folder, with no edits and with the edits, and draws what it wrote."""
import os
import shutil
import struct
import subprocess
import sys
import tempfile

TOP = os.path.join(os.path.dirname(os.path.abspath(__file__)), "..")
FRAMES, RATE = 24, 48000
WIDTH, LANE, LEFT, TOP_EDGE = 960, 115, 70, 30
BOTTOM = TOP_EDGE + 3 * LANE


def run(with_edits):
    """The lines that retake prints and the samples of out.f32."""
    with tempfile.TemporaryDirectory() as folder:
        for name in ("score.txt", "edits.txt"):
            shutil.copy(os.path.join(TOP, "examples/retake", name), folder)
        shutil.copy(os.path.join(TOP, "crates/retake/data/bank.bin"), folder)
        if not with_edits:
            path = os.path.join(folder, "edits.txt")
            with open(path) as f:
                names = f.readline()
            with open(path, "w") as f:
                f.write(names)
        done = subprocess.run([os.path.join(TOP, "target/bin/retake")], cwd=folder, capture_output=True, text=True, check=True)
        with open(os.path.join(folder, "out.f32"), "rb") as f:
            data = f.read()
    return done.stdout.splitlines()[1:], struct.unpack("<%df" % (len(data) // 4), data)


def lane(samples, top, colour):
    """A waveform, scaled to its largest sample."""
    middle, scale = top + LANE / 2, LANE / 2.2 / max(abs(s) for s in samples)
    points = " ".join("%.1f,%.1f" % (LEFT + i * WIDTH / len(samples), middle - scale * s) for i, s in enumerate(samples))
    return '<polyline fill="none" stroke="%s" points="%s"/>' % (colour, points)


def axes(rows, column):
    """The rows above the lanes and the time below them."""
    out = []
    for row in range(0, rows + 1, 12):
        out.append('<line x1="%.1f" x2="%.1f" y1="%d" y2="%d" stroke="#444"/>' % (column(row), column(row), TOP_EDGE - 6, TOP_EDGE))
        out.append('<text x="%.1f" y="%d" text-anchor="middle">%d</text>' % (column(row), TOP_EDGE - 10, row))
    for ms in range(0, rows * FRAMES * 1000 // RATE + 1, 6):
        x = column(ms * RATE / 1000 / FRAMES)
        out.append('<line x1="%.1f" x2="%.1f" y1="%d" y2="%d" stroke="#444"/>' % (x, x, BOTTOM + 36, BOTTOM + 42))
        out.append('<text x="%.1f" y="%d" text-anchor="middle">%d ms</text>' % (x, BOTTOM + 56, ms))
    for y in (TOP_EDGE, BOTTOM + 36):
        out.append('<line x1="%d" x2="%d" y1="%d" y2="%d" stroke="#444"/>' % (LEFT, LEFT + WIDTH, y, y))
    out.append('<text x="4" y="%d">row</text>' % (TOP_EDGE - 10))
    out.append('<text x="4" y="%d">time</text>' % (BOTTOM + 56))
    return out


def main():
    _, before = run(False)
    printed, after = run(True)
    rows = len(before) // FRAMES
    with open(os.path.join(TOP, "examples/retake/score.txt")) as f:
        restarts = [i for i, line in enumerate(f.read().splitlines()[1:]) if line.endswith("00000001")]
    column = lambda row: LEFT + row * WIDTH / rows
    out = ['<svg xmlns="http://www.w3.org/2000/svg" viewBox="0 0 %d %d" font-family="sans-serif" font-size="12">' % (WIDTH + LEFT + 20, BOTTOM + 96)]
    out.append('<rect width="100%" height="100%" fill="white"/>')
    for line in printed:
        if line.startswith("refused"):
            continue
        row, rendered, _ = map(int, line.split())
        if rendered:
            x = column(row)
            out.append('<rect x="%.1f" y="%d" width="%.1f" height="%d" fill="#fde3b0"/>' % (x, TOP_EDGE, column(row + rendered) - x, BOTTOM - TOP_EDGE))
            out.append('<rect x="%.1f" y="%d" width="%.1f" height="8" fill="#b0402a"/>' % (x, BOTTOM + 4, column(row + 1) - x))
            out.append('<text x="%.1f" y="%d" fill="#b0402a">row %d: %d rows rendered</text>' % (x, BOTTOM + 26, row, rendered))
    for row in restarts:
        out.append('<line x1="%.1f" x2="%.1f" y1="%d" y2="%d" stroke="#888" stroke-dasharray="3 3"/>' % (column(row), column(row), TOP_EDGE, BOTTOM))
    changed = [a - b for a, b in zip(after, before)]
    for i, (name, samples, colour) in enumerate([("before", before, "#5b7083"), ("after", after, "#2a7ab0"), ("difference", changed, "#b0402a")]):
        out.append('<text x="4" y="%d">%s</text>' % (TOP_EDGE + i * LANE + LANE // 2 + 4, name))
        out.append(lane(samples, TOP_EDGE + i * LANE, colour))
    out += axes(rows, column)
    out.append('<text x="%d" y="%d" fill="#666">red: edited rows; shaded: rows that an edit rendered, outside them not a word was written; dashed: rows that restart; each lane is scaled to its largest sample</text>' % (LEFT, BOTTOM + 82))
    out.append("</svg>")
    with open(sys.argv[1], "w") as f:
        f.write("\n".join(out) + "\n")


main()
