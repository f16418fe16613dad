#!/usr/bin/env python3
"""Writes the example's bank: usage: make_bank.py FILE

192 waves of 132 samples (i16, low byte first), 3 banks of 8 by 8, made here by adding up partials: sines and drawbars, saw and
pulse shapes, formants. The engine differentiates what it reads, so a wave is stored as its running sum, 1,024 for a full-scale
sample, and its first four samples are repeated behind the 128 of its period. Partials are cosines, so that each sum starts near 0:
this keeps small the impulse that a restart begins with, but does not take it away. `init` sets the differentiator to 0, and what it
meets first is the value of wave 0 at phase 0, which is stored sample 1: 2,046 here, so twice full scale. At timbre, morph and harmonics
0.75 and 48,000 Hz a restart is above full scale for 312 samples at note 24, 8 at note 48, 2 at note 84; with the bank that the original
publishes it begins at 19 times full scale, and is above it for 202, 58 and 18 samples."""
import math
import struct
import sys

SIZE = 128


def partials(bank, row, column):
    """The amplitudes of partials 1, 2, .. of a wave: `row` brightens, `column` changes the kind."""
    count = 1 + row * 2
    if bank == 0:
        drawbars = [1, 2, 3, 4, 6, 8, 10, 12]
        chosen = drawbars[: 1 + row]
        return {p: (1 if p == 1 else (column + 1) / 8) / p**0.5 for p in chosen}
    if bank == 1:
        width = 0.5 - column / 20
        return {p: math.sin(math.pi * p * width) / p for p in range(1, 2 + count)}
    centre = 2 + 3 * column
    return {p: math.exp(-(((p - centre) / (1 + row)) ** 2)) + (p == 1) * 0.3 for p in range(1, 32)}


def wave(bank, row, column):
    amplitudes = partials(bank, row, column)
    samples = [sum(a * math.cos(2 * math.pi * p * (n + 0.5) / SIZE) for p, a in amplitudes.items()) for n in range(SIZE)]
    top = max(abs(s) for s in samples)
    total, sums = 0.0, []
    for s in samples:
        total += 1024 * s / top
        sums.append(total)
    middle = sum(sums) / SIZE
    period = [round(s - middle) for s in sums]
    return period + period[:4]


with open(sys.argv[1], "wb") as f:
    for bank in range(3):
        for column in range(8):
            for row in range(8):
                f.write(struct.pack("<132h", *wave(bank, row, column)))
