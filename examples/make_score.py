#!/usr/bin/env python3
"""Writes the example's score and edits: usage: make_score.py FOLDER

A phrase of 96 rows of 24 frames: four notes, a restart at each, timbre and morph on slow curves. The edits change a timbre in the
second note, a morph in the third, put the same row in again, and ask for a row that is not there."""
import math
import os
import struct
import sys


def word(x):
    return "%08x" % struct.unpack("<I", struct.pack("<f", x))


def row(i, timbre=None, morph=None):
    note = (48.0, 55.0, 60.0, 52.0)[i // 24]
    timbre = 0.5 + 0.45 * math.sin(i / 9) if timbre is None else timbre
    morph = 0.5 - 0.4 * math.cos(i / 14) if morph is None else morph
    return [word(note), word(timbre), word(morph), word(0.35), "%08x" % (i % 24 == 0)]


names = ["note", "timbre", "morph", "harmonics", "restart"]
with open(os.path.join(sys.argv[1], "score.txt"), "w") as f:
    f.write(" ".join(names) + "\n")
    for i in range(96):
        f.write(" ".join(row(i)) + "\n")
with open(os.path.join(sys.argv[1], "edits.txt"), "w") as f:
    f.write(" ".join(["row"] + names) + "\n")
    for i, words in [(30, row(30, timbre=1.0)), (60, row(60, morph=0.0)), (10, row(10)), (96, row(0))]:
        f.write(" ".join(["%08x" % i] + words) + "\n")
