#!/usr/bin/env python3
"""Makes a sound file of a take: usage: to_wav.py OUT.f32 AUX.f32 FILE.wav [TIMES]

Out is the left channel and aux the right, 32-bit floats at 48,000 Hz with the very words of the take, TIMES times over (default 1)."""
import struct
import sys

RATE = 48000


def words(path):
    with open(path, "rb") as f:
        data = f.read()
    return [data[i : i + 4] for i in range(0, len(data), 4)]


def main():
    out, aux, wave = sys.argv[1:4]
    times = int(sys.argv[4]) if len(sys.argv) > 4 else 1
    frames = [left + right for left, right in zip(words(out), words(aux), strict=True)] * times
    data = b"".join(frames)
    head = struct.pack("<4sI4s", b"RIFF", 50 + len(data), b"WAVE")
    head += struct.pack("<4sIHHIIHHH", b"fmt ", 18, 3, 2, RATE, RATE * 8, 8, 32, 0)
    head += struct.pack("<4sII", b"fact", 4, len(frames))
    with open(wave, "wb") as f:
        f.write(head + struct.pack("<4sI", b"data", len(data)) + data)


main()
