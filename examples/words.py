#!/usr/bin/env python3
"""Turns decimal numbers into the words of a score, and words into numbers.

    words.py 60 0.5 -0                   numbers to words
    words.py --back 42700000 3f800001    words to numbers
    words.py --table < numbers.txt > score.txt           a whole text: a line of names, then lines of numbers
    words.py --table --back < score.txt > numbers.txt    the same, back

A word is the binary32 pattern of a number in eight hexadecimal digits. A number is rounded once, to the nearest, ties to even.
Without --table each line of the answer is a word, its number (the shortest that gives the word again) and the names that take it:

    note                        0 to 120             42f00000 is 120
    timbre, morph, harmonics    0 to 1               3f800000 is 1
    restart                     the whole number 0 or 1: 00000000 or 00000001, not 3f800000
    row (edits alone)           a whole number from 0 on: row 30 is 0000001e

-0 passes as 0; NaN and the infinities pass nowhere. With --table a number outside its name's limit, a name that is not one of the
six and a line of another length are errors: nothing is written, and the exit status is 1."""
import struct
import sys
from decimal import Decimal, InvalidOperation
from fractions import Fraction

TOPS = {"note": 120, "timbre": 1, "morph": 1, "harmonics": 1}
WHOLE = {"restart": 1, "row": 0xFFFFFFFF}


def word_of(text):
    """The word of the binary32 float nearest to a decimal number."""
    number = Decimal(text)
    sign = 0x80000000 if number.is_signed() else 0
    if number.is_nan():
        return 0x7FC00000
    if number.is_infinite() or number.adjusted() > 40:
        return sign | 0x7F800000
    if number.is_zero() or number.adjusted() < -60:
        return sign
    x = abs(Fraction(number))
    power = x.numerator.bit_length() - x.denominator.bit_length()
    power -= x < Fraction(2) ** power
    power = max(power - 23, -149)
    return sign | min(((power + 149) << 23) + round(x / Fraction(2) ** power), 0x7F800000)


def float_of(word):
    return struct.unpack("<f", struct.pack("<I", word))[0]


def number_of(word):
    """The shortest decimal number whose word this is; for a NaN, nan."""
    x = float_of(word)
    if x != x:
        return "nan"
    short = next(t for t in ("%.*g" % (n, x) for n in range(1, 10)) if word_of(t) == word)
    return format(Decimal(short), "f") if 1e-4 < abs(x) < 1e9 else short


def is_within(name, word):
    return word <= WHOLE[name] if name in WHOLE else 0 <= float_of(word) <= TOPS[name]


def parsed(text):
    """The word that eight hexadecimal digits write."""
    if len(text) != 8 or any(c not in "0123456789abcdefABCDEF" for c in text):
        raise ValueError("not a word of eight hexadecimal digits: " + text)
    return int(text, 16)


def read(name, text, back):
    """The word of one field of a table, within its name's limit."""
    if back:
        word = parsed(text)
    elif name in WHOLE:
        word = int(text) if text.isascii() and text.isdigit() else -1
    else:
        word = word_of(text)
    if word < 0 or not is_within(name, word):
        top = WHOLE.get(name, TOPS.get(name))
        raise ValueError("%s is %s: it goes from 0 to %d" % (name, text, top) + (", in whole numbers" if name in WHOLE else ""))
    return word


def table(lines, back):
    """The lines of a text with its numbers as words, or back."""
    names = lines[0].split() if lines else []
    if sorted(names) not in (sorted([*TOPS, "restart"]), sorted([*TOPS, *WHOLE])):
        raise ValueError("line 1: the names are note timbre morph harmonics restart, and row for edits, each once")
    yield " ".join(names)
    for at, line in enumerate(lines[1:], 2):
        fields = line.split()
        try:
            if len(fields) != len(names):
                raise ValueError("%d fields for %d names" % (len(fields), len(names)))
            words = [read(name, text, back) for name, text in zip(names, fields)]
        except (ValueError, InvalidOperation) as e:
            raise ValueError("line %d: %s" % (at, e if isinstance(e, ValueError) else "not a number in: " + line.strip()))
        if back:
            yield " ".join(str(w) if n in WHOLE else number_of(w) for n, w in zip(names, words))
        else:
            yield " ".join("%08x" % w for w in words)


def shown(text, back):
    """A word, its number, and the names that take it."""
    try:
        word = parsed(text) if back else word_of(text)
    except InvalidOperation:
        raise ValueError("not a number: " + text)
    names = [name for name in (*TOPS, "restart") if is_within(name, word)]
    return "%08x %s %s" % (word, number_of(word), " ".join(names) or "outside every limit")


def main():
    arguments = sys.argv[1:]
    values = [a for a in arguments if a not in ("--back", "--table", "--help", "-h")]
    back, whole = "--back" in arguments, "--table" in arguments
    if "--help" in arguments or "-h" in arguments:
        print(__doc__)
        return
    if bool(values) == whole:
        sys.exit("words.py: numbers, or --table and a text on standard input; --help says more")
    try:
        answer = list(table(sys.stdin.readlines(), back) if whole else (shown(v, back) for v in values))
    except ValueError as e:
        sys.exit("words.py: %s" % e)
    sys.stdout.write("".join(line + "\n" for line in answer))


if __name__ == "__main__":
    main()
