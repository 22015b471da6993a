#!/usr/bin/env python3
"""The table of 360 sines: an f32 for every whole degree, rounded once; a zero has no sign.

    tools/sines.py rt      print the entries of SINES in crates/sines/src/lib.rt
    tools/sines.py antt    print the bit patterns of a quarter turn in crates/sines/specs/Table.antt
    tools/sines.py check   hold both files to the table, and the table to the rules of sines

Each sine is a Taylor series in whole numbers of 2^-PLACES, then rounded once to 24 binary digits.
No sine of a whole degree but the exact ones, 0, 1/2 and 1, is near a half way.
"""
import re
import struct
import sys
from decimal import Decimal
from fractions import Fraction
from pathlib import Path

PLACES = 200
ONE = 1 << PLACES
CRATE = Path(__file__).resolve().parent.parent / "crates" / "sines"
EXACT = {0: Fraction(0), 30: Fraction(1, 2), 90: Fraction(1), 150: Fraction(1, 2), 180: Fraction(0),
         210: Fraction(-1, 2), 270: Fraction(-1), 330: Fraction(-1, 2)}


def arctan_of_inverse(n):
    """arctan(1/n), in units of 2^-PLACES."""
    term, total, k = ONE // n, 0, 0
    while term:
        total += (-1) ** k * (term // (2 * k + 1))
        term //= n * n
        k += 1
    return total


PI = 4 * (4 * arctan_of_inverse(5) - arctan_of_inverse(239))


def sine(degree):
    if degree in EXACT:
        return EXACT[degree]
    x = PI * degree // 180
    term, total, k = x, x, 1
    while abs(term) > 1:
        term = -term * x * x // (ONE * ONE * (k + 1) * (k + 2))
        total += term
        k += 2
    return Fraction(total, ONE)


def nearest(x):
    """x as an f32's bit pattern, rounded once to the nearest, ties to even."""
    if x == 0:
        return 0
    sign, size = (1 << 31, -x) if x < 0 else (0, x)
    exponent = 0
    while size < Fraction(2) ** exponent:
        exponent -= 1
    digits = round(size * Fraction(2) ** (23 - exponent))
    return sign + ((exponent + 127) << 23) + (digits - (1 << 23))


def value(bits):
    return struct.unpack(">f", struct.pack(">I", bits))[0]


def shortest(bits):
    """The shortest decimal that reads back as this f32."""
    for digits in range(1, 18):
        text = f"{value(bits):.{digits}g}"
        if struct.pack(">f", float(text)) == struct.pack(">I", bits):
            text = format(Decimal(text), "f")
            return text if "." in text else text + ".0"
    raise ValueError(bits)


def check_rules(table):
    s = [Fraction(value(bits)) * 2 ** 29 for bits in table]
    for d in range(360):
        cosine = s[(d + 90) % 360]
        assert s[d].denominator == 1, d
        assert s[(d + 180) % 360] == -s[d], d
        assert abs(s[d] ** 2 + cosine ** 2 - 2 ** 58) <= 2 ** 35, d
        assert abs(s[(d + 1) % 360] * 2 ** 29 - s[d] * s[91] - cosine * s[1]) <= 2 ** 35, d


def check_files(table):
    source = (CRATE / "src" / "lib.rt").read_text()
    entries = re.findall(r"^    (-?[0-9.]+),$", source, re.M)
    assert entries == [shortest(bits) for bits in table], "src/lib.rt"
    patterns = re.findall(r"0x[0-9a-f]+", (CRATE / "specs" / "Table.antt").read_text())
    assert patterns == [hex(bits) for bits in table[:91]], "specs/Table.antt"
    half = table[:91] + table[89::-1]
    assert table == half + [(1 << 31) + bits for bits in half[1:180]], "the rest of the turn"


def main():
    table = [nearest(sine(degree)) for degree in range(360)]
    if sys.argv[1:] == ["rt"]:
        for bits in table:
            print(f"    {shortest(bits)},")
    elif sys.argv[1:] == ["antt"]:
        for i in range(0, 91, 10):
            print("    " + " ∷ ".join(hex(bits) for bits in table[i:min(i + 10, 91)]) + (" ∷" if i < 90 else " ∷ []"))
    elif sys.argv[1:] == ["check"]:
        check_rules(table)
        check_files(table)
        print("360 sines, both files agree")
    else:
        sys.exit(__doc__)


if __name__ == "__main__":
    main()
