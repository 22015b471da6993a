#!/usr/bin/env python3
"""Square-root vectors for the program crates/roots: writes its files stdin and stdout.

    tools/root_vectors.py

Each line of stdin is a bit pattern of an f64 and that of its square root, in 16 hexadecimal digits.
BY_HAND is typed in, with what IEEE 754 has for each; the others' roots are the machine's own
(`math.sqrt`). Both are held to an integer square root, rounded once. Nothing is random: the same
lines come out on each run.
"""
import math
import struct
from pathlib import Path

CRATE = Path(__file__).resolve().parent.parent / "crates" / "roots"
SIGN = 1 << 63
HIDDEN = 1 << 52
INFINITY = 0x7FF << 52
NAN = INFINITY + (1 << 51)
LARGEST = INFINITY - 1
ONE = 0x3FF << 52
WIDTH = 34  # bytes of a line
ROOM = 65536  # bytes that the program reads

BY_HAND = [
    # zeros keep their sign; the infinity is its own root
    (0x0000000000000000, 0x0000000000000000),
    (0x8000000000000000, 0x8000000000000000),
    (0x7FF0000000000000, 0x7FF0000000000000),
    # NaNs, quiet and signalling, of either sign, give the one NaN
    (0x7FF8000000000000, NAN),
    (0x7FF0000000000001, NAN),
    (0x7FF7FFFFFFFFFFFF, NAN),
    (0x7FFFFFFFFFFFFFFF, NAN),
    (0xFFF8000000000000, NAN),
    (0xFFF0000000000001, NAN),
    (0xFFFFFFFFFFFFFFFF, NAN),
    # negative numbers and the negative infinity have no root
    (0xFFF0000000000000, NAN),
    (0xFFEFFFFFFFFFFFFF, NAN),
    (0xC010000000000000, NAN),
    (0xBFF0000000000000, NAN),
    (0xBFD0000000000000, NAN),
    (0x8010000000000000, NAN),
    (0x800FFFFFFFFFFFFF, NAN),
    (0x8000000000000001, NAN),
    # the smallest, 2^-1074, is a power of four; 2 and 3 times it are not squares
    (0x0000000000000001, 0x1E60000000000000),
    (0x0000000000000002, 0x1E66A09E667F3BCD),
    (0x0000000000000003, 0x1E6BB67AE8584CAA),
    (0x0000000000000004, 0x1E70000000000000),
    # the largest subnormal, the smallest normal, and the next
    (0x000FFFFFFFFFFFFF, 0x1FFFFFFFFFFFFFFF),
    (0x0010000000000000, 0x2000000000000000),
    (0x0010000000000001, 0x2000000000000000),
    # the largest
    (0x7FEFFFFFFFFFFFFF, 0x5FEFFFFFFFFFFFFF),
    (0x7FEFFFFFFFFFFFFE, 0x5FEFFFFFFFFFFFFF),
    # 1, 4 and 1/4 with their neighbours; 2, 3, 9, 16, 10^4
    (0x3FEFFFFFFFFFFFFF, 0x3FEFFFFFFFFFFFFF),
    (0x3FF0000000000000, 0x3FF0000000000000),
    (0x3FF0000000000001, 0x3FF0000000000000),
    (0x3FF0000000000002, 0x3FF0000000000001),
    (0x400FFFFFFFFFFFFF, 0x3FFFFFFFFFFFFFFF),
    (0x4010000000000000, 0x4000000000000000),
    (0x4010000000000001, 0x4000000000000000),
    (0x3FD0000000000000, 0x3FE0000000000000),
    (0x4000000000000000, 0x3FF6A09E667F3BCD),
    (0x4008000000000000, 0x3FFBB67AE8584CAA),
    (0x4022000000000000, 0x4008000000000000),
    (0x4030000000000000, 0x4010000000000000),
    (0x40C3880000000000, 0x4059000000000000),
    # (2^26 + 1)^2, a square that takes 53 digits
    (0x4330000008000001, 0x4190000004000000),
]


def float_of(bits):
    return struct.unpack(">d", struct.pack(">Q", bits))[0]


def bits_of(x):
    return struct.unpack(">Q", struct.pack(">d", x))[0]


def machine_root(bits):
    """The root that the machine's square root gives; Python refuses negative numbers."""
    x = float_of(bits)
    return NAN if x < 0 or math.isnan(x) else bits_of(math.sqrt(x))


def exact_root(bits):
    """The root by whole numbers alone, rounded once to 53 binary digits."""
    if bits % SIGN == 0 or bits == INFINITY:
        return bits
    if bits >= SIGN or bits > INFINITY:
        return NAN
    field, digits = divmod(bits, HIDDEN)
    if field:
        digits, field = digits + HIDDEN, field - 1
    # bits stand for digits * 2^(field - 1074); by an even shift, a radicand of 108 or 109 digits
    shift = 108 - digits.bit_length()
    shift += (field - shift) % 2
    radicand, exponent = digits << shift, (field - shift - 1074) // 2
    root = math.isqrt(radicand)
    # root has 54 or 55 digits; what is left of the radicand stands for the digits after them
    drop = root.bit_length() - 53
    half = 1 << (drop - 1)
    kept, rest = root >> drop, root % (1 << drop)
    if rest > half or rest == half and (root * root != radicand or kept % 2):
        kept += 1
    return ((exponent + drop + 1074) << 52) + kept


def neighbours(bits):
    return [bits - 1, bits, bits + 1]


def mixed(n):
    """n's bits mixed, by the finaliser of splitmix64."""
    n = (n + 1) * 0x9E3779B97F4A7C15 % 2 ** 64
    n = (n ^ n >> 30) * 0xBF58476D1CE4E5B9 % 2 ** 64
    n = (n ^ n >> 27) * 0x94D049BB133111EB % 2 ** 64
    return n ^ n >> 31


def chosen():
    """Patterns by class, without repeats and in a fixed order."""
    found = []
    found += range(1, 33)  # the smallest subnormals
    found += [1 << k for k in range(52)]  # subnormal powers of two
    found += [(1 << k) - 1 for k in range(2, 53, 2)]
    found += [mixed(n) % HIDDEN for n in range(100)]  # subnormals
    found += [HIDDEN + n for n in range(-8, 9)]  # around the smallest normal
    found += [LARGEST - n for n in range(16)]  # the largest
    found += [field << 52 for field in range(1, 2047, 7)]  # powers of two; every other one of four
    found += [b for k in range(-500, 501, 50) for b in neighbours(ONE + (2 * k << 52))]  # powers of four
    found += [ONE + n for n in range(-16, 17)]  # around 1
    found += [b for n in range(2, 61) for b in neighbours(bits_of(float(n * n)))]  # small squares
    for n in range(60):  # squares of up to 53 digits, and scaled by an even power of two
        root = mixed(n) % (1 << 26) | 1
        square = bits_of(float(root * root))
        found += neighbours(square) + neighbours(square + ((n - 30) * 30 << 52))
    for n in range(60):  # next to the square of a half way between two values
        root = 2 * (HIDDEN + mixed(n) % HIDDEN) + 1
        found += neighbours(bits_of(float(root * root)))
    found += [mixed(n) % INFINITY for n in range(1000, 1200)]  # any positive
    found += [SIGN + mixed(n) % INFINITY for n in range(2000, 2020)]  # negative
    found += [INFINITY + 1 + mixed(n) % (HIDDEN - 1) + (n % 2) * SIGN for n in range(3000, 3020)]  # NaNs
    seen = {bits for bits, _ in BY_HAND}
    return [bits for bits in found if not (bits in seen or seen.add(bits))]


def main():
    vectors = BY_HAND + [(bits, machine_root(bits)) for bits in chosen()]
    for bits, root in vectors:
        assert root == exact_root(bits) == machine_root(bits), f"{bits:016x}"
    text = "".join(f"{bits:016x} {root:016x}\n" for bits, root in vectors)
    assert len(vectors) >= 1000 and len(text) == WIDTH * len(vectors) <= ROOM
    (CRATE / "stdin").write_text(text)
    (CRATE / "stdout").write_text(f"{len(vectors)} vectors, 0 wrong\n")


if __name__ == "__main__":
    main()
