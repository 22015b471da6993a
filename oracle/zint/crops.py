#!/usr/bin/env python3
"""Crops of MaxiCode symbols that Zint draws: turned by any degree, thresholded, with noise, as crop files.

usage: crops.py FOLDER [COUNT]

Needs Debian's zint and netpbm. Every choice comes from the crop's number, so a run gives the same files again.
"""
import random
import subprocess
import sys
from pathlib import Path

TEXTS = ["PARCEL 0001", "LANE 8 CARTON 4711", "A", "0123456789" * 5, "RETURN TO SENDER, DOCK 12"]
SCALES = [0.5, 0.5, 0.5, 0.7, 1.0]
NOISE = [0.0, 0.0, 0.001, 0.005, 0.02]


def run(command, data=b""):
    return subprocess.run(command, input=data, stdout=subprocess.PIPE, check=True).stdout


def symbol(text, scale):
    """The symbol as a portable graymap."""
    command = ["zint", "-b", "MAXICODE", "--mode=4", f"--scale={scale}", "-d", text, "--direct", "--filetype=PNG"]
    return run(["pngtopnm"], run(command))


def turned(picture, degree):
    """The picture turned by whole quarters and then by at most 45 degrees, on white, cut to its black part with a margin."""
    quarters, rest = divmod((degree + 45) % 360, 90)
    if quarters:
        picture = run(["pamflip", f"-r{90 * quarters}"], picture)
    picture = run(["pnmpad", "-white", "-left=4", "-right=4", "-top=4", "-bottom=4"], picture)
    if rest != 45:
        picture = run(["pnmrotate", "-background=white", str(rest - 45)], picture)
    return picture


def pixels(picture):
    """The picture's rows of 0 and 1, 1 black, without white borders."""
    plain = run(["pnmcrop", "-white"], run(["pamtopnm"], run(["pamthreshold", "-simple", "-threshold=0.5"], picture)))
    fields = run(["pnmtoplainpnm"], plain).split()
    width, height = int(fields[1]), int(fields[2])
    bits = [int(c) for c in b"".join(fields[3:]).decode()]
    return [bits[y * width:(y + 1) * width] for y in range(height)]


def framed(rows, margin):
    width = len(rows[0]) + 2 * margin
    blank = [[0] * width for _ in range(margin)]
    return blank + [[0] * margin + row + [0] * margin for row in rows] + [row[:] for row in blank]


def noisy(rows, share, dice):
    return [[bit ^ (dice.random() < share) for bit in row] for row in rows]


def crop_file(rows):
    """Kind 1, width, height and four zero bits, then each row from a byte of its own, 1 black."""
    width, height = len(rows[0]), len(rows)
    header = (1 << 28 | width << 16 | height << 4).to_bytes(4, "big")
    body = bytearray()
    for row in rows:
        bits = row + [0] * (-width % 8)
        for i in range(0, len(bits), 8):
            body.append(int("".join(str(int(b)) for b in bits[i:i + 8]), 2))
    return header + bytes(body)


def main():
    if not 2 <= len(sys.argv) <= 3:
        sys.exit(__doc__)
    folder = Path(sys.argv[1])
    folder.mkdir(parents=True, exist_ok=True)
    for number in range(int(sys.argv[2]) if len(sys.argv) == 3 else 60):
        dice = random.Random(number)
        degree = 6 * number % 360 if number < 60 else dice.randrange(360)
        picture = turned(symbol(dice.choice(TEXTS), dice.choice(SCALES)), degree)
        rows = noisy(framed(pixels(picture), dice.randrange(0, 13)), dice.choice(NOISE), dice)
        (folder / f"zint-{number:04}-{degree:03}.crop").write_bytes(crop_file(rows))


if __name__ == "__main__":
    main()
