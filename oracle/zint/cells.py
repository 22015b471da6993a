#!/usr/bin/env python3
"""Upright MaxiCode symbols that Zint draws, cut to their black pixels, and the modules that Zint means by them.

usage: cells.py [FOLDER]

Writes two texts into the folder, this script's own unless another is named:
  upright.txt  a symbol on each line, `TEXT-SCALE HEX`: its crop file in hexadecimal digits
  grids.txt    a text on each line, `TEXT` and 33 words of eight hexadecimal digits: the modules row by row, column c
               at bit c, 1 black; bits 30 and 31 are zero, and bit 29 of an odd row, which has 29 modules
TEXT counts crops.TEXTS from 1; SCALE is what Zint was given.

Needs Debian's zint and netpbm. A run gives the same texts again.
"""
import sys
from pathlib import Path

from crops import TEXTS, crop_file, pixels, run, symbol

COLUMNS, ROWS = 30, 33
SCALES = [0.5, 0.6, 0.7]
# Besides, a scale for the first text alone, as the larger files are long.
LARGE = 1.0


def grid(text):
    """Zint's modules: it prints a row as eight hexadecimal digits, column 0 in the highest bit, the two lowest bits zero."""
    lines = run(["zint", "-b", "MAXICODE", "--mode=4", "-d", text, "--dump"]).decode().splitlines()
    rows = [f"{int(line.replace(' ', ''), 16):032b}" for line in lines]
    assert len(rows) == ROWS and all(row.endswith("0" * (32 - COLUMNS)) for row in rows), "another dump than of MaxiCode"
    return [int(row[::-1], 2) for row in rows]


def main():
    if len(sys.argv) > 2:
        sys.exit(__doc__)
    folder = Path(sys.argv[1] if len(sys.argv) == 2 else Path(__file__).parent)
    upright, grids = [], []
    for number, text in enumerate(TEXTS, 1):
        for scale in SCALES + [LARGE] * (number == 1):
            file = crop_file(pixels(symbol(text, scale)))
            upright.append(f"{number}-{scale} {file.hex()}\n")
        grids.append(" ".join([str(number)] + [f"{word:08x}" for word in grid(text)]) + "\n")
    (folder / "upright.txt").write_text("".join(upright))
    (folder / "grids.txt").write_text("".join(grids))


if __name__ == "__main__":
    main()
