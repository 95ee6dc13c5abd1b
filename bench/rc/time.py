"""Milliseconds of processor time for one reading of a text of 1 MiB, in each shape, proved beside plain in turns; the median of
nine. Both readers have to write the number of lines that the shape has, and the parser that of its diagnostics."""
import os
import statistics
import sys

sys.path.insert(0, os.path.dirname(os.path.dirname(os.path.abspath(__file__))))
from calls import programs, seconds_of_one

FEW, MANY = 2, 12
# The lines and the diagnostics of each shape. A line outside a section is a diagnostic; the text of `line` ends within quotes,
# so that its one line is left out, with a diagnostic.
SHAPES = {
    "token": (1, 1),
    "tokens": (1, 1),
    "line": (0, 1),
    "lines": (524_288, 524_288),
    "quotes": (1, 1),
    "commands": (37_450, 0),
}


def milliseconds(program, mode, shape, found):
    return seconds_of_one([*program, mode, shape], FEW, MANY, lambda _: b"%d\n" % found) * 1e3


def main():
    proved, plain = programs("rc")
    for shape, (lines, diagnostics) in SHAPES.items():
        rounds = [
            (
                milliseconds(proved, "read", shape, lines),
                milliseconds(plain, "read", shape, lines),
                milliseconds(proved, "parse", shape, diagnostics),
            )
            for _ in range(9)
        ]
        read, other, parse = (statistics.median(times) for times in zip(*rounds))
        print(f"{shape}: read {read:.1f} ms, plain {other:.1f} ms, ratio {read / other:.2f}; read and parse {parse:.1f} ms")


main()
