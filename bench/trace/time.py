"""Milliseconds of processor time for one reading of a trace, in each shape and of 1 MiB, 4 MiB and 16 MiB, proved beside plain in
turns; the median of seven. Both readers have to write the number of entries."""
import os
import statistics
import sys

sys.path.insert(0, os.path.dirname(os.path.dirname(os.path.abspath(__file__))))
from calls import programs, seconds_of_one

FEW, MANY = 1, 4
# the bytes of an entry of each shape
SHAPES = {"short": 11, "boot": 177, "escapes": 60, "long": 115}
SIZES = (1 << 20, 4 << 20, 16 << 20)


def milliseconds(program, shape, size):
    found = b"%d\n" % (size // SHAPES[shape])
    return seconds_of_one([*program, shape, str(size)], FEW, MANY, lambda _: found) * 1e3


def main():
    proved, plain = programs("trace")
    for shape in SHAPES:
        for size in SIZES:
            rounds = [(milliseconds(proved, shape, size), milliseconds(plain, shape, size)) for _ in range(7)]
            read, other = (statistics.median(times) for times in zip(*rounds))
            print(f"{shape}, {size >> 20} MiB: read {read:.1f} ms, plain {other:.1f} ms, ratio {read / other:.2f}")


main()
