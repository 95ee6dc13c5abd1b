"""Nanoseconds of processor time for one call, from two counts of calls, proved beside plain in turns; the median of nine. Each
program has to write the number of the calls that found, or wrote, a whole value, which is that of all."""
import os
import statistics
import sys

sys.path.insert(0, os.path.dirname(os.path.dirname(os.path.abspath(__file__))))
from calls import programs, seconds_of_one

FEW, MANY = 1_000_000, 11_000_000


def nanoseconds(program, kind):
    return seconds_of_one([*program, kind], FEW, MANY, lambda count: b"%d\n" % count) * 1e9


def main():
    proved, plain = programs("cell")
    for kind in ("read", "write"):
        rounds = [(nanoseconds(proved, kind), nanoseconds(plain, kind)) for _ in range(9)]
        a, b = (statistics.median(times) for times in zip(*rounds))
        print(f"{kind}: proved {a:.1f} ns, plain {b:.1f} ns, ratio {a / b:.2f}")


main()
