"""Milliseconds that one replace of a store takes, at texts of several sizes, proved beside plain in turns; the least of nine, since a
disk's time varies with what else it does."""
import os
import sys
import time

sys.path.insert(0, os.path.dirname(os.path.dirname(os.path.abspath(__file__))))
from calls import end, programs, seconds_of_one, start

# the bytes of a text
SIZES = (1 << 10, 64 << 10, 1 << 20, 16 << 20)

# how many replaces are made: few, and many, which take so many seconds
FEW = 2
SECONDS = 0.1


def elapsed(words):
    """Seconds of one run, with what it waited for, and what it wrote."""
    began = time.monotonic()
    child = start(words)
    with child.stdout as pipe:
        wrote = pipe.read()
    end(child, words)
    return time.monotonic() - began, wrote


def milliseconds(program, image, size, few, many):
    return seconds_of_one([*program, image, str(size)], few, many, lambda times: b"%d\n" % times, elapsed) * 1e3


def many_of(program, image, size):
    """How many replaces take long enough to be timed."""
    many = 12
    while many < 1 << 18 and min(elapsed([*program, image, str(size), str(many)])[0] for _ in range(3)) < SECONDS:
        many *= 4
    return many


def main():
    proved, plain = programs("store")
    folder = sys.argv[3]
    for size in SIZES:
        images = [os.path.join(folder, f"{name}.{size}") for name in ("proved", "plain")]
        many = many_of(plain, images[1], size)
        rounds = [[milliseconds(it, image, size, FEW, many) for it, image in zip((proved, plain), images)] for _ in range(9)]
        replace, writes = (min(times) for times in zip(*rounds))
        print(f"{size >> 10} KiB: replace {replace:.3f} ms, write, sync, write, sync {writes:.3f} ms, ratio {replace / writes:.2f}")


main()
