"""Nanoseconds from start to end for one call, from two counts of calls, proved beside plain in turns, and beside a hash map and its
machine behind one lock; the median of seven. So it is the inverse of how many calls a second all clients make together. Each
program has to write the number of the calls that were answered as they should be, which is that of all."""
import os
import statistics
import sys

sys.path.insert(0, os.path.dirname(os.path.dirname(os.path.abspath(__file__))))
from calls import programs, run_elapsed, seconds_of_one

ROUNDS = 7
# How many calls all clients make together, in the short run and in the long one.
CALLS = {"sets": (64_000, 640_000), "reads": (640_000, 12_800_000), "mixed": (320_000, 3_200_000), "beside": (200_000, 2_000_000)}
CLIENTS = (1, 2, 4, 8, 64)
READERS = (1, 2, 4)


def nanoseconds(program, kind, of, clients):
    few, many = (calls // clients for calls in CALLS[of])
    wanted = lambda count: b"%d\n" % (count * clients)
    return seconds_of_one([*program, kind, str(clients)], few, many, wanted, run_elapsed) / clients * 1e9


def medians(timed, of, clients):
    rounds = [[nanoseconds(program, kind, of, clients) for program, kind in timed] for _ in range(ROUNDS)]
    return [statistics.median(times) for times in zip(*rounds)]


def main():
    proved, plain = programs("race")
    for of in CALLS:
        timed = [(proved, of), (plain, of), (plain, f"map_{of}")]
        for clients in READERS if of == "beside" else CLIENTS:
            a, b, c = medians(timed, of, clients)
            rates = ", ".join(f"{name} {1e3 / time:.2f}" for name, time in (("proved", a), ("plain", b), ("hash map", c)))
            print(f"{of}, {clients} clients: {rates} million a second; plain Rust's time times {a / b:.2f}", flush=True)


main()
