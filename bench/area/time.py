"""Nanoseconds of processor time for one call, from two counts of calls, proved beside plain in turns; the median of five. Each
program has to write the number of the calls that answered as they should, which is that of all. Each call begins with a check of
its name, which is timed alone too and taken off: what is left is the work at the area, or at the hash map. Beside a writer the
reads are the main thread's, whose time alone counts, with what it waits for the lock of the map."""
import os
import statistics
import sys

sys.path.insert(0, os.path.dirname(os.path.dirname(os.path.abspath(__file__))))
from calls import programs, run, run_beside, seconds_of_one

FEW, MANY = 100_000, 1_600_000
ROUNDS = 5
READS = ("read", "absent", "read_beside", "absent_beside")
LONG_READS = ("read_200", "read_8000")
LONG_NAMES = 1_000
MAPS = {kind: kind.replace("read", "map").replace("absent", "map_absent") for kind in READS}


def nanoseconds(program, kind, names):
    timed = run_beside if kind.endswith("_beside") else run
    return seconds_of_one([*program, kind, str(names)], FEW, MANY, lambda count: b"%d\n" % count, timed) * 1e9


def medians(timed, names):
    """The median time of each of these programs with their kinds, in turns."""
    rounds = [[nanoseconds(program, kind, names) for program, kind in timed] for _ in range(ROUNDS)]
    return dict(zip(timed, (statistics.median(times) for times in zip(*rounds))))


def print_long(proved, plain, checked):
    """The reads of long values, whose names are a part longer."""
    times = medians([(program, kind) for kind in LONG_READS for program in (proved, plain)], LONG_NAMES)
    for kind in LONG_READS:
        a, b = (times[program, kind] - checked[program] for program in (proved, plain))
        print(f"{kind}: proved {a:.0f} ns, plain {b:.0f} ns, ratio {a / b:.2f}")


def print_checks(proved, plain, names):
    """The checks of a name and of a value, less a call that looks at its length alone."""
    times = medians([(program, kind) for kind in ("name", "value", "length") for program in (proved, plain)], names)
    for kind in ("name", "value"):
        a, b = (times[program, kind] - times[program, "length"] for program in (proved, plain))
        print(f"check of a {kind}: proved {a:.1f} ns, plain {b:.1f} ns, ratio {a / b:.2f}")


def main():
    proved, plain = programs("area")
    print_checks(proved, plain, LONG_NAMES)
    for names in (1_000, 30_000):
        timed = [(program, kind) for kind in ("name", *READS, "put") for program in (proved, plain)]
        times = medians(timed + [(plain, kind) for kind in MAPS.values()], names)
        checked = {program: times[program, "name"] for program in (proved, plain)}
        print(f"{names} names, of which one is checked in {checked[proved]:.0f} ns, in plain Rust {checked[plain]:.0f} ns")
        for kind in (*READS, "put"):
            a, b = (times[program, kind] - checked[program] for program in (proved, plain))
            beside = f", hash map {times[plain, MAPS[kind]] - checked[plain]:.0f} ns" if kind in MAPS else ""
            print(f"{kind}: proved {a:.0f} ns, plain {b:.0f} ns, ratio {a / b:.2f}{beside}")
        if names == LONG_NAMES:
            print_long(proved, plain, checked)


main()
