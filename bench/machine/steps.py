#!/usr/bin/env python3
"""Counts the instructions of a step: steps.py [--inputs FOLDER] PROVED PLAIN [SHAPE..]. The inputs are those of inputs.py; each is
run by both programs under callgrind with a short script and a longer one. What the longer one takes more, divided by the entries
that its trace has more, is a step: loading counts for nothing. Ends with a failure where a run fails or the two traces differ.
steps.py --known [SHAPE..] says whether the shapes are known."""
import argparse
import os
import re
import subprocess
import sys
import tempfile

import inputs

# Each shape with the sizes of its two scripts: steps, or rounds of steps and a tick.
SIZES = {"self_trigger": (500, 40_500), "property_loop": (500, 30_500), "setprop_900": (1_000, 20_500),
         "match_5000": (5_500, 25_500), "ring_5000": (5_500, 25_500), "device": (4, 20)}
ENTRY = re.compile(rb"^[a-z]", re.M)
LINE = re.compile(r"^\s*([\d,]+)\s+\(\s*([\d.]+)%\)\s+\S*?:(\S.*?)(?: \[.*\])?$")
LEAST_SHARE = 3.0


def script_of(text, size):
    """The script with so many steps at its end; one of rounds with so many of them."""
    rounds = re.findall(r"^step \d+\ntick \d+\n", text, re.M)
    if rounds:
        return text.replace("".join(rounds), "".join(rounds[:size]))
    return re.sub(r"step \d+\n\Z", f"step {size}\n", text)


class Counted:
    """A run under callgrind: its instructions, its entries, and what it wrote."""

    def __init__(self, program, folder, room):
        counts = os.path.join(room, "counts")
        with open(os.path.join(folder, "words")) as file:
            words = file.read().splitlines()
        done = subprocess.run(["valgrind", "--tool=callgrind", f"--callgrind-out-file={counts}", program, *words],
                              cwd=folder, stdout=subprocess.PIPE, stderr=subprocess.PIPE)
        if done.returncode != 0:
            sys.exit(f"steps: {program} ended with status {done.returncode}")
        self.trace = done.stdout
        self.entries = len(ENTRY.findall(done.stdout))
        self.instructions = int(re.search(rb"Collected : (\d+)", done.stderr).group(1))
        self.counts = counts

    def dear(self):
        """The functions that take above 3 %, each with its share."""
        told = subprocess.run(["callgrind_annotate", self.counts], stdout=subprocess.PIPE, text=True, check=True).stdout
        found = [LINE.match(line) for line in told.splitlines()]
        return [f"{name_of(it.group(3))} {float(it.group(2)):.0f} %" for it in found if it and float(it.group(2)) >= LEAST_SHARE]


def name_of(symbol):
    """A function by the last words of its path."""
    return "::".join(re.sub(r"::<[^>]*>|'\d+$", "", symbol).split("::")[-2:])


def step_of(program, folder, sizes):
    """The instructions of a step, and the longer run."""
    path = os.path.join(folder, "script")
    with open(path) as file:
        text = file.read()
    runs = []
    try:
        for size in sizes:
            with open(path, "w") as file:
                file.write(script_of(text, size))
            room = tempfile.mkdtemp(dir=os.path.dirname(folder))
            runs.append(Counted(program, folder, room))
    finally:
        with open(path, "w") as file:
            file.write(text)
    short, long = runs
    if long.entries <= short.entries:
        sys.exit(f"steps: {folder}: the longer script has no more entries")
    return (long.instructions - short.instructions) / (long.entries - short.entries), long


def main():
    parser = argparse.ArgumentParser()
    parser.add_argument("--known", action="store_true")
    parser.add_argument("--inputs")
    parser.add_argument("words", nargs="*")
    given = parser.parse_args()
    shapes = given.words if given.known else given.words[2:]
    unknown = [it for it in shapes if it not in SIZES]
    if unknown or not given.known and len(given.words) < 2:
        sys.exit(f"steps: {unknown[0]} is no shape: {', '.join(SIZES)}" if unknown else __doc__)
    if given.known:
        return
    proved, plain = (os.path.abspath(it) for it in given.words[:2])
    with tempfile.TemporaryDirectory() as room:
        top = given.inputs or room
        print(f"{'shape':14} {'proved':>8} {'plain':>8} {'ratio':>6}  functions of the proved program above {LEAST_SHARE:.0f} %")
        for name in shapes or SIZES:
            folder = os.path.join(top, name)
            if not os.path.exists(folder):
                inputs.SHAPES[name](inputs.Shape(top, name))
            ours, run = step_of(proved, folder, SIZES[name])
            theirs, other = step_of(plain, folder, SIZES[name])
            if run.trace != other.trace:
                sys.exit(f"steps: {name}: the two traces differ")
            print(f"{name:14} {ours:8.0f} {theirs:8.0f} {ours / theirs:6.2f}  {', '.join(run.dear())}", flush=True)


if __name__ == "__main__":
    main()
