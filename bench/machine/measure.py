#!/usr/bin/env python3
"""Runs the proved program and the plain one on each input in turn, and compares what they write byte for byte:
measure.py [--inputs FOLDER] [--runs N] PROVED PLAIN [SHAPE..]. The inputs are those of inputs.py, and are made where they aren't there.
Figures are the least user and system time of three runs, and the peak memory. Ends with a failure where a run fails, the two outputs
differ, an output isn't whole, or nothing was measured. The peak of a program below about 2 MiB isn't seen."""
import argparse
import os
import subprocess
import sys
import tempfile

import inputs

HERE = os.path.dirname(os.path.abspath(__file__))


class Figures:
    def __init__(self):
        self.seconds, self.peak = [], []

    def least(self):
        return min(self.seconds)

    def most(self):
        return max(self.peak)


def words_of(folder):
    with open(os.path.join(folder, "words")) as file:
        return file.read().splitlines()


def once(helper, program, folder, out, figures):
    """Runs the program once, and notes its time and memory."""
    done = subprocess.run([helper, out, program, *words_of(folder)], cwd=folder, stdout=subprocess.PIPE, text=True)
    if done.returncode != 0:
        return f"{program} couldn't be run"
    status, user, system, peak = map(int, done.stdout.split())
    if status != 0:
        return f"{program} ended with status {status}"
    figures.seconds.append((user + system) / 1e6)
    figures.peak.append(peak * 1024)
    return None


def is_whole(path):
    """Whether an output has its first and its last line."""
    size = os.path.getsize(path)
    with open(path, "rb") as file:
        first = file.readline()
        file.seek(max(0, size - 5))
        begins = first == b"initsim 1\n" or first.startswith(b"soak ")
        return begins and file.read() == b"\nend\n" or first + file.read() == b"initsim 1\nend\n"


NO_ENTRY = (b" ", b"initsim 1\n", b"diag ", b"client ", b"end\n")


def entries_in(path):
    """How many entries and how many diagnostics an output has."""
    entries = diagnostics = 0
    with open(path, "rb") as file:
        for line in file:
            if line.startswith(b"soak "):
                return int(file.readline().split()[1]), 0
            diagnostics += line.startswith(b"diag ")
            entries += not line.startswith(NO_ENTRY)
    return entries, diagnostics


def measure(name, folder, helper, proved, plain, runs):
    """A line of the shape's ratios, or why there is none."""
    ours, theirs = Figures(), Figures()
    with tempfile.TemporaryDirectory(dir=os.path.dirname(folder)) as room:
        ours_out, theirs_out = os.path.join(room, "proved"), os.path.join(room, "plain")
        for _ in range(runs):
            why = once(helper, proved, folder, ours_out, ours) or once(helper, plain, folder, theirs_out, theirs)
            if why:
                return False, f"{name}: {why}"
            if subprocess.run(["cmp", "-s", ours_out, theirs_out]).returncode != 0:
                told = subprocess.run(["cmp", ours_out, theirs_out], stdout=subprocess.PIPE, stderr=subprocess.STDOUT, text=True)
                return False, f"{name}: the two programs write different texts: {told.stdout.strip()}"
        if not is_whole(ours_out):
            return False, f"{name}: what is written isn't whole"
        size, (entries, diagnostics) = os.path.getsize(ours_out), entries_in(ours_out)
    if min(ours.least(), theirs.least(), ours.most(), theirs.most()) <= 0:
        return False, f"{name}: no time or no memory was seen, so nothing was measured"
    return True, (f"{name}: {entries:,} entries, {diagnostics:,} diagnostics, {size / 1e6:,.1f} MB written; proved {ours.least():.3f} s, {ours.most() / 1e6:,.1f} MB; "
                  f"plain {theirs.least():.3f} s, {theirs.most() / 1e6:,.1f} MB; time {ours.least() / theirs.least():.2f} times, "
                  f"memory {ours.most() / theirs.most():.2f} times")


def main():
    parser = argparse.ArgumentParser(description=__doc__)
    parser.add_argument("--inputs", default=os.path.join(HERE, "inputs"))
    parser.add_argument("--runs", type=int, default=3)
    parser.add_argument("proved")
    parser.add_argument("plain")
    parser.add_argument("shapes", nargs="*", metavar="SHAPE")
    given = parser.parse_args()
    top, proved, plain = (os.path.abspath(it) for it in (given.inputs, given.proved, given.plain))
    names = given.shapes or list(inputs.SHAPES)
    unknown = [name for name in names if name not in inputs.SHAPES]
    if unknown or given.runs < 1:
        sys.exit(f"measure.py: {' '.join(unknown)}: there are {' '.join(inputs.SHAPES)}" if unknown else "measure.py: no runs")
    failed = []
    with tempfile.TemporaryDirectory() as room:
        helper = os.path.join(room, "once")
        subprocess.run(["rustc", "-O", "--edition", "2024", "-o", helper, os.path.join(HERE, "once.rs")], check=True)
        print(f"cores: {os.cpu_count()}, load {os.getloadavg()[0]:.1f}", flush=True)
        for name in names:
            folder = os.path.join(top, name)
            if not os.path.exists(os.path.join(folder, "words")):
                inputs.SHAPES[name](inputs.Shape(top, name))
            well, line = measure(name, folder, helper, proved, plain, given.runs)
            print(line, flush=True)
            if not well:
                failed.append(name)
    if failed:
        sys.exit(f"measure.py: failed: {' '.join(failed)}")


if __name__ == "__main__":
    main()
