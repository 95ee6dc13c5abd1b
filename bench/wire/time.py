"""Runs the proved program and the plain one on each stream in turns: time.py ONCE PROVED PLAIN. Each has to accept each
message. Figures are the least user and system time of nine runs, and by how much the peak of memory is above that with an empty
stream. Ends with a failure if a run fails, if something else is written, or if nothing was measured."""
import os
import subprocess
import sys
import tempfile

import messages

ROUNDS = 9
ACCEPTED = b"\0\0\0\0"


def fail(line):
    sys.exit(f"bench: {line}")


class Program:
    """A program, by the words before a stream's path, with the seconds and peaks of its runs on that stream."""

    def __init__(self, *words):
        self.words = words
        self.seconds, self.peaks = [], []

    def run(self, once, stream, wanted):
        with tempfile.NamedTemporaryFile() as out:
            done = subprocess.run([once, out.name, *self.words, stream], stdout=subprocess.PIPE, text=True)
            if done.returncode:
                fail(f"{self.words[0]} can't be run")
            status, user, system, peak = map(int, done.stdout.split())
            if status:
                fail(f"{self.words[0]} ended with status {status} on {os.path.basename(stream)}")
            if out.read() != wanted:
                fail(f"{self.words[0]} doesn't accept each message of {os.path.basename(stream)}")
        self.seconds.append((user + system) / 1e6)
        self.peaks.append(peak * 1024)

    def least(self):
        return min(self.seconds)

    def peak(self):
        return max(self.peaks)


def measured(once, words, stream, count):
    """The programs that begin with these words, after their runs on the stream."""
    programs = [Program(*it) for it in words]
    for _ in range(ROUNDS):
        for it in programs:
            it.run(once, stream, ACCEPTED * count)
    return programs


def main():
    once, proved, plain = sys.argv[1:]
    with tempfile.TemporaryDirectory() as room:
        counts = messages.make(room)
        words = (proved, "wire", os.path.join(room, "tree")), (plain,)
        print(f"cores: {os.cpu_count()}, load {os.getloadavg()[0]:.1f}", flush=True)
        bare = measured(once, words, os.path.join(room, "empty"), 0)
        for name in ("sets", "shortest"):
            stream = os.path.join(room, name)
            programs = measured(once, words, stream, counts[name])
            if min(it.least() for it in programs) <= 0 or min(it.peak() for it in (*programs, *bare)) <= 0:
                fail("no time or no memory was seen, so nothing was measured")
            (ours, theirs), (more, other) = [it.least() for it in programs], [(it.peak() - one.peak()) / 1e6 for it, one in zip(programs, bare)]
            print(f"{name}: {counts[name]:,} messages, {os.path.getsize(stream) / 1e6:.1f} MB; proved {ours:.3f} s, plain {theirs:.3f} s, "
                  f"time {ours / theirs:.2f} times; memory beyond an empty stream's: proved {more:.2f} MB, plain {other:.2f} MB", flush=True)
        print(f"memory with an empty stream: proved {bare[0].peak() / 1e6:.1f} MB, plain {bare[1].peak() / 1e6:.1f} MB")


main()
