"""Times calls from outside: the processor time of two runs that make few and many of them, as their difference over the difference
of the numbers. Ends the bench where a run fails, writes something else than it should, or took no time that can be measured. Of
a program with more threads the time of the main thread alone can be taken, with what it waited for a lock."""
import os
import subprocess
import sys
import time


def programs(name):
    """The words that begin a call of the proved program, whose first word chooses, and of the plain one."""
    proved, plain = sys.argv[1:3]
    return (proved, name), (plain,)


def start(words):
    try:
        return subprocess.Popen(words, stdout=subprocess.PIPE)
    except OSError as why:
        sys.exit(f"bench: {words[0]} can't be run: {why.strerror}")


def end(child, words):
    """The child is waited for; what it used."""
    _, status, usage = os.wait4(child.pid, 0)
    child.returncode = os.waitstatus_to_exitcode(status)
    if child.returncode != 0:
        sys.exit(f"bench: {' '.join(words)} ended with status {child.returncode}")
    return usage


def run(words):
    """Processor time in seconds of one run, and what it wrote."""
    child = start(words)
    with child.stdout as pipe:
        wrote = pipe.read()
    usage = end(child, words)
    return usage.ru_utime + usage.ru_stime, wrote


def run_elapsed(words):
    """Seconds from the start to the end of one run, and what it wrote."""
    began = time.monotonic()
    _, wrote = run(words)
    return time.monotonic() - began, wrote


def run_beside(words):
    """Seconds of one run, but for those in which its main thread was ready and had no processor, and what it wrote."""
    began = time.monotonic()
    child = start(words)
    with child.stdout as pipe:
        wrote = pipe.read()
    os.waitid(os.P_PID, child.pid, os.WEXITED | os.WNOWAIT)
    elapsed = time.monotonic() - began
    with open(f"/proc/{child.pid}/task/{child.pid}/schedstat") as times:
        ready = int(times.read().split()[1]) / 1e9
    end(child, words)
    return elapsed - ready, wrote


def seconds_of_one(words, few, many, wanted, run=run):
    """Seconds of one call of a program that takes the number of calls as its last word and writes what `wanted` says of it."""
    times = {}
    for count in (few, many):
        times[count], wrote = run([*words, str(count)])
        if wrote != wanted(count):
            sys.exit(f"bench: {' '.join(words)} {count} wrote {wrote!r}, and not {wanted(count)!r}")
    if times[many] <= times[few]:
        sys.exit(f"bench: {' '.join(words)}: {many} calls took no longer than {few}, so nothing was measured")
    return (times[many] - times[few]) / (many - few)
