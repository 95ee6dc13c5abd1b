#!/usr/bin/env python3
"""Times an audit beside a run and the reading of the run's trace: bench/trace/audit.py PROGRAM [SHAPE..]. The inputs are those of
bench/machine/inputs.py. What reading a trace takes is what an audit takes whose first entry is no boot, so that the machine takes
no input, less what one takes that ends at an empty trace. Seconds are the least user and system time of three, memory is the peak. A shape whose trace is longer
than an audit reads is left out. Ends with a failure where an answer isn't the one that is due."""
import os
import shutil
import subprocess
import sys
import tempfile

sys.path.insert(0, os.path.join(os.path.dirname(os.path.dirname(os.path.abspath(__file__))), "machine"))
import inputs

ROUNDS = 3
MOST_BYTES = 67_108_864
USUAL = ("run_files_1000", "ring_10000", "match_10000", "self_trigger", "setprop_900", "ticks_10000", "start_5000", "device")


def once(words, folder, out):
    """Seconds, KiB at the peak, and the status of one run."""
    with open(out, "wb") as file:
        child = subprocess.Popen(words, cwd=folder, stdout=file, stderr=subprocess.DEVNULL)
        _, status, usage = os.wait4(child.pid, 0)
        child.returncode = os.waitstatus_to_exitcode(status)
    return usage.ru_utime + usage.ru_stime, usage.ru_maxrss, child.returncode


def least(words, folder, out, status, wrote):
    """The least seconds and the most KiB of some runs, each of which has to end with this status, and to write what is due."""
    figures = []
    for _ in range(ROUNDS):
        seconds, peak, ended = once(words, folder, out)
        with open(out, "rb") as file:
            text = file.read(64)
        if ended != status or not text.startswith(wrote):
            sys.exit(f"bench: {' '.join(words)} in {folder} ended with {ended} and wrote {text!r}")
        figures.append((seconds, peak))
    return min(it[0] for it in figures), max(it[1] for it in figures)


def measure(program, folder, name):
    trace, other, out = (os.path.join(folder, it) for it in ("trace", "other", "out"))
    with open(os.path.join(folder, "words")) as file:
        words = file.read().split()
    if words[0] != "run":
        return
    run, run_peak = least([program, *words], folder, trace, 0, b"initsim 1\n")
    size = os.path.getsize(trace)
    if size > MOST_BYTES:
        print(f"{name}: a trace of {size} bytes is longer than an audit reads")
        return
    audit, audit_peak = least([program, "audit", *words[1:], "trace"], folder, out, 0, b"yes\n")
    with open(trace, "rb") as whole, open(other, "wb") as changed:
        for line in whole:
            changed.write(line.replace(b"boot", b"next"))
            if line == b"boot\n":
                break
        shutil.copyfileobj(whole, changed)
    stopped, _ = least([program, "audit", *words[1:], "other"], folder, out, 0, b"no Merge 1\n")
    open(other, "wb").close()
    loaded, _ = least([program, "audit", *words[1:], "other"], folder, out, 12, b"")
    beside = run + max(0, stopped - loaded)
    print(f"{name}: trace {size / 1e6:.1f} MB; run {run:.3f} s, its trace read {stopped - loaded:.3f} s, audit {audit:.3f} s: "
          f"{audit / beside:.2f} times; memory run {run_peak / 1024:.0f} MB, audit {audit_peak / 1024:.0f} MB: "
          f"{(audit_peak - run_peak) * 1024 / size:.2f} bytes more a byte of the trace", flush=True)


def main():
    if len(sys.argv) < 2 or set(sys.argv[2:]) - set(inputs.SHAPES):
        sys.exit("bench/trace/audit.py PROGRAM [SHAPE..], of " + " ".join(inputs.SHAPES))
    program = os.path.abspath(sys.argv[1])
    with tempfile.TemporaryDirectory() as room:
        for name in sys.argv[2:] or [it for it in inputs.SHAPES if it in USUAL]:
            inputs.SHAPES[name](inputs.Shape(room, name))
            measure(program, os.path.join(room, name), name)


if __name__ == "__main__":
    main()
