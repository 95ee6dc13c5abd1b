#!/usr/bin/env python3
"""Writes the log that AOSP's init would write during a boot of the model: make_log.py ROOT SCRIPT LOG [--android N] [--style STYLE] [--noise N]

The boot is that of `initsim run`. The messages come from its trace by init_messages.py. A STYLE is plain, raw, thread, mediatek, samsung,
bugreport or serial; N messages of other writers come after each of init's."""
import argparse
import os
import shutil
import subprocess
import sys
import tempfile

sys.dont_write_bytecode = True
HERE = os.path.dirname(os.path.realpath(__file__))
TOP = os.path.dirname(os.path.dirname(HERE))
sys.path[:0] = [os.path.join(TOP, "tools"), HERE]

from boot_trace.reader import parse_trace  # noqa: E402
from init_messages import InitMessages  # noqa: E402
from log_text import STYLES, physical_lines, with_noise  # noqa: E402


def program():
    return os.environ.get("INITSIM") or subprocess.run([os.path.join(TOP, "tools/launch"), "--build", "initsim"], capture_output=True, text=True, check=True).stdout.strip()


def trace_of(tree, script):
    """The trace of a boot, over a copy of the tree."""
    with tempfile.TemporaryDirectory(prefix="make-log-") as room:
        copy, acts = os.path.join(room, "tree"), os.path.join(room, "script")
        shutil.copytree(tree, copy)
        with open(acts, "w", encoding="utf-8") as file:
            file.write(script)
        ran = subprocess.run([program(), "run", copy, acts], capture_output=True, timeout=120)
    if ran.returncode:
        raise SystemExit(f"make_log: {ran.stderr.decode()}")
    return parse_trace(ran.stdout)


def messages_of(tree, script, version=14, askers=None, noise=1):
    """The messages of a boot's log."""
    return with_noise(InitMessages(tree, trace_of(tree, script), version, askers).write(), noise)


def write_log(path, messages, style):
    """Writes the log; each of its lines with its message."""
    lines = physical_lines(messages, style)
    with open(path, "w", encoding="utf-8", newline="") as file:
        file.write("".join(f"{text}\n" for text, _ in lines))
    return lines


def main():
    parser = argparse.ArgumentParser(description=__doc__, formatter_class=argparse.RawDescriptionHelpFormatter)
    parser.add_argument("root")
    parser.add_argument("script")
    parser.add_argument("log")
    parser.add_argument("--android", type=int, default=14)
    parser.add_argument("--style", choices=STYLES, default="thread")
    parser.add_argument("--noise", type=int, default=1)
    given = parser.parse_args()
    with open(given.script, encoding="utf-8") as file:
        script = file.read()
    write_log(given.log, messages_of(given.root, script, given.android, {}, given.noise), given.style)


if __name__ == "__main__":
    main()
