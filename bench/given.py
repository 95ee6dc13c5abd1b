"""The program that an attack runs: the one that PROGRAM names, or else what `./initsim` would run."""
import os
import sys

sys.path.append(os.path.join(os.path.dirname(os.path.abspath(__file__)), "../tools"))

import programs  # noqa: E402


def fail(line):
    print(f"bench: {line}", file=sys.stderr)
    sys.exit(2)


def program_of():
    """The path of the program."""
    try:
        given = os.environ.get("PROGRAM") or programs.path_of("initsim")
    except programs.NotBuilt as why:
        fail(why)
    if not (os.path.isfile(given) and os.access(given, os.X_OK)):
        fail(f"{given} is no program")
    return os.path.abspath(given)
