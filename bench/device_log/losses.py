#!/usr/bin/env python3
"""Takes lines of init out of made logs, and counts what tools/device-log says of the rest. Run by hand: losses.py seeds|each

With `seeds`, 5 lines in 100 of the clean and of the differing log, for ten seeds, in the forms of Android 14 and 10. With `each`, each line
of the clean log in turn, which takes some minutes. bench/README.md has what it wrote."""
import os
import random
import sys
import tempfile
import time

sys.dont_write_bytecode = True

import make_log  # noqa: E402  (it sets the path of the tools)
from boots import WALNUT, WANTED, clean_messages, differing_messages, lines_of, make_roots  # noqa: E402
from boot.runs import program_of  # noqa: E402
from device_log.session import NotModelled, session_of  # noqa: E402
from log_text import physical_lines  # noqa: E402

SEEDS, PART = 10, 0.05
VERSIONS = (14, 10)


class Tries:
    """Findings of logs from which lines were taken."""

    def __init__(self, root, room):
        self.root, self.path = root, os.path.join(room, "tried.log")
        self.program, self.not_modelled = program_of(None), NotModelled(root)
        # (once, since it is the same for each log)
        self.not_modelled(None)

    def findings(self, lines):
        with open(self.path, "w", encoding="utf-8") as file:
            file.write("".join(f"{text}\n" for text, _ in lines))
        with session_of(self.root, self.path, self.program, self.not_modelled) as session:
            return session.compared.findings


def own_places(lines):
    return [place for place, (_, message) in enumerate(lines) if message is not None and message.is_own]


def try_each(tries, lines):
    """Takes each line out in turn; how many findings each brings, by their count."""
    counts = {}
    for place in own_places(lines):
        found = tries.findings(lines[:place] + lines[place + 1 :])
        counts.setdefault(len(found), []).append((lines[place][0], [str(it) for it in found]))
    return counts


def thinned(lines, seed):
    """The lines without 5 in 100 of init's."""
    chance = random.Random(seed)
    return [it for it in lines if it[1] is None or not it[1].is_own or chance.random() >= PART]


def found_of(findings, lines):
    """The divergences that are found at the right line, and all other findings."""
    wanted = lines_of(lines, WANTED)
    right = {it.kind for it in findings if wanted.get(it.kind) == it.line}
    return right, [it for it in findings if wanted.get(it.kind) != it.line]


def report_each(version, counts):
    total = sum(len(it) for it in counts.values())
    none = len(counts.get(0, []))
    print(f"Android {version}'s form: {total} lines, each taken out in turn: {none} without a finding ({100 * none / total:.1f} of 100), most findings {max(counts)}")
    for count, cases in sorted(counts.items()):
        for text, found in cases if count > 1 else ():
            print(f"  {count} findings without {text}: {found}")


def try_seeds(version, walnut, product, device):
    clean = physical_lines(clean_messages(version), "thread")
    differing = physical_lines(differing_messages(device, version), "thread")
    for seed in range(1, SEEDS + 1):
        false = walnut.findings(thinned(clean, seed))
        lines = thinned(differing, seed)
        right, others = found_of(product.findings(lines), lines)
        print(f"Android {version}'s form, seed {seed}: clean log {len(false)} findings; other log {len(right)} of {len(WANTED)}, and {len(others)} others")
        for it in [*false, *others]:
            print(f"  {it}")


def main():
    if sys.argv[1:] not in (["seeds"], ["each"]):
        raise SystemExit("losses: usage: losses.py seeds|each")
    began = time.time()
    with tempfile.TemporaryDirectory(prefix="losses-") as room:
        root, device = make_roots(room)
        walnut, product = Tries(os.path.join(WALNUT, "tree"), room), Tries(root, room)
        for version in VERSIONS:
            if sys.argv[1] == "seeds":
                try_seeds(version, walnut, product, device)
            else:
                report_each(version, try_each(walnut, physical_lines(clean_messages(version), "thread")))
    print(f"{time.time() - began:.0f} s")


if __name__ == "__main__":
    main()
