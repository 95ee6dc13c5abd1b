"""What the processes of the gate do, and how much processor time they took, as /proc tells."""
import os
from typing import NamedTuple

TICKS = os.sysconf("SC_CLK_TCK")


class Work(NamedTuple):
    """What a process of the prover works on: its crate, whether that is its proof, its tests or its edits, and which edit (none before the first)."""

    crate: str
    kind: str
    edit: str = ""


def stat_of(pid):
    """The parent, the start and the processor time, with that of ended children, of a process."""
    with open(f"/proc/{pid}/stat", "rb") as file:
        fields = file.read().rpartition(b")")[2].split()
    return int(fields[1]), int(fields[19]), sum(int(it) for it in fields[11:15]) / TICKS


def edit_of(words):
    """The edit that a check tries: it works in a folder with the edit's number. What comes before the edits works in another."""
    if "--incremental" not in words:
        return "alone"
    name = os.path.basename(words[words.index("--incremental") + 1])
    return name if name.isdigit() else ""


def work_of(pid):
    """The work of a process of the prover, or None for another process."""
    with open(f"/proc/{pid}/cmdline", "rb") as file:
        words = file.read().decode(errors="replace").split("\0")
    if "--crate-name" not in words or not words[0].endswith("/rattle"):
        return None
    crate = words[words.index("--crate-name") + 1]
    if os.path.basename(os.readlink(f"/proc/{pid}/cwd")).startswith("rt-edit"):
        return Work(crate, "edits", edit_of(words))
    return Work(crate, "tests" if "--test" in words else "proof")


class Tree:
    """The processes of a moment: what `stat_of` tells of each, and the children of each."""

    def __init__(self):
        self.stats, self.below = {}, {}
        for name in os.listdir("/proc"):
            if name.isdigit():
                try:
                    self.stats[int(name)] = stat_of(name)
                except (OSError, IndexError, ValueError):
                    pass
        for pid, (parent, _, _) in self.stats.items():
            self.below.setdefault(parent, []).append(pid)

    def all_below(self, pid):
        for child in self.below.get(pid, ()):
            yield child
            yield from self.all_below(child)

    def seconds(self, pid):
        """The processor time of a process and of all below it."""
        return self.stats[pid][2] + sum(self.stats[it][2] for it in self.all_below(pid))
