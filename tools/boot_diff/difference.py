"""One difference of two boots, and how it is written."""
from collections import Counter
from dataclasses import dataclass, field

from product.texts import printable

MOST_NAMED = 3


@dataclass(slots=True)
class Place:
    """A line of a file of the tree."""

    file: str
    line: int


@dataclass(slots=True)
class Difference:
    sign: str  # + now, - no longer, ~ otherwise, ! new trouble
    kind: str  # of what: command, action, service, property, wait, failure, refusal, input, diagnostic, reading
    what: str
    how: str
    old: Place | None = None
    new: Place | None = None
    notes: list = field(default_factory=list)
    ends_boot: bool = False  # a wait that is open, so that nothing runs after it
    subject: str = ""  # the name of the service, or of the property
    # (what a difference of commands does: the services that start otherwise, the properties that end otherwise)
    services: list = field(default_factory=list)
    properties: list = field(default_factory=list)
    noted: set = field(default_factory=set)  # the groups of which the notes say something
    # (the runs of commands that differ: what they did belongs to this difference)
    old_runs: list = field(default_factory=list)
    new_runs: list = field(default_factory=list)

    def note(self, group, text):
        self.notes.append(text)
        self.noted.add(group)

    def as_json(self):
        made = {"sign": self.sign, "kind": self.kind, "what": self.what, "how": self.how, "notes": self.notes}
        for side, place in (("old", self.old), ("new", self.new)):
            made[side] = {"file": place.file, "line": place.line} if place else None
        return made


def ends_of(path):
    """The ends of a path, the shortest one first, and the path."""
    parts = path.split("/")
    return [*("/".join(parts[-count:]) for count in range(1, len(parts) - 1)), path]


def place_of(run):
    return Place(run.file, run.line) if run else None


class Names:
    """Short names of files: as many of the last parts of a path as no other file ends with."""

    def __init__(self, *boots):
        files = {it.file for boot in boots for it in [*boot.commands, *boot.actions, *boot.trace.diagnostics]}
        self.counts = Counter(end for file in files for end in ends_of(file))

    def short(self, file):
        return next((it for it in ends_of(file) if self.counts[it] == 1), file)

    def places(self, old, new):
        """Where it is on both sides, as `init.rc:77 -> 71`."""
        if old is None or new is None:
            one = old or new
            return f"{self.short(one.file)}:{one.line}" if one else ""
        if old == new:
            return f"{self.short(old.file)}:{old.line}"
        front = "" if old.file == new.file else f"{self.short(new.file)}:"
        return f"{self.short(old.file)}:{old.line} -> {front}{new.line}"

    def line(self, it):
        where = self.places(it.old, it.new)
        place = f" ({where})" if where else ""
        return printable(f"{it.sign} {it.what}: {it.how}{place}" + "".join(f"; {note}" for note in it.notes))


def listed(names, most=MOST_NAMED):
    """Names in a sentence: all of them, or the first ones and how many more."""
    names = list(names)
    if len(names) > most + 1:
        return f"{', '.join(names[:most])} and {len(names) - most} more"
    return " and ".join(filter(None, [", ".join(names[:-1]), *names[-1:]]))


def times(count):
    return {1: "once", 2: "twice"}.get(count, f"{count} times")


def value_change(before, after):
    """How the last values of a property differ, in words."""
    if after is None:
        return f'is no longer set, was "{before}"'
    return f'ends as "{after}", ' + ("was not set" if before is None else f'was "{before}"')
