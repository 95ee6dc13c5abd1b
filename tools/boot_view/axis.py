"""The axis: where an entry is in the picture. It counts entries; long stretches of Nexts at which nothing happens are folded."""
from dataclasses import dataclass

from boot_trace.lines import Mark, Next
from boot_view.shapes import Glyph, Label, Line, width_of

QUIET = (Mark.BLOCKED, Mark.IDLE, Mark.DOWN)
# Quiet entries in a row that are drawn as they are; more are drawn as so many.
MOST_QUIET = 4
FOLDED = 3
NEAREST = 70
FOLD_ROOM = 12
HEIGHT = 38
STEPS = [step * 10**power for power in range(9) for step in (1, 2, 5)]


@dataclass(slots=True)
class Fold:
    first: int  # entry
    last: int

    @property
    def count(self):
        return self.last - self.first + 1


class Axis:
    def __init__(self, trace, left, right):
        self.trace, self.left, self.right = trace, left, right
        self.folds = folds_of(trace)
        self.places = places_of(len(trace.entries), self.folds)
        self.scale = (right - left) / max(self.places[-1], 1)

    def x(self, entry):
        """Where an entry begins; that after the last one is the right end."""
        return self.left + self.places[entry - 1] * self.scale

    def end(self, moment):
        """Where something ended: behind its entry; at the right end if it didn't end."""
        return self.x(moment.entry + 1) if moment else self.right

    @property
    def folded(self):
        return sum(it.count for it in self.folds)

    def shapes(self, height):
        """The axis at the top of a panel of this height: the entries, and below them the model's time where it passes."""
        made = [Line(self.left, HEIGHT - 6, self.right, HEIGHT - 6, "axis")]
        made += self.entry_marks(height)
        made += self.time_marks(height)
        return made + self.fold_marks()

    def fold_marks(self):
        """A mark at each fold that has room for it."""
        made, last = [], self.left - NEAREST
        for it in self.folds:
            x = self.x(it.first) + FOLDED * self.scale / 2
            if x - last >= FOLD_ROOM:
                made.append(Glyph(x, HEIGHT - 6, "fold", f"{it.count} Nexts at which nothing happened"))
                last = x
        return made

    def entry_marks(self, height):
        made, last = [Label(self.left - 6, 11, "entry", "quiet", "end")], self.left - NEAREST
        count = len(self.trace.entries)
        step = next(it for it in STEPS if count / it * NEAREST <= (self.right - self.left) or it == STEPS[-1])
        for entry in [1, *range(step, count + 1, step)]:
            x = self.x(entry)
            if x - last >= NEAREST and x + 30 < self.right:
                made += [Line(x, HEIGHT - 10, x, height, "grid"), Label(x + 2, 11, f"{entry:,}", "quiet")]
                last = x
        return made

    def time_marks(self, height):
        made, last, clock = [Label(self.left - 6, 25, "time", "quiet", "end")], self.left, 0
        for entry in self.trace.entries:
            if entry.clock == clock:
                continue
            clock, x = entry.clock, self.x(entry.number)
            text = spoken(clock)
            if x >= last and x + width_of(text) < self.right + 10:
                made += [Line(x, HEIGHT - 12, x, HEIGHT - 6, "time"), Label(x + 2, 25, text, "clock")]
                last = x + width_of(text) + 10
        return made


def spoken(milliseconds):
    if milliseconds < 10_000:
        return f"{milliseconds:,} ms"
    return f"{milliseconds / 1000:,.1f} s"


def folds_of(trace):
    """The stretches of quiet Nexts that are folded."""
    folds, first = [], None
    for entry in [*trace.entries, None]:
        if entry and is_quiet(entry):
            first = first or entry.number
            continue
        last = entry.number - 1 if entry else len(trace.entries)
        if first and last - first + 1 > MOST_QUIET:
            folds.append(Fold(first, last))
        first = None
    return folds


def is_quiet(entry):
    return type(entry.head) is Next and (not entry.outputs or len(entry.outputs) == 1 and entry.outputs[0] in QUIET)


def places_of(count, folds):
    """How many units stand before each entry, and before the end; a folded stretch takes few."""
    places, at, todo = [0.0], 0.0, list(reversed(folds))
    for entry in range(1, count + 1):
        while todo and todo[-1].last < entry:
            todo.pop()
        inside = todo and todo[-1].first <= entry
        at += FOLDED / todo[-1].count if inside else 1
        places.append(at)
    return places
