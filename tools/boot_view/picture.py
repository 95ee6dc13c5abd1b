"""Lays out the picture of a boot: its panels, from top to bottom, and what was folded."""
from dataclasses import dataclass, field

from boot_view.actions import upper_panel
from boot_view.axis import Axis
from boot_view.lives import service_panels
from boot_view.shapes import width_of
from boot_view.states import state_panels

WIDTH = 1200
LEAST_LEFT, MOST_LEFT = 90, 230
MARGIN = 16


class Folded:
    """What the picture doesn't show one by one: how many, and of what."""

    def __init__(self):
        self.counts = {}

    def add(self, count, what):
        if count > 0:
            self.counts[what] = self.counts.get(what, 0) + count

    @property
    def lines(self):
        return [f"{count:,} {what}" for what, count in self.counts.items()]


@dataclass(slots=True)
class Marks:
    """What differs from another boot: a sign for each service and property by its name, and the runs of actions by their ids."""

    services: dict = field(default_factory=dict)
    properties: dict = field(default_factory=dict)
    actions: set = field(default_factory=set)


def marks_of(groups):
    """The marks of the differences of two boots (boot_diff.boots)."""
    marks = Marks()
    for it in (it for group in groups.values() for it in group):
        signs = {"service": marks.services, "property": marks.properties}.get(it.kind)
        if signs is not None and it.subject:
            signs[it.subject] = it.sign
    for it in groups["command"]:
        for signs, names in ((marks.services, it.services), (marks.properties, it.properties)):
            for name in names:
                signs.setdefault(name, it.sign)
        marks.actions |= {id(run.action) for run in [*it.old_runs, *it.new_runs] if run.action}
    return marks


class Picture:
    """The panels of a boot."""

    def __init__(self, boot, sources=None, marks=None):
        self.folded = Folded()
        names = [*boot.services, *boot.sets]
        left = min(max([LEAST_LEFT, *(width_of(it) + 24 for it in names)]), MOST_LEFT)
        axis = Axis(boot.trace, left, WIDTH - MARGIN)
        self.folded.add(axis.folded, "Nexts at which nothing happened, at the marks // of the axis")
        marks = marks or Marks()
        self.panels = [upper_panel(boot, axis, marks.actions, self.folded)]
        self.panels += service_panels(boot, axis, marks, self.folded)
        self.panels += state_panels(boot, axis, sources, marks, self.folded)
