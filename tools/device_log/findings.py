"""Findings and known differences, and what all parts of the comparison share."""
from collections import Counter
from dataclasses import dataclass, field

from device_log.view import NEVER

# In so many microseconds after the last line that was followed, init would have gone on.
QUIET = 1_000_000


@dataclass(order=True)
class Finding:
    line: int
    kind: str
    text: str
    consequences: list = field(default_factory=list, compare=False)

    def __str__(self):
        rest = f"; so {', '.join(self.consequences)}" if self.consequences else ""
        return f"{self.line}: {self.kind}: {self.text}{rest}"


class Compared:
    """A log and the boot of the model that follows it, with what came of comparing them."""

    def __init__(self, log, tree, policy, places, view, notes, losses, position):
        self.log, self.tree, self.policy, self.places = log, tree, policy, places
        self.view, self.notes, self.losses, self.position = view, notes, losses, position
        self.messages = log.messages if notes.over is None else log.messages[: notes.over]
        self.findings, self.known = [], Counter()
        self.hang = None
        actions = [index for index, it in enumerate(self.messages) if it.kind == "action" and index in places.keys]
        self.first = self.view.firsts[0] if self.view.firsts else 0
        # (the actions of the log, and the runs of the model, that may be compared)
        self.actions = actions
        self.has_beginning = any(it.name == "SetupCgroups" or it.kind == "stage" for it in self.messages) or self.begins_with_first()
        self.windows = dict(zip(actions, [*actions[1:], len(self.messages)]))

    def begins_with_first(self):
        return bool(self.actions and self.view.runs) and self.places.keys[self.actions[0]] == self.view.runs[0][1:3]

    @property
    def is_whole(self):
        """Whether nothing is lost, so that what isn't there didn't happen."""
        return self.losses.is_whole

    @property
    def reach(self):
        """The entry up to which the log would show what the model does."""
        if self.hang is not None or not self.messages:
            return self.position
        lines = [it for it in self.notes.followed | self.notes.starts.keys() | self.notes.ends.keys() if it < len(self.messages)]
        last = self.messages[max(lines, default=0)].time
        return NEVER if self.log.last_time - last > QUIET and self.notes.over is None else self.position

    def add(self, line, kind, text, consequences=()):
        made = Finding(line, kind, text, list(consequences))
        self.findings.append(made)
        return made

    def add_absent(self, line, kind, text, consequences=()):
        """A finding that something isn't in the log: nothing is said where lines are lost."""
        if self.is_whole:
            return self.add(line, kind, f"{text} (or its line is lost)", consequences)
        self.known["what isn't in the log, of which lines are lost"] += 1
        return None
