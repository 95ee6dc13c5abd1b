"""A boot of the model as far as its script goes, and what it does after that if nothing else happens."""
from bisect import bisect_left, bisect_right

from boot_trace.boot import Boot
from boot_trace.lines import Mark, Next
from boot_trace.lives import STATES
from boot_trace.reader import parse_trace
from boot_trace.waits import WaitEnd

from device_log.rc_tree import OWN_FILES

NEVER = 1 << 62


class View:
    """What a trace says, looked at from one of its entries. Entries are counted from 1, which is the boot's."""

    def __init__(self, content):
        self.boot = Boot(parse_trace(content))
        self.entries = self.boot.trace.entries
        # (each run of an action, by the entry in which its first command runs)
        self.runs = sorted((it.commands[0].moment.entry, it.file, it.line, it) for it in self.boot.actions if it.commands and it.file not in OWN_FILES)
        self.firsts = [it[0] for it in self.runs]
        self.lives = self.boot.lives

    def run_after(self, position, key):
        """The first run of an action after a position: its place among the runs; None without one."""
        for place in range(bisect_right(self.firsts, position), len(self.runs)):
            if self.runs[place][1:3] == key:
                return place
        return None

    def runs_after(self, position):
        return [it[1:3] for it in self.runs[bisect_right(self.firsts, position) :]]

    def between(self, position, place):
        """The keys of the runs after a position and before the run at this place."""
        return [it[1:3] for it in self.runs[bisect_right(self.firsts, position) : place]]

    def boundary(self, position, coming):
        """The entry at which the next action begins that is among these."""
        return next((it[0] for it in self.runs[bisect_right(self.firsts, position) :] if it[1:3] in coming), NEVER)

    def next_entry(self, position):
        place = bisect_right(self.firsts, position)
        return self.firsts[place] if place < len(self.firsts) else NEVER

    def value(self, name, position):
        """The value of a property after an entry; None before its first set."""
        sets = self.boot.sets.get(name, ())
        count = bisect_right(sets, position, key=lambda it: it.moment.entry)
        return sets[count - 1].value if count else None

    def holds(self, name, wanted, position):
        value = self.value(name, position) or ""
        return value != "" if wanted == "*" else value == wanted

    def state(self, service, position):
        return self.value(STATES + service, position)

    def open_wait(self, position, limit=NEVER):
        """The wait that is open after a position, or the next one that begins before the limit."""
        waits = self.boot.waits
        at = bisect_left(waits, position + 1, key=lambda it: it.began.entry)
        if at and (waits[at - 1].end is WaitEnd.OPEN or waits[at - 1].ended.entry > position):
            return waits[at - 1]
        return waits[at] if at < len(waits) and waits[at].began.entry < limit else None

    def end(self, position):
        """The word that the last Next of the look ahead says: blocked, idle, down; None if there is more to do."""
        last = self.entries[-1]
        if type(last.head) is not Next or last.number <= position:
            return None
        mark = last.outputs[-1]
        return mark if mark in (Mark.BLOCKED, Mark.IDLE, Mark.DOWN) else None

    def all_properties(self):
        """The entry at which the property triggers are tested."""
        return next((it.moment.entry for it in self.boot.events if str(it) == "all properties"), NEVER)
