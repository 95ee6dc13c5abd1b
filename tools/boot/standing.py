"""Where a boot stands after one of its entries: what runs, what waits, what holds."""
from bisect import bisect_right

from boot_trace.boot import Boot
from boot_trace.lines import Mark, Trace
from boot_trace.lives import STATES, Afterwards
from boot_trace.waits import WaitEnd, WaitKind
from boot_trace.words import quoted, text

COMPLETED = "sys.boot_completed"


class Standing:
    """A boot after so many of its entries; the trace may go on."""

    def __init__(self, boot, at):
        self.boot, self.at = boot, at

    @property
    def entry(self):
        return self.boot.trace.entries[self.at - 1]

    def cut(self):
        """The boot up to here alone."""
        trace = self.boot.trace
        return Boot(Trace(trace.diagnostics, trace.entries[: self.at], trace.clients))

    @property
    def is_idle(self):
        return self.entry.outputs[-1:] == [Mark.IDLE]

    @property
    def wait(self):
        """The wait that is open."""
        begun = bisect_right(self.boot.waits, self.at, key=lambda it: it.began.entry)
        last = self.boot.waits[begun - 1] if begun else None
        return last if last and (last.end is WaitEnd.OPEN or last.ended.entry > self.at) else None

    @property
    def is_over(self):
        """Whether a reboot has ended the machine."""
        return self.fatal_life is not None

    @property
    def fatal_life(self):
        """The process whose end rebooted the machine."""
        return next((it for it in self.boot.lives if it.afterwards is Afterwards.REBOOT and it.ended.entry <= self.at), None)

    def held(self, name):
        """The last accepted set of a property; None before the first one."""
        sets = self.boot.sets.get(name, ())
        count = bisect_right(sets, self.at, key=lambda it: it.moment.entry)
        return sets[count - 1] if count else None

    def value(self, name):
        held = self.held(name)
        return held.value if held else None

    def service(self, name):
        """The state of a service: running, stopping, stopped, restarting, or None before its first one."""
        return self.value(STATES + name)

    def is_running(self, name):
        return self.service(name) == "running"

    @property
    def is_complete(self):
        """Whether the boot reached its end: it is said to be complete, nothing waits, and nothing is left to do."""
        return self.value(COMPLETED) in ("1", "true") and self.is_idle and not self.is_over

    def occurrence(self, condition):
        """Which coming true of the condition holds now; None if it doesn't hold."""
        kind, *waited = condition.kind.split()
        words = [text(it) for it in condition.words]
        if kind in ("idle", "blocked", "quiet"):
            holds = (kind != "blocked" and self.is_idle) or (kind != "idle" and self.wait is not None)
            return self.at if holds else None
        if kind == "waiting":
            wait = self.wait
            return wait.began.line if wait and is_for(wait, waited[0], words) else None
        name, value = words if kind == "prop" else (STATES + words[0], kind)
        held = self.held(name)
        return held.number if held and held.value == value else None


KINDS = {"file": WaitKind.FILE, "prop": WaitKind.PROPERTY, "exit": WaitKind.CHILD}


def is_for(wait, kind, words):
    """Whether a wait is for this; of a process its name or its path may be given."""
    if wait.kind is not KINDS[kind]:
        return False
    if kind == "exit":
        return words[0] in (wait.subject, wait.value)
    return words == [wait.subject, wait.value][: len(words)]


def awaited(wait):
    """What a wait is for, in the words of a boot test."""
    subject = quoted(wait.subject)
    if wait.kind is WaitKind.CHILD:
        return f"exit of {wait.value if wait.subject == '*exec' else subject}"
    return f"prop {subject} {quoted(wait.value)}" if wait.kind is WaitKind.PROPERTY else f"file {subject}"
