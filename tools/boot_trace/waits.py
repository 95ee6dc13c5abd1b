"""The waits of init. A wait begins at the line `wait` of a command, and ends at the next `released` or `timeout`, if there is one."""
from dataclasses import dataclass
from enum import Enum

from boot_trace import lines as form
from boot_trace.lines import Mark, Moment
from boot_trace.runs import CommandRun


class WaitKind(Enum):
    CHILD = "child"  # the end of a process
    PROPERTY = "property"  # a value of a property
    FILE = "file"


class WaitEnd(Enum):
    RELEASED = "released"
    TIMEOUT = "timeout"
    OPEN = "open"  # not within the trace


@dataclass(slots=True, eq=False)
class Wait:
    kind: WaitKind
    subject: str  # the name of the process, of the property, or the path of the file
    value: str  # of the property; of a process its path
    until: int | None  # for a file: the moment of the clock at which it ends
    command: CommandRun | None
    began: Moment
    ended: Moment | None = None
    end: WaitEnd = WaitEnd.OPEN
    ended_by: object = None  # the head of the entry
    blocked: int = 0  # the Nexts that it blocked

    @property
    def place(self):
        return self.command.place if self.command else ""

    @property
    def milliseconds(self):
        """The model's time that it took; None if it is open."""
        return self.ended.clock - self.began.clock if self.ended else None

    @property
    def what(self):
        if self.kind is WaitKind.CHILD:
            return f"the end of {self.subject} ({self.value})" if self.value else f"the end of {self.subject}"
        if self.kind is WaitKind.PROPERTY:
            return f"{self.subject}={self.value}"
        return f"the file {self.subject}"


def waits_of(trace, commands, lives):
    """The waits, in the order in which they began. Only the last one can be open."""
    commands = {it.moment.entry: it for it in commands if it.wait}
    processes = {it.pid: it for it in lives}
    waits, open_wait = [], None
    for entry in trace.entries:
        for place, output in enumerate(entry.outputs):
            kind = type(output)
            if kind in MAKERS:
                open_wait = begin(MAKERS[kind](output, processes), commands.get(entry.number), entry.moment(place))
                waits.append(open_wait)
            elif kind is Mark and open_wait:
                open_wait = go_on(open_wait, output, entry, place)
    return waits


def begin(what, command, moment):
    kind, subject, value, until = what
    return Wait(kind, subject, value, until, command, moment)


def go_on(wait, mark, entry, place):
    """What a line of one word says of the open wait; the wait, if it is open still."""
    if mark is Mark.BLOCKED:
        wait.blocked += 1
    if mark not in (Mark.RELEASED, Mark.TIMEOUT):
        return wait
    wait.ended, wait.ended_by = entry.moment(place), entry.head
    wait.end = WaitEnd.RELEASED if mark is Mark.RELEASED else WaitEnd.TIMEOUT
    return None


def child(output, processes):
    life = processes.get(output.pid)
    return (WaitKind.CHILD, life.name, life.path, None) if life else (WaitKind.CHILD, f"process {output.pid}", "", None)


MAKERS = {
    form.WaitChild: child,
    form.WaitProp: lambda output, _: (WaitKind.PROPERTY, output.name, output.value, None),
    form.WaitFile: lambda output, _: (WaitKind.FILE, output.path, "", output.until),
}
