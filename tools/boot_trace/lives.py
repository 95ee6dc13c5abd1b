"""The lives of processes. A life begins at a `spawn` and ends at the `reap` of its pid, if the trace has one."""
from dataclasses import dataclass
from enum import Enum

from boot_trace import lines as form
from boot_trace.lines import Moment
from boot_trace.runs import CommandRun

EXEC = "*exec"
STATES = "init.svc."


class Ending(Enum):
    """How a life ended."""

    EXITED = "exited"  # by itself
    KILLED = "killed"  # init killed it first, whatever its status was
    RUNNING = "running"  # not within the trace


class Afterwards(Enum):
    """What a service became when its process had ended."""

    STOPPED = "stopped"
    RESTARTING = "restarting"
    REBOOT = "reboot"  # it was critical, and ended once too often
    UNKNOWN = "unknown"


@dataclass(slots=True, eq=False)
class Life:
    """One process of a service, or of `exec` (whose name is `*exec`)."""

    name: str
    path: str
    pid: int
    began: Moment
    # By what: the command; or the head of the entry: a Tick if a restart was due, a Set if a client asked.
    started_by: CommandRun | form.Tick | form.Set | form.Next
    killed: Moment | None = None
    killed_by: CommandRun | form.Tick | form.Set | form.Next | None = None
    ended: Moment | None = None
    status: int | None = None  # None as well if it ended as killed
    afterwards: Afterwards = Afterwards.UNKNOWN

    @property
    def ending(self):
        if self.ended is None:
            return Ending.RUNNING
        return Ending.KILLED if self.killed or self.status is None else Ending.EXITED

    @property
    def is_service(self):
        return self.name != EXEC

    @property
    def is_restart(self):
        """Whether time began it: its service's last process had ended, and the restart was due."""
        return type(self.started_by) is form.Tick

    @property
    def is_crash(self):
        """Whether it ended by itself, and as a service shouldn't: with another status than 0, or though it isn't oneshot."""
        unwanted = self.status != 0 or self.afterwards in (Afterwards.RESTARTING, Afterwards.REBOOT)
        return self.is_service and self.ending is Ending.EXITED and unwanted


def lives_of(trace, commands):
    """The lives, in the order in which they began."""
    return Lives(trace, commands).lives


class Lives:
    def __init__(self, trace, commands):
        self.lives, self.by_pid, self.ended = [], {}, None
        # (which command a line of the trace is an effect of)
        self.asked = {line: it for it in commands for line, output in it.effects if type(output) in (form.Spawn, form.Kill)}
        for entry in trace.entries:
            self.ended = None
            for place, output in enumerate(entry.outputs):
                step = STEPS.get(type(output))
                if step:
                    step(self, entry, place, output)

    def by(self, entry, place):
        return self.asked.get(entry.line + 1 + place, entry.head)

    def spawn(self, entry, place, output):
        life = Life(output.name, output.path, output.pid, entry.moment(place), self.by(entry, place))
        self.lives.append(life)
        self.by_pid[output.pid] = life

    def kill(self, entry, place, output):
        life = self.by_pid.get(output.pid)
        if life:
            life.killed, life.killed_by = entry.moment(place), self.by(entry, place)

    def reap(self, entry, place, output):
        life = self.by_pid.get(output.pid)
        if life:
            life.ended, life.status = entry.moment(place), output.status
            self.ended = life

    def put(self, entry, place, output):
        """The state of a service right after its process was reaped says what it became."""
        life = self.ended
        if life and output.name == STATES + life.name and life.afterwards is Afterwards.UNKNOWN:
            life.afterwards = AFTERWARDS.get(output.value, Afterwards.UNKNOWN)

    def reboot(self, entry, place, output):
        if self.ended:
            self.ended.afterwards = Afterwards.REBOOT


AFTERWARDS = {"stopped": Afterwards.STOPPED, "restarting": Afterwards.RESTARTING}
STEPS = {form.Spawn: Lives.spawn, form.Kill: Lives.kill, form.Reap: Lives.reap, form.Put: Lives.put, form.Reboot: Lives.reboot}
