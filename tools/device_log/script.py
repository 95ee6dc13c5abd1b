"""The script with which the model follows a log: its acts, and runs of the program on it."""
from typing import NamedTuple

from boot_trace.lines import Mark
from boot_trace.words import quoted

from device_log.view import View

# Nexts that a run looks ahead: at first, and at most.
FIRST_LOOK, MOST_LOOK = 1_000, 200_000
MOST_CLIENTS = 64
HEAD = "# Made by device-log of {}: the acts with which the model follows that boot. Each comment has the line of the log that an act is for."


class Act(NamedTuple):
    text: str
    line: int  # of the log
    why: str


NEXT = Act("step 1", 0, "")


class Script:
    """The acts so far. A View of the boot is made when it is asked for."""

    def __init__(self, runs):
        self.runs, self.acts, self.clock = runs, [], 0
        self.look, self.known = FIRST_LOOK, None
        self.count = 0

    @property
    def position(self):
        """The number of the last entry that the script makes: the boot's is 1, and each act makes one more."""
        return len(self.acts) + 1

    def move(self, entry):
        """Goes on to an entry of the look ahead by Nexts."""
        self.acts += [NEXT] * (entry - self.position)

    def add(self, text, line, why):
        self.acts.append(Act(text, line, why))
        if text.startswith("tick "):
            self.clock += int(text.split()[1])
        self.known = None

    def add_set(self, domain, name, value, line, why):
        self.add(f"@{domain} set {quoted(name)} {quoted(value)}", line, why)

    def tick_to(self, clock, line, why):
        if clock > self.clock:
            self.add(f"tick {clock - self.clock}", line, why)

    def mark(self):
        return len(self.acts), self.clock

    def go_back(self, mark):
        count, self.clock = mark
        if count != len(self.acts):
            del self.acts[count:]
            self.known = None

    @property
    def view(self):
        if self.known is None:
            self.known = self.run()
        return self.known

    def run(self):
        """Runs the script with a look ahead that goes to the end of what the model has to do, if it can."""
        while True:
            self.count += 1
            view = View(self.runs.trace(self.text([f"step {self.look}"])))
            if view.end(self.position) is not None or self.look >= MOST_LOOK:
                return view
            self.look = min(self.look * 8, MOST_LOOK)

    def finish(self, reach):
        """Goes on by Nexts to the end of what the model has to do, but not past an entry."""
        entries = self.view.entries[self.position :]
        left = sum(1 for it in entries if it.outputs[-1:] not in ([Mark.IDLE], [Mark.BLOCKED], [Mark.DOWN]))
        self.move(max(self.position, min(self.position + left, reach)))

    def clients(self):
        domains = dict.fromkeys(it.text.split()[0][1:] for it in self.acts if it.text.startswith("@"))
        return [f"client {it} {it}" for it in domains]

    def text(self, more=()):
        return "".join(f"{it}\n" for it in [*self.clients(), *joined_steps(self.acts), *more])

    def commented(self, log_name):
        """The script for people."""
        lines, last = [HEAD.format(log_name), *self.clients()], None
        for text, act in stretches(self.acts):
            if act.why and (act.line, act.why) != last:
                lines.append(f"# line {act.line}: {act.why}")
            last = act.line, act.why
            lines.append(text)
        return "".join(f"{it}\n" for it in lines)


def stretches(acts):
    """The acts, each with its text, and Nexts in a row as one."""
    count = 0
    for act in [*acts, None]:
        if act is NEXT:
            count += 1
            continue
        if count:
            yield f"step {count}", NEXT
        count = 0
        if act is not None:
            yield act.text, act


def joined_steps(acts):
    return [text for text, _ in stretches(acts)]
