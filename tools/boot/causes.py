"""Why something of a boot is as it is: what init was waiting for, and which line should have started a service and didn't run."""
import difflib
from functools import cached_property

from boot_trace.lines import Boot as BootHead, Reboot, Set, Tick
from boot_trace.lives import Ending
from boot_trace.runs import CommandRun, EventKind, Result
from boot_trace.sources import Sources
from boot_trace.waits import WaitKind

from boot.standing import COMPLETED, awaited

MOST_EVENTS = 20
# The events that init queues itself.
OWN_EVENTS = ("early-init", "init")


class Causes:
    """What is to be said of a boot that stands somewhere, with the rc files of its tree."""

    def __init__(self, standing, root):
        self.now, self.root = standing, root
        # (whether acts are left out before this)
        self.is_cut = False
        self.boot = standing.cut()

    @cached_property
    def sources(self):
        return Sources(self.root)

    @cached_property
    def lines(self):
        """Each command of an action: its place, its words, and its section. Without a tree none is known."""
        if self.root is None:
            return []
        sections = (it for file in self.sources.files for it in self.sources.sections(file) if it.words[0] == "on")
        return [(f"{it.file}:{number}", words, it) for it in sections for number, words in it.lines]

    @cached_property
    def ran(self):
        """The last run of each command, by its place."""
        return {it.place: it for it in self.boot.commands}

    # -- init

    def init(self):
        """What init does then, or did when the boot was said to be complete."""
        if self.now.is_over:
            return self.reboot()
        completed = self.now.held(COMPLETED)
        wait = self.wait_at(completed.moment.line) if completed else None
        if wait:
            return f"init was waiting at {at_wait(wait)} when {COMPLETED} was set (trace line {completed.moment.line})"
        if self.now.wait:
            return f"init is waiting at {at_wait(self.now.wait)}, trace line {self.now.wait.began.line}{self.why_open(self.now.wait)}"
        if not self.now.is_idle:
            return "init has something left to do (trace line {})".format(self.now.entry.line)
        return "init is idle" if completed else f"init is idle, and {COMPLETED} was never set"

    def wait_at(self, line):
        return next((it for it in self.boot.waits if it.began.line < line and (it.ended is None or line < it.ended.line)), None)

    def why_open(self, wait):
        """What should have ended the wait and didn't: a set that was refused, or a line that init comes to only after it."""
        sets = [it for it in self.boot.refused if (it.name, it.value) == (wait.subject, wait.value) and it.moment.line > wait.began.line]
        if sets:
            return f"; {sets[0].by} asked for it, and was refused: {sets[0].refusal}"
        later = [it for it in self.lines if ends(it[1], wait) and it[0] not in self.ran]
        return f"; {later[0][0]} ({' '.join(later[0][1])}) would end this, and init runs nothing while it waits" if later else ""

    def reboot(self):
        life = self.now.fatal_life
        entry = self.boot.trace.entries[life.ended.entry - 1]
        target = next(it.target for it in entry.outputs if isinstance(it, Reboot))
        return f"the machine rebooted to {target} when the critical {life.name} {end_of(life)}"

    # -- services

    def service(self, name):
        """What became of a service, and why."""
        lives = self.boot.services.get(name, [])
        if not lives:
            return self.never_started(name)
        state, last = self.now.service(name), lives[-1]
        if state == "running":
            return f"{name} is running (trace line {last.began.line})"
        if last.ending is Ending.EXITED:
            return f"{name} {end_of(last)}, and is {state}"
        return f"{name} was killed by {by(last.killed_by)} (trace line {last.killed.line}), and is {state}"

    def never_started(self, name):
        if name not in self.sources.services:
            likely = difflib.get_close_matches(name, self.sources.services, 1)
            return f"{name} never started: no rc file declares such a service" + (f" ({likely[0]}?)" if likely else "")
        starters = self.starters(name)
        if not starters:
            return f"{name} never started: no action starts it"
        place, words, section = next((it for it in starters if it[0] not in self.ran), starters[0])
        return f"{name} never started: {place} ({' '.join(words)}) {self.outcome(place, section)}"

    def starters(self, name):
        """The lines of actions that would start the service."""
        service = self.sources.services[name]
        classes = [] if service.has("disabled") else service.classes
        return [it for it in self.lines if starts(it[1], name, classes)]

    def outcome(self, place, section):
        """What became of a line of an action."""
        command = self.ran.get(place)
        if command is not None:
            return f"failed: {command.cause}" if command.result is Result.FAILED else f"ran (trace line {command.moment.line})"
        if any(it.place == section.place for it in self.boot.actions):
            return "hasn't run yet"
        return f"didn't run, since {self.never_began(section)}"

    def never_began(self, section, depth=0):
        """Why an action didn't begin."""
        event = next((it for it in section.words[1:] if it != "&&" and not it.startswith("property:")), None)
        taken = [it for it in self.boot.events if it.kind is EventKind.NAMED and it.name == event]
        if event is None or taken:
            return f"`on {section.trigger}` never held"
        if event == "late-init" and self.now.value("ro.bootmode") == "charger":
            return "late-init never comes when ro.bootmode is charger"
        triggers = [it for it in self.lines if it[1] == ["trigger", event]]
        if event == "late-init" or any(it[0] in self.ran for it in triggers):
            return f"{event} hasn't come yet"
        if not triggers or depth == MOST_EVENTS:
            return f"nothing triggers {event}"
        place, _, above = triggers[0]
        begun = any(it.place == above.place for it in self.boot.actions)
        return f"{place} (trigger {event}) hasn't run" if begun else self.never_began(above, depth + 1)

    # -- properties

    def prop(self, name):
        """The value of a property, and who gave it; if there is none, which line would have set it."""
        held = self.now.held(name)
        if held:
            return f"{name} is {held.value or 'empty'}, set {self.setter(held)} (trace line {held.moment.line})"
        setters = [it for it in self.lines if it[1][:2] == ["setprop", name]]
        if not setters:
            return f"{name} was never set"
        place, words, section = next((it for it in setters if it[0] not in self.ran), setters[0])
        return f"{name} was never set: {place} ({' '.join(words)}) {self.outcome(place, section)}"

    def setter(self, held):
        command = next((it for it in self.boot.commands if any(line == held.moment.line for line, _ in it.effects)), None)
        entry = self.boot.trace.entries[held.moment.entry - 1]
        return f"by {by(command or entry.head)}"


def starts(words, name, classes):
    """Whether a command starts the service, which its classes start."""
    if words[0] in ("start", "restart", "exec_start", "enable"):
        return words[-1] == name
    if words[0] in ("class_start", "class_restart"):
        return words[-1] in classes
    return words[0] == "setprop" and words[1:] in (["ctl.start", name], ["ctl.restart", name])


# The commands that make something in the tree, with the place of its path among their words.
MAKERS = {"write": 1, "mkdir": 1, "copy": 2, "symlink": 2}


def ends(words, wait):
    """Whether a command would bring what a wait is for."""
    if wait.kind is WaitKind.PROPERTY:
        return words[:2] == ["setprop", wait.subject] and len(words) == 3 and (words[2] == wait.value or "${" in words[2])
    place = MAKERS.get(words[0], len(words))
    return wait.kind is WaitKind.FILE and place < len(words) and words[place] == wait.subject


def at_wait(wait):
    return f"{wait.place} ({awaited(wait)})"


def end_of(life):
    return f"exited with the status {life.status} (trace line {life.ended.line})" if life.status is not None else f"was killed (trace line {life.ended.line})"


def by(who):
    """Who brought something about, in words."""
    if isinstance(who, CommandRun):
        return f"{who.place} ({who.text})"
    if isinstance(who, Set):
        return f"a client's set of {who.name}"
    if isinstance(who, BootHead):
        return "the build files"
    return "a timeout or restart that was due" if isinstance(who, Tick) else "init"
