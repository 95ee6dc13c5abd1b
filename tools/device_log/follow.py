"""Follows a log with the model: adds act after act to a script, so that the model does what the device did."""
import re
from bisect import bisect_right
from dataclasses import dataclass, field

from boot_trace.lines import Mark
from boot_trace.lives import EXEC, STATES
from boot_trace.runs import Result
from boot_trace.waits import WaitEnd, WaitKind

from device_log.align import common_length
from device_log.rc_tree import OWN_FILES
from device_log.view import NEVER

# How many actions are looked ahead for one that was passed over, and how many back for the place of a set.
COMING, MOST_BACK = 30, 10
MOST_WAITS = 20
# Microseconds and messages within which a control message and the lines of its service stand.
NEAR, NEAR_COUNT = 1_000_000, 24
CONTROLS = ("start", "stop", "restart")
MOST_DEPTH = 3
COLD_BOOT = "ro.cold_boot_done"
EXEC_NAME = re.compile(r"exec (\d+) \((.*)\)", re.DOTALL)
RESTART_SECONDS = 20
# So many milliseconds after the last act, the log's end is another act.
REST = 2_000


@dataclass
class Assumed:
    line: int
    text: str


@dataclass
class Notes:
    """What came of following."""

    begin: int = 0  # the time of the model's beginning, in microseconds
    assumed: list = field(default_factory=list)
    # (indexes of messages: of actions that were found in the model, and of starts that were)
    followed: set = field(default_factory=set)
    starts: dict = field(default_factory=dict)
    ends: dict = field(default_factory=dict)
    unexplained: list = field(default_factory=list)
    lost: list = field(default_factory=list)
    controls: set = field(default_factory=set)
    background: list = field(default_factory=list)
    over: int | None = None

    def copy(self):
        return Notes(*(it if it is None or isinstance(it, int) else type(it)(it) for it in self.__dict__.values()))


class Follower:
    def __init__(self, log, tree, policy, script, keys):
        self.messages, self.tree, self.policy, self.script = log.messages, tree, policy, script
        self.last_time = log.last_time
        # (the model's key of an action by the index of its message)
        self.keys = keys
        self.order = sorted(keys)
        self.notes, self.marks = Notes(next((it.time for it in self.messages if it.kind in ("action", "builtin")), 0)), {}
        self.may_go_back = True

    # -- the walk

    def follow(self):
        for index in range(len(self.messages)):
            if self.notes.over is not None:
                break
            self.take(index)
        self.end_walk()
        return self.notes

    def end_walk(self):
        """Lets the rest of the log's time pass, if it is long, so that what is due comes."""
        clock = max(0, self.last_time - self.notes.begin) // 1000
        if self.notes.over is None and clock - self.script.clock > REST:
            self.script.tick_to(clock, self.messages[-1].line, "the log goes on until then")

    def take(self, index):
        step = STEPS.get(self.messages[index].kind)
        if step:
            step(self, index, self.messages[index])

    def clock(self, message):
        return max(0, message.time - self.notes.begin) // 1000

    def tick(self, message, why, most=NEVER):
        self.script.tick_to(min(self.clock(message), most), message.line, why)

    def coming_indexes(self, index):
        at = bisect_right(self.order, index)
        return self.order[at : at + COMING]

    def coming(self, index):
        """The keys of the next actions in the log."""
        return [self.keys[it] for it in self.coming_indexes(index)]

    def assume(self, line, text):
        self.notes.assumed.append(Assumed(line, text))

    # -- actions

    def action(self, index, message):
        key = self.keys.get(index)
        if key is None:
            return
        self.marks[index] = self.script.mark(), self.notes.copy()
        if self.find(index, key) or self.release(index, key):
            self.notes.followed.add(index)
        elif self.provoke(index, key):
            self.notes.followed.add(index)

    def find(self, index, key):
        """Moves to the action's first command if it is ahead and in order."""
        view, position = self.script.view, self.script.position
        place = view.run_after(position, key)
        if place is None or not self.in_order(index, view.between(position, place), view.runs_after(position)):
            return False
        self.script.move(view.firsts[place])
        return True

    def in_order(self, index, skipped, ahead):
        """Whether to pass over actions: not if the log shows them soon and more of it fits if this one is left out."""
        coming = self.coming(index)
        if not set(skipped) & set(coming):
            return True
        ahead = ahead[: 2 * COMING]
        return 1 + common_length(coming, ahead[len(skipped) + 1 :]) > common_length(coming, ahead)

    def release(self, index, key):
        """Ends waits that must have ended, since the log goes on."""
        for _ in range(MOST_WAITS):
            wait = self.open_wait_ahead(index)
            if wait is None or not self.end_wait(wait, self.messages[index]):
                return False
            if self.find(index, key):
                return True
        return False

    def open_wait_ahead(self, index):
        """The wait at which the model stays, now or before the next action of the log."""
        view, position = self.script.view, self.script.position
        wait = view.open_wait(position, view.boundary(position, set(self.coming(index))))
        return wait if view.end(position) is Mark.BLOCKED and wait is not None and wait.end is WaitEnd.OPEN else None

    def end_wait(self, wait, message):
        """Ends an open wait whose end the log doesn't show; whether it did."""
        if wait.kind is WaitKind.CHILD:
            self.script.move(max(wait.began.entry, self.script.position))
            self.exit(wait.subject, 0, message, "the log goes on, so the program that init waits for had ended")
            self.assume(message.line, f"{wait.value or wait.subject} had ended with status 0, for which {wait.place} waits")
            self.notes.lost.append((message.line, f"the end of {wait.value or wait.subject}"))
            return True
        if wait.kind is WaitKind.FILE:
            self.script.move(max(wait.began.entry, self.script.position))
            self.script.add(f"file {wait.subject} %", message.line, "the log goes on, so the file was there")
            self.assume(message.line, f"{wait.subject} was there, for which {wait.place} waits")
            return True
        if wait.subject.startswith(STATES):
            self.script.move(max(wait.began.entry, self.script.position))
            self.tick(message, "the state of a service that init waits for")
            return self.script.view.open_wait(self.script.position) is not wait
        return self.set(message, wait.subject, wait.value, f"{wait.place} waits for it")

    # -- sets of clients

    def set(self, message, name, value, why, asker=""):
        """Has a client set a property, if a domain may; whether one may."""
        domains = self.policy.setters(name)
        if not domains:
            return False
        chosen = next((it for it in domains if asker and (it == asker or asker in self.policy.homes(it))), domains[0])
        # (no time passes first: a tick would end what was killed, perhaps too early)
        self.script.add_set(chosen, name, value, message.line, why)
        others = f"; {', '.join(it for it in domains if it != chosen)} may too" if len(domains) > 1 else ""
        self.assume(message.line, f"a client had set {name}={value}: {why} ({chosen} may{others})")
        return True

    def provoke(self, index, key, depth=0):
        """Has clients set what the action's triggers need; whether the action then comes."""
        if not self.can_provoke(key):
            return False
        mark = self.script.mark(), self.notes.copy()
        if self.set_triggers(index, key, depth) and (self.find(index, key) or self.release(index, key)):
            return True
        self.restore(mark)
        return depth == 0 and self.may_go_back and self.provoke_before(index, key)

    def can_provoke(self, key):
        """Whether clients' sets could bring the action."""
        triggers = self.tree.triggers[key]
        if triggers.event and not triggers.properties:
            return any(self.tree.triggers[it].properties for it in self.tree.askers(triggers.event))
        return any(self.policy.setters(it) for it in triggers.properties)

    def restore(self, mark):
        self.script.go_back(mark[0])
        self.notes = mark[1].copy()

    def provoke_before(self, index, key):
        """Tries the sets before each earlier action, so that this one comes in its order."""
        before = [it for it in self.order if it < index and it in self.marks]
        latest = self.script.mark(), self.notes.copy()
        self.may_go_back = False
        try:
            for start in before[: -MOST_BACK - 1 : -1]:
                self.restore(self.marks[start])
                if self.set_triggers(index, key, 0) and self.again(start, index, key):
                    return True
        finally:
            self.may_go_back = True
        self.restore(latest)
        return False

    def again(self, start, index, key):
        """Follows the messages from an earlier action on again; whether this one is found then."""
        wanted = [it for it in self.order if start <= it < index and it in self.notes.followed]
        for at in range(start, index):
            self.take(at)
        return all(it in self.notes.followed for it in wanted) and self.find(index, key)

    def set_triggers(self, index, key, depth):
        """Sets what doesn't hold of the action's triggers; whether something was set."""
        triggers, message = self.tree.triggers[key], self.messages[index]
        view, position = self.script.view, self.script.position
        missing = {name: value for name, value in triggers.properties.items() if not view.holds(name, value, position)}
        if not missing and triggers.properties and not triggers.event:
            missing = dict([next((it for it in triggers.properties.items() if self.policy.setters(it[0])), ("", ""))])
        if any(not self.policy.setters(it) for it in missing):
            return False
        for name, value in missing.items():
            self.set(message, name, *self.value_of(index, key, name, value))
        if triggers.event and not missing:
            return depth < MOST_DEPTH and self.ask(index, triggers.event, depth)
        return bool(missing)

    def ask(self, index, event, depth):
        """Has an action come that triggers the event."""
        return any(self.can_provoke(it) and self.set_triggers(index, it, depth + 1) for it in self.tree.askers(event))

    def value_of(self, index, key, name, value):
        """The value that an action needs, for `*` what an `exec` of it shows or else any; and what is said of it."""
        why = f"{self.tree.short(key)} needs it"
        if value != "*":
            return value, why
        shown = self.value_in_exec(index, key, name)
        return (shown, why) if shown else (self.policy.any_value(name), f"{why}, and the log doesn't show the value")

    def value_in_exec(self, index, key, name):
        """The value that a program of the action has among its words."""
        expansion = f"${{{name}}}"
        words = (" ".join(words) for _, words in self.tree.actions[key].lines if words[0] == "exec")
        tails = [re.escape(it.split(" -- ")[-1]).replace(re.escape(expansion), "(.+)") for it in words if expansion in it]
        shown = (EXEC_NAME.fullmatch(it.name) for it in self.messages[index + 1 : index + 1 + NEAR_COUNT] if it.kind == "starting")
        found = (re.fullmatch(tail, it[2]) for it in shown if it for tail in tails)
        return next((it[1] for it in found if it), None)

    def builtin(self, index, message):
        """Before the property triggers are tested, sets all that those need that come then."""
        if message.name != "enable_property_trigger":
            return
        view, position = self.script.view, self.script.position
        tested = view.all_properties()
        if tested <= position or tested == NEVER:
            return
        wanted, last = {}, -1
        for at in self.coming_indexes(index):
            key = self.keys[at]
            triggers, place = self.tree.triggers[key], self.tree.order[key]
            clash = any(wanted.get(name, value) != value for name, value in triggers.properties.items())
            if triggers.event or place <= last or clash:
                break
            wanted.update(triggers.properties)
            last = place
            self.set_before_test(at, message, key, tested)

    def set_before_test(self, at, message, key, tested):
        view = self.script.view
        properties = self.tree.triggers[key].properties
        missing = {name: value for name, value in properties.items() if not view.holds(name, value, tested)}
        if missing and all(self.policy.setters(it) for it in missing):
            for name, value in missing.items():
                wanted, why = self.value_of(at, key, name, value)
                self.set(message, name, wanted, f"{why} when the property triggers are tested")

    # -- starts

    def starting(self, index, message):
        """A start: one that the model has made, one that it makes before the next action, or one that something else explains."""
        name = message.name
        if message.kind == "started" and self.had_start(index, name):
            return
        wanted = EXEC if EXEC_NAME.fullmatch(name) else name
        ways = (self.start_made, self.start_ahead, self.start_by_control, self.start_in_time, self.start_by_end, self.start_released, self.start_crossing, self.start_provoked)
        for way in ways:
            pid = way(index, message, wanted)
            if pid:
                self.notes.starts[index] = pid
                return
        if wanted == EXEC and self.is_background(name):
            self.notes.background.append(index)
            return
        self.notes.unexplained.append(index)

    def had_start(self, index, name):
        """Whether the line `starting` stands before this line `started`; else it is lost."""
        before = next((it for it in reversed(self.messages[max(0, index - 6) : index]) if it.kind in ("starting", "started") and it.name == name), None)
        if before is not None and before.kind == "starting":
            return True
        self.notes.lost.append((self.messages[index].line, f"the start of {name}"))
        return False

    def unmatched(self, name, first, last):
        """The first process of this name that no line of the log has yet, by the entries in which it may have begun."""
        # (what has ended can't start now: its own line is lost)
        taken = set(self.notes.starts.values()) | set(self.notes.ends.values())
        lives = self.script.view.lives
        return next((it for it in lives if it.name == name and it.pid not in taken and first <= it.began.entry <= last), None)

    def start_made(self, index, message, name):
        life = self.unmatched(name, 0, self.script.position)
        return life.pid if life else None

    def start_ahead(self, index, message, name):
        boundary = self.script.view.next_entry(self.script.position)
        life = self.unmatched(name, self.script.position, boundary - 1)
        if life:
            self.script.move(life.began.entry)
            return life.pid
        return None

    def start_by_control(self, index, message, name):
        control = self.control_near(index, name, ("start", "restart", "interface_start", "interface_restart"))
        if control is None or not self.do_control(control, name):
            return None
        return self.start_made(index, message, name)

    def start_in_time(self, index, message, name):
        """A restart that is due."""
        if self.script.view.state(name, self.script.position) != "restarting":
            return None
        self.tick(message, f"{name} is started again")
        pid = self.start_made(index, message, name)
        if pid is None:
            mark = self.script.mark()
            self.script.tick_to(self.script.clock + 1000, message.line, f"{name} is started again")
            pid = self.start_made(index, message, name)
            if pid is None:
                self.script.go_back(mark)
        return pid

    def start_by_end(self, index, message, name):
        """A restart of a service that still runs in the model: the line of its end is lost."""
        life = self.running(name)
        section = self.tree.services.get(name)
        if life is None or section is None or section.has("oneshot") or name == EXEC:
            return None
        mark = self.script.mark(), self.notes.copy()
        self.exit(name, 0, message, f"{name} starts again, so it had ended")
        pid = self.start_in_time(index, message, name)
        if pid is None:
            self.restore(mark)
            return None
        self.notes.lost.append((message.line, f"the end of {name}"))
        self.assume(message.line, f"{name} had ended, since it starts again")
        return pid

    def start_released(self, index, message, name):
        """A start after a wait that must have ended, since the log goes on."""
        mark = self.script.mark(), self.notes.copy()
        for _ in range(MOST_WAITS):
            wait = self.open_wait_ahead(index)
            if wait is None or not self.end_wait(wait, message):
                break
            pid = self.start_ahead(index, message, name)
            if pid:
                return pid
        self.restore(mark)
        return None

    def start_crossing(self, index, message, name):
        """A start of an action whose own line is lost."""
        boundary = self.script.view.boundary(self.script.position, set(self.coming(index)))
        life = self.unmatched(name, self.script.position, boundary - 1)
        if life is None:
            return None
        self.script.move(life.began.entry)
        self.notes.lost.append((message.line, f"the line of the action that starts {name}"))
        return life.pid

    def start_provoked(self, index, message, name):
        """A start by an action whose own line is lost, and which needs a set."""
        for key in self.tree.starters(name):
            triggers = self.tree.triggers[key]
            mark = self.script.mark(), self.notes.copy()
            if not triggers.event and triggers.properties and self.set_triggers(index, key, MOST_DEPTH):
                pid = self.start_crossing(index, message, name)
                if pid:
                    return pid
            self.restore(mark)
        return None

    def is_background(self, name):
        program = EXEC_NAME.fullmatch(name)[2].split(" ")[0]
        return any("exec_background" in words and program in words for words in self.tree.words.values())

    # -- ends

    def running(self, name):
        """The process of this name that runs in the model, none of which the log has the end."""
        ended = set(self.notes.ends.values())
        position = self.script.position
        lives = (it for it in self.script.view.lives if it.name == name and it.pid not in ended and it.began.entry <= position)
        return next(lives, None)

    def ended(self, index, message):
        name = EXEC if EXEC_NAME.fullmatch(message.name) else message.name
        life = self.running(name)
        if life is None:
            return
        self.notes.ends[index] = life.pid
        if message.found["how"].startswith("received"):
            self.move_to_kill(index, life)
        position = self.script.position
        if life.ended is not None and life.ended.entry <= position:
            return
        if life.killed is not None and life.killed.entry <= position:
            self.script.tick_to(max(self.clock(message), self.script.clock), message.line, f"{name}, which was killed, has ended")
            if self.still_runs(life):
                self.script.add("tick 0", message.line, f"{name}, which was killed, has ended")
            return
        status = int(message.found["status"])
        status = status if message.found["how"].startswith("exited") else min(255, 128 + status)
        self.exit(name, status, message, f"{message.name} has ended")

    def still_runs(self, life):
        now = next(it for it in self.script.view.lives if it.pid == life.pid)
        return now.ended is None or now.ended.entry > self.script.position

    def exit(self, name, status, message, why):
        self.tick(message, why)
        self.script.add(f"exit {name} {status}", message.line, why)

    def signal(self, index, message):
        """Init kills a service: what kills it in the model, or explains it."""
        name, pid = message.name, message.found["pid"]
        above = next((it for it in self.messages[max(0, index - 3) : index] if it.kind == "ended" and it.found["pid"] == pid), None)
        life = self.running(name)
        if above is not None or life is None or EXEC_NAME.fullmatch(name):
            return
        if self.move_to_kill(index, life):
            return
        control = self.control_near(index, name, ("stop", "restart", "interface_stop", "interface_restart"))
        if control is not None:
            self.do_control(control, name)
        elif not self.expires(index, message, name):
            self.assume_control(index, message, name)

    def move_to_kill(self, index, life):
        """Moves to where the model kills a process, if that is before the next action; whether it does."""
        view, position = self.script.view, self.script.position
        if life.killed is None or life.killed.entry >= min(view.boundary(position, set(self.coming(index))), view.next_entry(position)):
            return False
        self.script.move(max(position, life.killed.entry))
        return True

    def expires(self, index, message, name):
        before = self.messages[max(0, index - 2) : index]
        if not any(it.kind == "expired" and it.name == name for it in before):
            return False
        self.tick(message, f"{name} has run for its timeout")
        return True

    def assume_control(self, index, message, name):
        """A kill that no line explains."""
        end = message.time + RESTART_SECONDS * 1_000_000
        starts = any(it.kind in ("starting", "started") and it.name == name and it.time < end for it in self.messages[index:])
        what = "ctl.restart" if starts else "ctl.stop"
        if self.set(message, what, name, f"init kills {name}, and no line says why"):
            self.notes.lost.append((message.line, f"the reason why {name} is killed"))

    # -- waits

    def prop_wait(self, index, message):
        name, value = message.name, message.found["value"]
        if name == COLD_BOOT:
            return
        wait = self.wait_ahead(index, WaitKind.PROPERTY, name)
        if wait is None:
            return
        self.script.move(max(wait.began.entry, self.script.position))
        if name.startswith(STATES):
            self.tick(message, f"{wait.place} waited for {name}={value}")
        else:
            self.set(message, name, value, f"{wait.place} waited for it")

    def wait_ahead(self, index, kind, subject):
        """The open wait for this, now or before the next action."""
        view, position = self.script.view, self.script.position
        wait = view.open_wait(position, view.boundary(position, set(self.coming(index))))
        return wait if wait and wait.end is WaitEnd.OPEN and wait.kind is kind and wait.subject == subject else None

    def prop_there(self, index, message):
        name, value = message.name, message.found["value"]
        if self.wait_ahead(index, WaitKind.PROPERTY, name):
            self.set(message, name, value, "a wait_for_prop found it set")

    def file_wait(self, index, message):
        wait = self.wait_ahead(index, WaitKind.FILE, message.found["path"])
        if wait is None:
            return
        self.script.move(max(wait.began.entry, self.script.position))
        until = wait.until - self.script.clock
        if message.found["out"]:
            self.script.add(f"tick {until}", message.line, f"{wait.place} waited for {wait.subject} in vain")
            return
        self.tick(message, f"{wait.subject} comes", wait.until - 1)
        self.script.add(f"file {wait.subject} %", message.line, f"{wait.place} waited for it")
        open_still = self.script.view.open_wait(self.script.position)
        if open_still is not None and open_still.began.entry == wait.began.entry and open_still.end is WaitEnd.OPEN:
            self.script.add(f"tick {wait.until - self.script.clock}", message.line, f"the model's tree can't have {wait.subject}")

    # -- control messages

    def control_near(self, index, name, whats):
        """The control message, near this line, that asks for this service."""
        names = {name} | self.tree.interfaces(name)
        time = self.messages[index].time
        for at in range(max(0, index - NEAR_COUNT), min(len(self.messages), index + NEAR_COUNT)):
            it = self.messages[at]
            is_control = it.kind == "control" and at > index or it.kind == "control_first" and at < index
            if is_control and abs(it.time - time) < NEAR and at not in self.notes.controls and it.name in names and it.found["what"] in whats:
                return at
        return None

    def do_control(self, at, name):
        """The set of a control message; whether it could be made."""
        self.notes.controls.add(at)
        message = self.messages[at]
        what = message.found["what"].removeprefix("interface_")
        process = message.found["process"].rsplit("/", 1)[-1]
        asker = {"sh": "shell"}.get(process, process)
        if what not in CONTROLS or not self.policy.setters(f"ctl.{what}"):
            return False
        mark = len(self.notes.assumed)
        self.set(message, f"ctl.{what}", name, "a control message", asker)
        # (the log shows this one)
        del self.notes.assumed[mark:]
        return True

    def control(self, index, message):
        if index in self.notes.controls:
            return
        name = message.name
        service = next((it for it in self.tree.services if name in self.tree.interfaces(it)), name)
        if service in self.tree.services:
            self.do_control(index, service)

    # -- anchors, and the end

    def command(self, index, message):
        """A command that failed or was slow is where the boot is."""
        number = self.tree.number_of(message.found["file"], int(message.found["number"]))
        if number is None or message.found["file"] in OWN_FILES:
            return
        view, position = self.script.view, self.script.position
        boundary = view.boundary(position, set(self.coming(index)))
        ran = next((it for it in view.boot.commands if position < it.moment.entry < boundary and (it.file, it.line) == (message.found["file"], number)), None)
        if ran is not None and ran.action is not None and ran.result is not Result.WAITED:
            self.script.move(ran.moment.entry)

    def powerctl(self, index, message):
        self.notes.over = index


STEPS = {
    "action": Follower.action,
    "builtin": Follower.builtin,
    "starting": Follower.starting,
    "started": Follower.starting,
    "ended": Follower.ended,
    "signal": Follower.signal,
    "prop_wait": Follower.prop_wait,
    "prop_there": Follower.prop_there,
    "file_wait": Follower.file_wait,
    "control": Follower.control,
    "control_first": Follower.control,
    "command": Follower.command,
    "powerctl": Follower.powerctl,
}
