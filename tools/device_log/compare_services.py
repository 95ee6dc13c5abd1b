"""Compares the starts and ends of services, and the waits."""
from collections import defaultdict

from boot_trace import lines as form
from boot_trace.lives import EXEC

from device_log.follow import COLD_BOOT, EXEC_NAME

LOOP = 3
# So many milliseconds after a restart is due, it is late.
LATE = 1_000
LONG_WAIT = 5_000
# The signals that init itself sends: the line that says so may be lost.
OWN_SIGNALS = ("9", "15")


class Starts:
    """The processes that started: each line of the log has one of the model's, or none."""

    def __init__(self, compared, actions):
        self.all, self.tree, self.view = compared, compared.tree, compared.view
        self.actions = actions
        self.owners = {}
        for index, run in actions.pairs.items():
            self.owners[id(run)] = compared.messages[index]
        matched = set(compared.notes.starts.values())
        self.alone_in_model = [it for it in self.view.lives if it.pid not in matched and it.began.entry <= compared.reach and self.is_claimed(it)]
        self.alone_in_log = [it for it in compared.notes.unexplained if it < len(compared.messages)]

    def is_claimed(self, life):
        """Whether a process of the model began where the log shows what happened."""
        if not self.all.has_beginning and self.actions.paired_places:
            return life.began.entry > self.actions.runs[self.actions.paired_places[0]][0]
        return True

    def compare(self):
        self.pair_by_name()
        for life in self.alone_in_model:
            self.find_in_model(life)
        self.find_in_log()
        for index, run in self.actions.pairs.items():
            self.find_order(index, run)

    def pair_by_name(self):
        """A start at another place on both sides is one start."""
        for index in list(self.alone_in_log):
            name = self.name_of(index)
            life = next((it for it in self.alone_in_model if it.name == name), None)
            if life is not None:
                self.alone_in_log.remove(index)
                self.alone_in_model.remove(life)
                if name != EXEC and self.all.is_whole:
                    place = getattr(life.started_by, "place", "a restart")
                    self.all.add(self.all.messages[index].line, "order", f"{name} starts here, and in the model by {place}")

    def name_of(self, index):
        name = self.all.messages[index].name
        return EXEC if EXEC_NAME.fullmatch(name) else name

    def run_of(self, life):
        return getattr(life.started_by, "action", None)

    def find_in_model(self, life):
        run = self.run_of(life)
        if isinstance(life.started_by, form.Tick):
            self.find_restart(life)
            return
        owner = self.owners.get(id(run)) if run is not None else None
        if owner is None:
            # (a consequence: its action, or the client's set, isn't in the log)
            return
        command = life.started_by
        what = f"exec of {life.path}" if life.name == EXEC else life.name
        text = f"{what}: {command.text} at {command.place} starts it in the model{self.others(life, run)}"
        self.all.add_absent(owner.line, "never-started", text)

    def find_restart(self, life):
        """A restart of the model's alone: the log has the end before it, and goes on for long enough after it was due."""
        before = [it.pid for it in self.view.lives if it.name == life.name and it.pid < life.pid]
        ends = [self.all.messages[index] for index, pid in self.all.notes.ends.items() if before and pid == before[-1]]
        if not ends or life.name in self.looping():
            return
        left = (self.all.log.last_time - ends[-1].time) // 1000
        if left > self.tree.restart_period(life.name) * 1000 + LATE:
            self.all.add_absent(ends[-1].line, "restart", f"{life.name} isn't started again on the device, and is in the model")

    def looping(self):
        return {it.text.split(" ")[0] for it in self.all.findings if it.kind in ("loop", "critical")}

    def others(self, life, run):
        """What is said of the other services of a class."""
        command = life.started_by
        spawned = [it for it in self.view.lives if it.started_by is command]
        if command.word != "class_start" or len(spawned) < 2:
            return ""
        missing = [it for it in spawned if it in self.alone_in_model]
        return "; all others of its class started" if len(missing) == 1 else f"; {len(missing)} of {len(spawned)} of its class didn't start"

    def find_in_log(self):
        for index in self.alone_in_log:
            message = self.all.messages[index]
            name = self.name_of(index)
            if self.is_consequence(index, name):
                continue
            if not self.all.is_whole and (self.tree.starters(name) or name == EXEC):
                self.all.known["what isn't in the log, of which lines are lost"] += 1
            elif any(it.name == name for it in self.view.lives):
                self.all.add(message.line, "restart", f"{message.name} starts once more on the device than in the model")
            else:
                self.all.add(message.line, "started", f"{message.name} starts on the device alone{self.why_not(name)}")

    def is_consequence(self, index, name):
        """Whether the start follows from an action that is in the log alone, or from a file that isn't in ROOT."""
        if self.all.hang is not None and index > self.all.hang:
            return False
        before = [it for it in range(index) if self.all.messages[it].kind == "action"]
        if not before:
            return False
        last = before[-1]
        if last in self.all.places.foreign or last in self.all.places.misplaced:
            return True
        key = self.all.places.keys.get(last)
        if name not in self.tree.services and self.all.places.foreign:
            return True
        return last in self.actions.alone_in_log and key in self.tree.starters(name)

    def why_not(self, name):
        if name == EXEC:
            return ""
        return "" if name in self.tree.services else "; ROOT has no service of this name"

    def find_order(self, index, run):
        """The order in which the commands of one run start processes."""
        own = {output.pid for command in run.commands for _, output in command.effects if type(output) is form.Spawn}
        seen = [(at, pid) for at, pid in self.all.notes.starts.items() if pid in own]
        seen.sort()
        for (_, before), (at, pid) in zip(seen, seen[1:]):
            if pid < before:
                names = {it.pid: it.name for it in self.view.lives}
                text = f"{names[pid]} starts after {names[before]} at {self.tree.place((run.file, run.line))}, and before it in the model"
                self.all.add(self.all.messages[at].line, "order", text)
                return


class Ends:
    """The processes that ended, and how."""

    def __init__(self, compared):
        self.all, self.tree, self.view = compared, compared.tree, compared.view
        self.lives = {it.pid: it for it in self.view.lives}
        self.killed = {it.found["pid"] for it in self.signals()}

    def signals(self):
        """The lines by which init kills a process that hasn't ended."""
        ended = set()
        for it in self.all.messages:
            if it.kind == "ended":
                ended.add(it.found["pid"])
            elif it.kind == "signal" and it.found["pid"] not in ended:
                yield it

    def compare(self):
        own = [(index, it) for index, it in enumerate(self.all.messages) if it.kind == "ended" and not self.is_by_init(index, it)]
        by_name = defaultdict(list)
        for _, it in own:
            by_name[it.name].append(it)
        critical = self.find_critical()
        for name, ends in by_name.items():
            if name not in critical:
                self.find_ends(name, ends)
        for it in self.all.messages:
            if it.kind == "expired":
                self.all.add(it.line, "timeout", f"{it.name} ran longer than its timeout of {it.found['seconds']} s")

    def is_by_init(self, index, message):
        life = self.lives.get(self.all.notes.ends.get(index))
        return message.found["pid"] in self.killed or life is not None and life.killed is not None

    def find_critical(self):
        found = set()
        for it in self.all.messages:
            if it.kind == "critical":
                found.add(it.name)
                self.all.add(it.line, "critical", f"{it.name} exited once too often {it.found['when']}: the device goes down")
            elif it.kind == "reboot_on_failure":
                found.add(it.name)
                self.all.add(it.line, "critical", f"{it.name} has reboot_on_failure, and failed: the device goes down")
        reboot = next((entry for entry in self.view.entries if any(type(it) is form.Reboot for it in entry.outputs)), None)
        if reboot is not None and not found and reboot.number <= self.all.position:
            name = next(it.name for it in reversed(reboot.outputs) if type(it) is form.Reap)
            found.add(name)
            line = max((it.line for it in self.all.messages if it.kind == "ended" and it.name == name), default=self.all.messages[-1].line)
            self.all.add_absent(line, "critical", f"{name} ends once too often in the model, which goes down; the device goes on")
        return found

    def find_ends(self, name, ends):
        signals = [it for it in ends if it.found["how"].startswith("received")]
        if EXEC_NAME.fullmatch(name) or any(it.found["waited"] for it in ends):
            for it in ends:
                if it in signals or it.found["status"] != "0":
                    self.all.add(it.line, "status", f"{name}, for which init waited, {how(it)}")
        elif len(ends) >= LOOP and not self.is_oneshot(name):
            self.all.add(ends[LOOP - 1].line, "loop", f"{name} ended {len(ends)} times; here it {how(ends[LOOP - 1])}")
        else:
            for it in signals:
                if not self.all.is_whole and it.found["status"] in OWN_SIGNALS:
                    self.all.known["what isn't in the log, of which lines are lost"] += 1
                else:
                    self.all.add(it.line, "crash", f"{name} {how(it)}, which init didn't send")

    def is_oneshot(self, name):
        return name in self.tree.services and self.tree.services[name].has("oneshot")


def how(message):
    return f"{message.found['how']} {message.found['status']}"


class Waits:
    """The waits that were long, that ran out, or that are open."""

    def __init__(self, compared):
        self.all, self.view = compared, compared.view

    def compare(self):
        for index, it in enumerate(self.all.messages):
            if it.kind == "file_wait" and it.found["out"]:
                self.all.add(it.line, "wait", f"the time ran out for {it.found['path']}, after {it.found['took']} ms")
            elif it.kind in ("file_wait", "prop_wait") and int(it.found["took"]) > LONG_WAIT and it.name != COLD_BOOT:
                what = it.found.get("path") or f"{it.name}={it.found['value']}"
                self.all.add(it.line, "wait", f"init waited {it.found['took']} ms for {what}")
            elif it.kind == "ended" and it.found["waited"] and float(it.found["waited"]) * 1000 > LONG_WAIT:
                self.all.add(it.line, "wait", f"init waited {float(it.found['waited']):.1f} s for {it.name}")

    def find_hang(self):
        """A wait that is open at the log's end."""
        messages = self.all.messages
        last = max((index for index, it in enumerate(messages) if it.kind in ("action", "builtin", "waiting")), default=None)
        if last is None:
            return
        message = messages[last]
        if message.kind == "waiting":
            ended = any(it.kind == "ended" and it.found["pid"] == message.found["pid"] for it in messages[last:])
            if not ended:
                self.add_hang(last, message, message.name)
        else:
            wait = self.view.open_wait(self.all.position)
            # (a wait for a property has no line of its own when it begins)
            if wait is not None and wait.subject != "*exec" and self.view.end(self.all.position) is not None and wait.end.value == "open":
                self.add_hang(last, message, wait.what)

    def add_hang(self, index, message, what):
        seconds = (self.all.log.last_time - message.time) / 1e6
        if seconds * 1000 <= LONG_WAIT:
            return
        self.all.hang = index
        wait = self.view.open_wait(self.all.position)
        place = f" at {wait.place}" if wait is not None and wait.place else ""
        self.all.add(message.line, "hang", f"{what}{place}, open for {seconds:.1f} s to the end of the log; what would follow isn't compared")
