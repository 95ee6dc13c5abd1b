"""Compares the actions that ran, and their order."""
from boot_trace import lines as form
from boot_trace.runs import EventKind

from device_log import align
from device_log.rc_tree import OWN_FILES

BOOT_EVENTS = ("early-init", "init", "late-init", "charger")


class Actions:
    def __init__(self, compared):
        self.all, self.tree, self.view = compared, compared.tree, compared.view
        self.runs = self.view.runs
        left = [compared.places.keys[it] for it in compared.actions]
        right = [it[1:3] for it in self.runs]
        found = align.pairs(left, right)
        # (by the index of a message: the run)
        self.pairs = {compared.actions[i]: self.runs[j][3] for i, j in found}
        self.paired_places = [j for _, j in found]
        self.alone_in_log = [it for it in compared.actions if it not in self.pairs]
        reach = compared.reach
        first = self.paired_places[0] if found and not compared.has_beginning else 0
        paired = set(self.paired_places)
        self.alone_in_model = [place for place in range(first, len(self.runs)) if place not in paired and self.runs[place][0] <= reach]
        self.lines = {id(run): compared.messages[index].line for index, run in self.pairs.items()}

    def compare(self):
        self.find_order()
        self.find_in_log()
        self.find_in_model()

    def note_lost(self):
        """If a run of the model's alone starts what the log starts at its place, the line of the action is lost."""
        indexes = {id(run): index for index, run in self.pairs.items()}
        for place in self.alone_in_model:
            before = [indexes[id(self.runs[it][3])] for it in self.paired_places if it < place]
            after = [indexes[id(self.runs[it][3])] for it in self.paired_places if it > place]
            first, last = max(before, default=-1), min(after, default=len(self.all.messages))
            names = {it.name for it in self.starts_of(self.runs[place][3])}
            for index in self.all.notes.unexplained:
                message = self.all.messages[index] if first < index < last else None
                if message is not None and message.name in names:
                    self.all.losses.add(message.line, f"the line of the action that starts {message.name}")

    def find_order(self):
        """What runs on both sides, and at different places."""
        for index in list(self.alone_in_log):
            key = self.all.places.keys[index]
            place = next((it for it in self.alone_in_model if self.runs[it][1:3] == key), None)
            if place is None:
                continue
            self.alone_in_log.remove(index)
            self.alone_in_model.remove(place)
            self.lines[id(self.runs[place][3])] = self.all.messages[index].line
            text = f"{self.tree.place(key)} runs {self.after_in_log(index)}, and in the model {self.after_in_model(place)}"
            self.all.add(self.all.messages[index].line, "order", text)

    def after_in_log(self, index):
        before = [it for it in self.all.actions if it < index]
        return f"after {self.tree.short(self.all.places.keys[before[-1]])}" if before else "first"

    def after_in_model(self, place):
        return f"after {self.tree.short(self.runs[place - 1][1:3])}" if place else "first"

    # -- in the log alone

    def find_in_log(self):
        causes = []
        for index in self.alone_in_log:
            key = self.all.places.keys[index]
            cause = next((it for it, other in reversed(causes) if self.brings(other, key)), None)
            if cause is not None:
                cause.consequences.append(f"{self.tree.short(key)} (line {self.all.messages[index].line})")
                causes.append((cause, key))
            elif self.is_of_unmodelled(key):
                self.all.known["actions by words that the model doesn't act on"] += 1
            else:
                why = self.why_not(key)
                made = self.all.add(self.all.messages[index].line, "action", f"{self.tree.place(key)} runs on the device alone: {why}")
                causes.append((made, key))
        for index in self.all.places.misplaced:
            message = self.all.messages[index] if index < len(self.all.messages) else None
            if message is not None:
                self.all.add(message.line, "action", f"no `on {message.found['triggers']}` is at {message.found['file']}:{message.found['number']} of ROOT")

    def brings(self, key, other):
        """Whether an action's commands bring another one about."""
        triggers = self.tree.triggers[other]
        for _, words in self.tree.actions[key].lines:
            if words == ["trigger", triggers.event] or words[0] == "setprop" and len(words) == 3 and triggers.properties.get(words[1]) in ("*", words[2]):
                return True
        return False

    def is_of_unmodelled(self, key):
        triggers = self.tree.triggers[key]
        event = triggers.event
        return bool(event) and event not in BOOT_EVENTS and not self.tree.askers(event) and any("mount_all" in words[:1] for words in self.tree.words.values())

    def why_not(self, key):
        triggers = self.tree.triggers[key]
        position = self.all.position
        missing = [f"{name}={value}" for name, value in triggers.properties.items() if not self.view.holds(name, value, position)]
        nobody = [name for name in triggers.properties if not self.all.policy.setters(name)]
        if triggers.event and not self.tree.askers(triggers.event) and triggers.event not in BOOT_EVENTS:
            return f"nothing in ROOT triggers {triggers.event}"
        if missing and nobody:
            return f"{', '.join(missing)} isn't so in the model, and no domain may set {', '.join(nobody)}"
        if missing:
            return f"{', '.join(missing)} isn't so in the model"
        return f"the model has no {triggers.text} here"

    # -- in the model alone

    def find_in_model(self):
        alone = {id(self.runs[it][3]) for it in self.alone_in_model}
        owners = Owners(self.view.boot)
        made = {}
        for place in self.alone_in_model:
            entry, file, number, run = self.runs[place]
            owner = owners.of(run)
            if owner is not None and id(owner) in alone:
                self.add_consequence(made.get(id(owner)), place)
                made[id(run)] = made.get(id(owner))
                continue
            if self.is_after_hang(entry):
                continue
            made[id(run)] = self.all.add_absent(self.line_for(place), "action", f"{self.tree.place((file, number))} runs in the model alone: {self.tree.triggers[file, number].text}")
            if made[id(run)] is not None:
                made[id(run)].consequences += [f"{it.name} starts there alone" for it in self.starts_of(run)]

    def add_consequence(self, finding, place):
        if finding is not None:
            finding.consequences.append(self.tree.short(self.runs[place][1:3]))

    def is_after_hang(self, entry):
        return self.all.hang is not None and entry > self.all.position

    def starts_of(self, run):
        """The processes that the run starts in the model, and which the log hasn't."""
        matched = set(self.all.notes.starts.values())
        effects = [output for command in run.commands for _, output in command.effects if type(output) is form.Spawn]
        return [it for it in effects if it.pid not in matched]

    def line_for(self, place):
        """The line of the log before which a run should have come."""
        after = next((j for j in self.paired_places if j > place), None)
        if after is None:
            return self.all.messages[-1].line
        run = self.runs[after][3]
        return self.lines[id(run)]


class Owners:
    """Which run of an action queued the event that began another."""

    def __init__(self, boot):
        self.by_event = {}
        triggers, sets = {}, {}
        for command in boot.commands:
            if command.word == "trigger" and command.action is not None and command.action.file not in OWN_FILES:
                triggers.setdefault(command.arguments[0], []).append(command.action)
            for _, output in command.effects:
                if type(output) is form.Put and command.action is not None:
                    sets.setdefault((output.name, output.value), []).append(command.action)
        for event in boot.events:
            queue = triggers.get(event.name) if event.kind is EventKind.NAMED else sets.get((event.name, event.value))
            self.by_event[id(event)] = queue.pop(0) if queue and event.kind is not EventKind.ALL_PROPERTIES else None

    def of(self, run):
        return self.by_event.get(id(run.event)) if run.event is not None else None
