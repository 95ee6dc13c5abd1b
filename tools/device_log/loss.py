"""Which lines of init's a log has lost: by marks, and by lines whose partners are missing."""
import re

from device_log.rc_tree import OWN_FILES

EXEC_NUMBER = re.compile(r"exec (\d+) \(")
AFTER_START, AFTER_END = 4, 4
# If so few of the ends have the line by which init clears the process group, that line is none that the version has.
MOST_WITHOUT = 0.5
FOLLOWED = 0.93


class Losses:
    """What is known to be lost: each with the line of the log at which it shows."""

    def __init__(self, log, tree, places, notes):
        self.log, self.tree, self.places = log, tree, places
        self.found = list(notes.lost)
        self.marks = [(it.line, it.text) for it in log.of("dropped", "suppressed", "too_long")]
        self.look()
        self.add_unfollowed(len(notes.followed), len(places.keys))

    @property
    def is_whole(self):
        return not self.found and not self.marks

    def add(self, line, what):
        self.found.append((line, what))

    def look(self):
        self.look_at_starts()
        self.look_at_execs()
        self.look_at_ends()
        self.look_at_files()
        self.look_at_builtins()

    def add_unfollowed(self, count, of):
        """A walk that follows few actions has lost its way, which lost lines do."""
        if of and count < FOLLOWED * of:
            self.add(self.log.messages[-1].line, f"{of - count} of {of} actions can't be followed")

    def look_at_starts(self):
        """Init says that it starts a service, and newer ones that they have started it."""
        messages = self.log.messages
        if not self.log.of("started"):
            return
        for index, it in enumerate(messages[:-1]):
            if it.kind == "starting" and not any(a.kind == "started" and a.name == it.name for a in messages[index + 1 : index + 1 + AFTER_START]):
                self.add(it.line, f"the pid of {it.name}")

    def look_at_execs(self):
        """Programs of `exec` are counted, and one that init waits for was started before."""
        numbers = []
        started = set()
        for it in self.log.messages:
            if it.kind in ("starting", "started"):
                started.add(it.name)
                found = EXEC_NUMBER.match(it.name)
                numbers += [(int(found[1]), it)] if found and it.kind == "starting" else []
            elif it.kind == "waiting" and it.name not in started:
                self.add(it.line, f"the start of {it.name}")
        for (before, _), (number, it) in zip(numbers, numbers[1:]):
            if number > before + 1:
                self.add(it.line, f"the start of exec {before + 1}")

    def look_at_ends(self):
        """What ends has started, and its process group is cleared."""
        messages, running = self.log.messages, set()
        # (older ones don't clear the group of a oneshot service)
        lasting = {name for name, it in self.tree.services.items() if not it.has("oneshot")}
        ends = [(index, it) for index, it in enumerate(messages) if it.kind == "ended" and it.name in lasting]
        uncleared = [it for index, it in ends if not clears(messages[index + 1 : index + 1 + AFTER_END], it)]
        if len(uncleared) < MOST_WITHOUT * len(ends):
            for it in uncleared:
                if it is not ends[-1][1]:
                    self.add(it.line, f"what follows the end of {it.name}")
        for it in messages:
            if it.kind in ("starting", "started"):
                running.add(it.name)
            elif it.kind == "ended":
                if it.name not in running:
                    self.add(it.line, f"the start of {it.name}")
                running.discard(it.name)

    def look_at_files(self):
        """A file whose actions run, or whose services start, was read."""
        read = {it.found["file"] for it in self.log.of("parsing")}
        if len(read) < 2:
            return
        used = {}
        for index, key in self.places.keys.items():
            used.setdefault(key[0], self.log.messages[index].line)
        for it in self.log.of("starting", "started"):
            service = self.tree.services.get(it.name)
            if service:
                used.setdefault(service.section.file, it.line)
        for file, line in used.items():
            if file not in read and file not in OWN_FILES:
                self.add(line, f"the reading of {file}")
        imports = self.log.of("import")
        folders = {it.found["file"] for it in self.log.of("parsing_folder")}
        for it in imports:
            if it.found["file"] not in read | folders:
                self.add(it.line, f"the reading of {it.found['file']}")

    def look_at_builtins(self):
        """Init queues the test of the property triggers before it makes it."""
        tests = {it.name: it.line for it in self.log.of("builtin")}
        if "enable_property_trigger" in tests and "queue_property_triggers" not in tests:
            self.add(tests["enable_property_trigger"], "init's action queue_property_triggers")


def clears(following, end):
    return any(it.kind == "signal" and it.found["pid"] == end.found["pid"] for it in following)
