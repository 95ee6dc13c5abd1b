"""Compares commands that failed, sets that were refused, files that were read, and lines of rc files that were refused."""
import re

from boot_trace.failures import is_kernel_path
from boot_trace.lines import Mark
from boot_trace.properties import Setter
from boot_trace.runs import Result
from product.device import normal
from product.rc import EMPTY
from product.texts import expand

from device_log import lines
from device_log.rc_tree import OWN_FILES

NOT_IMPORTED = re.compile(r"Could not import file '(.*?)'")
ONRESTART = re.compile(r"<Service '(.*)' onrestart>")
# Refusals of a line that both inits have. (A build file's line, a cut file and a circle of imports have no line in a log.)
REFUSED_KINDS = frozenset("NoTrigger BadTrigger TwiceProp BadWord BadArity BadOption BadService ServiceAgain BadImport NoFile".split())
PATH = re.compile(r"/[^\s'\"]*")
# The model's tree lacks what isn't made: these fail in it, and not on a device.
UNLOGGED = ("Tree", "Absent", "Set")
# The users of processes by which a refused set's domain is known.
SHELL_USER, FIRST_APP = 2000, 10_000


class Commands:
    def __init__(self, compared, actions):
        self.all, self.tree, self.view, self.actions = compared, compared.tree, compared.view, actions

    def compare(self):
        self.failed = set()
        for index, it in enumerate(self.all.messages):
            if it.kind == "command":
                self.look_at(it)
            elif it.kind == "init_refused":
                self.look_at_set(it)
        self.find_in_model()

    def look_at(self, message):
        key = self.key_of(message)
        self.failed.add(key)
        if not message.found["result"].startswith("failed") or key is None:
            return
        runs = [it for it in self.view.boot.commands if (it.file, it.line) == key]
        if any(it.result is Result.FAILED for it in runs):
            return
        command, cause = message.found["command"], message.found["result"].removeprefix("failed: ")
        if any(is_kernel_path(it) for it in PATH.findall(command)):
            self.all.known["kernel paths that the kernel refused"] += 1
        elif not runs and self.tree.words.get(key, [""])[0] not in self.words_of_model():
            self.all.known["failures of commands that the model doesn't have"] += 1
        elif any(self.is_noted(it) for it in runs):
            self.all.known["failures of commands without effect in the model"] += 1
        else:
            in_model = "it succeeds in the model" if runs else "the model doesn't run it"
            self.all.add(message.line, "command", f"`{command}` at {self.tree.place(key)} fails: {cause}; {in_model}")

    def words_of_model(self):
        return {it.word for it in self.view.boot.commands}

    def is_noted(self, command):
        return any(output is Mark.NOTED for _, output in command.effects)

    def key_of(self, message):
        """The line of ROOT that a command's line names; None if ROOT hasn't it."""
        file, number = message.found["file"], int(message.found["number"])
        service = ONRESTART.fullmatch(file)
        if service:
            section = self.tree.services.get(service[1])
            file = section.section.file if section else ""
        number = self.tree.number_of(normal(file), self.all.places.printed(normal(file), number))
        return (normal(file), number) if number is not None else None

    def look_at_set(self, message):
        name = message.name
        if any(it.name == name and it.setter is not Setter.CLIENT for it in self.view.boot.refused):
            return
        self.all.add(message.line, "command", f"init can't set {name} to {message.found['value']}: {message.found['cause']}; the model sets it")

    def find_in_model(self):
        """Failures that the log hasn't."""
        paired = {id(it) for it in self.actions.pairs.values()}
        lines_of = {id(run): self.all.messages[index].line for index, run in self.actions.pairs.items()}
        for it in self.view.boot.failures:
            key = it.file, it.line
            if key in self.failed or it.moment.entry > self.all.reach or it.file in OWN_FILES:
                continue
            if it.action is None or id(it.action) not in paired:
                continue
            if it.cause.name in UNLOGGED or is_unmodelled(it):
                self.all.known["commands fail in the model alone, unlogged"] += 1
            else:
                self.all.add_absent(lines_of[id(it.action)], "command", f"`{it.text}` at {it.place} fails in the model alone: {it.cause}")


def is_unmodelled(command):
    return any(is_kernel_path(it) for it in command.arguments)


class Refusals:
    """Sets of clients that were refused, with what ROOT's policy says of them."""

    def __init__(self, compared):
        self.all, self.policy = compared, compared.policy

    def compare(self):
        pids = {}
        for it in self.all.messages:
            if it.kind in ("started", "waiting"):
                pids[it.found["pid"]] = it.name
            elif it.kind == "refused":
                self.look_at(it, pids.get(it.found["pid"]))

    def look_at(self, message, service):
        name, refusal = message.name, lines.refusal_of(message.found["cause"])
        label, kind = self.policy.label(name), self.policy.type_of(name)[0]
        asker = service or f"pid {message.found['pid']} of uid {message.found['uid']}"
        text = f"{asker} can't set {name}: {message.found['cause']}"
        if refusal == "Denied":
            domains = self.allowed(name, int(message.found["uid"]), service)
            if domains:
                self.all.add(message.line, "refused", f"{text}; in ROOT {', '.join(domains)} may set it ({label}), and the log doesn't say which domain asked")
                return
        elif refusal == "InvalidType" and kind in ("string", "double", "size"):
            self.all.add(message.line, "refused", f"{text}; in ROOT it takes any value ({label})")
            return
        elif refusal == "ReadOnly" and not name.startswith("ro."):
            self.all.add(message.line, "refused", text)
            return
        self.all.known["refused sets that ROOT's policy refuses too"] += 1

    def allowed(self, name, user, service):
        """The domains that ROOT allows the set, of those that the asker may have."""
        domains = self.policy.setters("ctl.start" if name.startswith("ctl.") else name)
        if service is not None:
            return self.policy.of_service(domains, service)
        if user == SHELL_USER:
            return [it for it in domains if it in ("shell", "su")]
        if user % 100_000 >= FIRST_APP:
            return [it for it in domains if "app" in it]
        return [it for it in domains if it != "shell"]


class Files:
    """The files that were read, and the lines of them that were refused."""

    def __init__(self, compared, not_modelled):
        self.all, self.tree, self.view = compared, compared.tree, compared.view
        self.not_modelled = not_modelled

    def compare(self):
        for index, file, number, there in self.all.places.differing:
            message = self.all.messages[index] if index < len(self.all.messages) else None
            if message is not None:
                found = f"its line {there} there is line {number} in the log" if there else f"the log has `on {message.found['triggers']}` at line {number}"
                self.all.add(message.line, "file", f"{file} differs from ROOT's: {found}")
        self.compare_reading()
        self.compare_lines()

    # -- files

    def compare_reading(self):
        absent = self.absent_files()
        read = {normal(it.found["file"]): it.line for it in reversed(self.all.messages) if it.kind == "parsing" and it.found["file"] not in absent}
        for index in self.all.places.foreign:
            if index < len(self.all.messages):
                message = self.all.messages[index]
                read.setdefault(normal(message.found["file"]), message.line)
        self.foreign = {it for it in read if it not in self.tree.numbers}
        for file in sorted(self.foreign, key=read.get):
            count = sum(1 for it in self.all.places.foreign if it < len(self.all.messages) and normal(self.all.messages[it].found["file"]) == file)
            so = [f"{count} of its actions run{'s' if count == 1 else ''} there alone"] if count else []
            self.all.add(read[file], "file", f"{file} is read on the device, and isn't in ROOT", so)
        if any(it.kind == "parsing" for it in self.all.messages) and self.all.has_beginning:
            self.find_unread(set(read))

    def absent_files(self):
        """The files that init looked for and didn't find."""
        absent = {it.found["file"] for it in self.all.messages if it.kind == "unreadable"}
        absent |= {it[1] for it in (NOT_IMPORTED.match(m.found["cause"]) for m in self.all.messages if m.kind == "no_import") if it}
        if not self.all.is_whole:
            held = self.tree.sources.build_properties()
            missing = [it for it in self.view.boot.trace.diagnostics if it.kind == "NoFile"]
            absent |= {expand(self.tree.words[it.file, it.line][1], held)[0] for it in missing}
        return absent

    def find_unread(self, read):
        after = next(it.line for it in reversed(self.all.messages) if it.kind == "parsing")
        for file in self.tree.files:
            if file in read or normal(file) in read or file in OWN_FILES:
                continue
            if self.tree.sources.root.read(file) == EMPTY:
                self.all.known["imports for which take-product made an empty file"] += 1
            else:
                self.all.add_absent(after, "file", f"{file} of ROOT isn't read on the device")

    # -- lines

    def compare_lines(self):
        mistakes = {(it.file, it.line): it.kind for it in self.view.boot.trace.diagnostics}
        refused, last = set(), None
        for it in self.all.messages:
            if it.kind in ("bad_line", "no_import"):
                key = self.key_of(it)
                refused.add(key)
                last = it
                self.look_at(it, key, mistakes)
        if any(it.kind == "parsing" for it in self.all.messages) and self.all.has_beginning:
            self.find_in_model(mistakes, refused, last)

    def key_of(self, message):
        file = normal(message.found["file"])
        number = int(message.found["number"])
        exact = self.tree.number_of(file, self.all.places.printed(file, number))
        return file, exact if exact is not None else number

    def look_at(self, message, key, mistakes):
        if key in mistakes or key[0] in self.foreign:
            return
        if key[0] in self.tree.numbers:
            words = " ".join(self.tree.words.get(key, []))
            shown = f" (`{words}`)" if words else ""
            self.all.add(message.line, "rc-line", f"{self.tree.place(key)}{shown} is refused on the device: {message.found['cause']}; the model takes it")

    def find_in_model(self, mistakes, refused, last):
        lines_of = {normal(it.found["file"]): it.line for it in self.all.messages if it.kind == "parsing"}
        for key, kind in mistakes.items():
            if key in refused or kind not in REFUSED_KINDS or key[0] not in lines_of:
                continue
            if self.not_modelled(key):
                self.all.known["lines with words that aren't modelled"] += 1
            else:
                self.all.add_absent(lines_of[key[0]], "rc-line", f"{self.tree.place(key)} is refused by the model alone ({kind})")
