"""What AOSP's init would write to the kernel's log during the boot of a trace. Written from memory of AOSP's sources, apart from the table of
tools/device_log, which reads such lines."""
import os
import posixpath
import re
from collections import Counter

from boot_trace import lines as form
from boot_trace.boot import Boot
from boot_trace.lines import Mark
from boot_trace.lives import EXEC
from log_text import ERROR, FATAL, INFO, WARNING, Said
from rc_lines import RcLines

ROOT_FILE = "/system/etc/init/hw/init.rc"
FOLDERS = ("/system/etc/init", "/system_ext/etc/init", "/vendor/etc/init", "/odm/etc/init", "/product/etc/init")
MODEL_FILES = ("/system/etc/init/zz_mount_all.rc", "/product/etc/init/zz_apex.rc")
# Words of AOSP's init that the model doesn't have: init takes them.
KNOWN_WORDS = {"mount_all", "interface_start", "interface_stop", "interface_restart", "perform_apex_config", "updatable", "reboot_on_failure"}
BEFORE_EARLY_INIT = ((10, 15, "SetupCgroups"), (11, 15, "SetKptrRestrict"), (11, 15, "TestPerfEventSelinux"), (12, 15, "ConnectEarlyStageSnapuserd"))
BEFORE_INIT = ((10, 15, "wait_for_coldboot_done"), (10, 12, "MixHwrngIntoLinuxRng"), (10, 15, "SetMmapRndBits"), (10, 15, "KeychordInit"), (10, 10, "console_init"))
REFUSED_LINES = {
    "BadTrigger": "&& is the only symbol allowed to concatenate actions",
    "NoTrigger": "actions must have a trigger",
    "TwiceProp": "multiple property triggers found for same property",
    "BadService": "invalid service name",
    "BadOption": "value out of range",
    "Orphan": "Invalid section keyword found",
    "BadImport": "single argument needed for import",
}
ERRORS = {"Exists": "File exists", "IsDir": "Is a directory", "NotDir": "Not a directory", "NotEmpty": "Directory not empty", "Absent": "No such file or directory"}
# Commands that say nothing of a file that isn't there.
SILENT = {"chmod", "chown", "write", "symlink", "mkdir"}
UNTYPED = "Property type check failed, value doesn't match expected type"
REFUSALS = {
    "Denied": "SELinux permission check failed",
    "ReadOnly": "Read-only property was already set",
    "InvalidType": f"{UNTYPED} 'uint'",
    "InvalidName": "Illegal property name",
}
SHELL = (2000, 2211, "/system/bin/sh")


class InitMessages:
    """Writes the messages of one boot. `askers` names the service whose process a client of the script is."""

    def __init__(self, tree, trace, version, askers=None):
        self.tree, self.boot, self.version, self.askers = tree, Boot(trace), version, askers or {}
        self.said, self.time, self.entry = [], 1_204_000, 0
        self.sections, self.printed, self.words = {}, {}, {}
        self.execs, self.names, self.counts, self.waits = {}, {}, Counter(), {}
        self.props = {}
        self.clients = {it.number: it for it in trace.clients}
        self.first_commands = {it.commands[0].moment.line for it in self.boot.actions if it.commands}
        self.commands = {it.moment.line: it for it in self.boot.commands}
        self.lives = {it.pid: it for it in self.boot.lives}
        self.begun = {it.began.line: it for it in self.boot.waits}
        self.late = False

    def say(self, text, level=INFO, mark=""):
        self.time += 61
        self.said.append(Said(self.time, level, text, entry=self.entry, mark=mark))

    # -- the files

    def read_files(self):
        entries = self.boot.trace.entries
        self.props = {it.name: it.value for it in entries[0].outputs if type(it) is form.Put}
        self.say("init first stage started!")
        self.say("Loading module /lib/modules/ufs-core.ko with args ''")
        self.say("Loading SELinux policy")
        self.time += 400_000
        self.say("init second stage started!")
        self.read_file(ROOT_FILE)
        for folder in FOLDERS:
            if os.path.isdir(self.tree + folder):
                self.say(f"Parsing directory {folder}...")
                self.read_folder(folder)
        self.time += 20_000

    def read_folder(self, folder):
        for name in sorted(os.listdir(self.tree + folder)):
            if os.path.isfile(posixpath.join(self.tree + folder, name)):
                self.read_file(posixpath.join(folder, name))

    def read_file(self, path):
        with open(self.tree + path, encoding="utf-8") as file:
            text = file.read()
        own = path in MODEL_FILES
        if not own:
            self.time += 300
            self.say(f"Parsing file {path}...")
        header, imports = None, []
        for line in RcLines(text):
            if line.words[0] in ("on", "service", "import"):
                header = line
            self.printed[path, line.first], self.words[path, line.first] = line.printed, line.words
            self.sections[path, line.first] = header
            imports += [line] if line.words[0] == "import" and len(line.words) == 2 else []
        self.say_refused(path)
        for line in imports:
            self.import_file(path, line)

    def say_refused(self, path):
        for it in self.boot.trace.diagnostics:
            if it.file == path and it.kind in (*REFUSED_LINES, "BadWord", "BadArity", "ServiceAgain"):
                self.say_line(path, it)

    def say_line(self, path, diagnostic):
        words = self.words[path, diagnostic.line]
        if diagnostic.kind == "BadWord" and words[0] in KNOWN_WORDS:
            return
        texts = {
            "BadWord": f"Invalid keyword '{words[0]}'",
            "BadArity": f"{words[0]} requires 1 argument, but was given {len(words) - 1}",
            "ServiceAgain": f"ignored duplicate definition of service '{words[-1] if len(words) < 2 else words[1]}'",
        }
        text = texts.get(diagnostic.kind) or REFUSED_LINES[diagnostic.kind]
        self.say(f"{path}: {self.printed[path, diagnostic.line]}: {text}", ERROR, "refused-line")

    def import_file(self, path, line):
        wanted = re.sub(r"\$\{([^}:]*)(?::-([^}]*))?\}", lambda it: self.props.get(it[1]) or it[2] or "", line.words[1])
        self.say(f"Added '{wanted}' to import list")
        if os.path.isdir(self.tree + wanted):
            self.say(f"Parsing directory {wanted}...")
            self.read_folder(wanted)
        elif os.path.isfile(self.tree + wanted):
            self.read_file(wanted)
        else:
            self.say(f"Parsing file {wanted}...")
            self.say(f"Unable to read config file '{wanted}': open() failed: No such file or directory")
            self.say(f"{path}: {line.printed}: Could not import file '{wanted}': No such file or directory", ERROR, "refused-line")

    # -- the boot

    def write(self):
        self.read_files()
        self.say_builtins(BEFORE_EARLY_INIT)
        for entry in self.boot.trace.entries[1:]:
            self.entry = entry.number
            self.time += 700
            if type(entry.head) is form.Tick:
                self.time += entry.head.milliseconds * 1000
            if type(entry.head) is form.Set:
                self.say_set(entry)
            else:
                self.say_outputs(entry)
        return self.said

    def say_builtins(self, rows):
        for first, last, name in rows:
            if first <= self.version <= last:
                self.say(f"processing action ({name}) from (<Builtin Action>:0)")
                if name == "wait_for_coldboot_done" and self.version >= 11:
                    self.time += 120_000
                    self.say("Wait for property 'ro.cold_boot_done=true' took 120ms")

    def say_outputs(self, entry):
        for place, output in enumerate(entry.outputs):
            step = STEPS.get(type(output))
            if step:
                step(self, entry, entry.moment(place).line, output)

    def say_event(self, entry, line, output):
        if self.late:
            self.say_builtins([(10, 15, "queue_property_triggers")])
        self.late = output.name == "late-init"
        if output.name == "init":
            self.say_builtins(BEFORE_INIT)

    def say_mark(self, entry, line, output):
        if output is Mark.ALL_PROPERTIES:
            self.say_builtins([(10, 15, "enable_property_trigger")])
        elif output in (Mark.RELEASED, Mark.TIMEOUT):
            self.say_wait_end(output)
        elif output is Mark.OK and self.commands.get(self.command_line) is not None:
            self.say_success(self.commands[self.command_line])

    def say_command(self, entry, line, output):
        self.command_line = line
        if line in self.first_commands:
            action = self.commands[line].action
            self.say_processing(action)

    def say_processing(self, action):
        if action.file in MODEL_FILES:
            return
        self.say(f"processing action ({self.triggers(action.file, action.line)}) from ({action.file}:{self.printed[action.file, action.line]})", mark="action")

    def triggers(self, file, line):
        words = [it for it in self.words[file, line][1:] if it != "&&"]
        props = sorted(it.removeprefix("property:") for it in words if it.startswith("property:"))
        return " && ".join([*props, *(it for it in words if not it.startswith("property:"))])

    def say_success(self, command):
        spawned = any(type(it) is form.Spawn for _, it in command.effects)
        if command.word == "start" and not spawned and not command.effects and self.version >= 11:
            self.say(f"service '{command.arguments[0]}' requested start, but it is already running (flags: 4)")
        if command.word == "wait":
            self.say(f"wait for '{command.arguments[0]}' took 0ms")
        if command.word == "wait_for_prop":
            name, value = command.arguments
            self.say(f'start_waiting_for_property("{name}", "{value}"): already set')

    def say_spawn(self, entry, line, output):
        self.time += 900
        name = output.name
        if name == EXEC:
            name = self.exec_name(output)
        self.names[output.pid] = name
        self.say(f"starting service '{name}'...", mark="start")
        if self.version >= 14:
            self.say(f"... started service '{name}' has pid {output.pid}")

    def exec_name(self, output):
        command = self.lives[output.pid].started_by
        words = command.arguments[command.arguments.index("--") + 1 :] if "--" in command.arguments else command.arguments
        self.counts["exec"] += 1
        return f"exec {self.counts['exec']} ({' '.join(words)})"

    def say_waitchild(self, entry, line, output):
        self.waits["now"] = (self.time, self.begun[line])
        self.say(f"SVC_EXEC service '{self.names[output.pid]}' pid {output.pid} (uid 1000 gid 1000+0 context default) started; waiting...", mark="waiting")

    def say_wait(self, entry, line, output):
        self.waits["now"] = (self.time, self.begun[line])

    def say_wait_end(self, mark):
        began, wait = self.waits.pop("now")
        took = (self.time - began) // 1000
        if wait.kind.value == "property":
            self.say(f"Wait for property '{wait.subject}={wait.value}' took {took}ms", mark="wait-end")
        elif wait.kind.value == "file":
            out = "timed out and " if mark is Mark.TIMEOUT else ""
            self.say(f"wait for '{wait.subject}' {out}took {took}ms", WARNING if out else INFO, mark="wait-end")

    def say_kill(self, entry, line, output):
        self.say(f"Sending signal 9 to service '{self.names[output.pid]}' (pid {output.pid}) process group...")

    def say_reap(self, entry, line, output):
        life, name = self.lives[output.pid], self.names[output.pid]
        tail, oneshot = "", life.name == EXEC or life.afterwards.value == "stopped" and not life.killed
        if oneshot:
            waited = self.waits.get("now")
            waits = waited is not None and waited[1].kind.value == "child" and waited[1].subject == life.name
            tail = f" waiting took {(self.time - waited[0]) / 1e6:.6f} seconds" if waits else " oneshot service took 0.250000 seconds in background"
        if output.status is None or output.status > 128:
            how = f"received signal {9 if output.status is None else output.status - 128}"
        else:
            how = f"exited with status {output.status}"
        self.say(f"Service '{name}' (pid {output.pid}) {how}{tail}", mark="end")
        if not oneshot or self.version >= 11:
            self.say(f"Sending signal 9 to service '{name}' (pid {output.pid}) process group...")

    def say_reboot(self, entry, line, output):
        name = next(it.name for it in reversed(entry.outputs) if type(it) is form.Reap)
        self.say(f"critical process '{name}' exited 4 times before boot completed", FATAL, "critical")

    # -- failures

    def say_failed(self, entry, line, output):
        command = self.commands[self.command_line]
        if command.file in MODEL_FILES:
            return
        cause = output.cause
        if cause.name == "Set" and command.word == "setprop":
            name, value = command.arguments
            self.say(f"Init cannot set '{name}' to '{value}': {REFUSALS.get(cause.details[0].name, 'failed')}", ERROR, "failed")
            return
        if cause.name == "Tree" and cause.details[0] == "Absent" and command.word in SILENT:
            return
        where = f"{command.file}:{self.printed[command.file, command.line]}"
        of = self.header_text(command)
        if command.service:
            where = f"<Service '{command.service}' onrestart>:{self.printed[command.file, command.line]}"
        text = " ".join(self.words[command.file, command.line])
        text = text.removeprefix("onrestart ")
        self.say(f"Command '{text}' action={of} ({where}) took 0ms and failed: {self.cause_text(command, cause)}", ERROR, "failed")

    def header_text(self, command):
        return "" if command.service else self.triggers(command.action.file, command.action.line)

    def cause_text(self, command, cause):
        if cause.name == "Tree":
            return f"{command.word}() failed: {ERRORS.get(cause.details[0], cause.details[0])}"
        if cause.name == "NoSuchService":
            return "Could not find service"
        if cause.name == "Absent":
            return f"Could not expand argument: property '{cause.details[0]}' doesn't exist while expanding '${{{cause.details[0]}}}'"
        return f"{command.word}: {cause}"

    # -- clients

    def asker(self, number):
        client = self.clients[number]
        service = self.askers.get(client.name)
        lives = [it for it in self.boot.lives if it.name == service and it.began.entry <= self.entry]
        if lives:
            return 1000, lives[-1].pid, lives[-1].path
        return SHELL if client.domain == "shell" else (1000, 1400 + number, client.name)

    def say_set(self, entry):
        head, uid_pid = entry.head, self.asker(entry.head.client)
        uid, pid, process = uid_pid
        refused = next((it.refusal for it in entry.outputs if type(it) is form.Refused), None)
        if head.name.startswith("ctl.") and refused is None:
            what = head.name.removeprefix("ctl.")
            if self.version == 10:
                self.say(f"Received control message '{what}' for '{head.value}' from pid: {pid} ({process})")
            self.say_outputs(entry)
            if self.version > 10:
                self.say(f"Control message: Processed ctl.{what} for '{head.value}' from pid: {pid} ({process})")
            return
        self.say_outputs(entry)
        if refused is not None:
            value = f" to '{head.value}'" if self.version <= 12 else ""
            text = f"Unable to set property '{head.name}'{value} from uid:{uid} gid:{uid} pid:{pid}: {REFUSALS[refused.name]}"
            self.say(text, ERROR, "refused")


STEPS = {
    form.Event: InitMessages.say_event,
    form.Command: InitMessages.say_command,
    form.Spawn: InitMessages.say_spawn,
    form.WaitChild: InitMessages.say_waitchild,
    form.WaitProp: InitMessages.say_wait,
    form.WaitFile: InitMessages.say_wait,
    form.Kill: InitMessages.say_kill,
    form.Reap: InitMessages.say_reap,
    form.Reboot: InitMessages.say_reboot,
    form.Failed: InitMessages.say_failed,
    Mark: InitMessages.say_mark,
}
