"""The lines that init writes to the kernel's log: the one table of their forms.

The rows are written from memory of AOSP's sources, and nobody has held them against those sources or against a real device's log yet.
`sure` says how far each row goes: A, the form and its versions; B, the form, its versions less so; C, to be checked before it is used.
A row's expression is that of the whole text after `init: `. Its source is a file of system/core/init, unless it names another place. The
first row that fits a text is its row, so special rows come before general ones.
"""
import re
from typing import NamedTuple

BUILTIN = "<Builtin Action>"
PID = r"(?P<pid>\d+)"
NAME = r"(?P<name>.*?)"
ASKER = rf"from pid: {PID} \((?P<process>.*)\)"
FOUND = rf"(?P<file>/.+?): ?(?P<number>\d+): (?P<cause>.*)"


class Row(NamedTuple):
    kind: str
    expression: re.Pattern
    source: str
    versions: str
    meaning: str
    sure: str


def row(kind, expression, source, versions, meaning, sure):
    return Row(kind, re.compile(expression, re.DOTALL), source, versions, meaning, sure)


TABLE = (
    # -- actions and commands
    row(
        "builtin",
        rf"processing action \((?P<name>.*)\) from \({BUILTIN}:0\)",
        "init.cpp",
        "10-15",
        "an action of init's own; enable_property_trigger comes just before the model's all-properties",
        "B",
    ),
    row(
        "action",
        r"processing action \((?P<triggers>.*)\) from \((?P<file>.+):(?P<number>\d+)\)",
        "action_manager.cpp",
        "10-15",
        "the first command of an action runs; the triggers are properties by name, then the event",
        "A",
    ),
    row(
        "command",
        r"Command '(?P<command>.*)' action=(?P<action>.*?) \((?P<file>.+):(?P<number>\d+)\) took (?P<took>\d+)ms and (?P<result>succeeded|failed: .*)",
        "action.cpp",
        "10-15",
        "a command failed, or took more than 50 ms; of other commands nothing is said",
        "A",
    ),
    # -- services
    row("starting", rf"starting service '{NAME}'\.\.\.", "service.cpp", "10-15", "a process of the service is spawned", "A"),
    row("started", rf"\.\.\. started service '{NAME}' has pid {PID}", "service.cpp", "14-15, 13?", "the pid of that process", "B"),
    row(
        "running",
        rf"service '{NAME}' requested start, but it is already running \(flags: (?P<flags>\d+)\)",
        "service.cpp",
        "11?-15",
        "a start that spawns nothing",
        "B",
    ),
    row(
        "waiting",
        rf"SVC_EXEC service '{NAME}' pid {PID} \(uid \d+ gid \d+\+\d+ context .*\) started; waiting\.\.\.",
        "service.cpp",
        "10-15",
        "init waits for this process to end",
        "A",
    ),
    row(
        "ended",
        rf"Service '{NAME}' \(pid {PID}\) (?P<how>exited with status|received signal) (?P<status>\d+)"
        r"(?: waiting took (?P<waited>[\d.]+) seconds| oneshot service took [\d.]+ seconds in background)?",
        "sigchld_handler.cpp",
        "10-15; the second tail 10?",
        "a process has ended",
        "A",
    ),
    row(
        "untracked",
        rf"Untracked pid {PID} (?:exited with status|received signal) \d+.*|.*did not have an associated service entry and will not be reaped",
        "sigchld_handler.cpp",
        "10-15; the second 12?-15",
        "the end of a process that is no service's; nothing in the model",
        "B",
    ),
    row(
        "signal",
        rf"Sending signal (?P<signal>\d+) to service '{NAME}' \(pid {PID}\) process group\.\.\.",
        "service.cpp",
        "10-15",
        "init kills a process; if that process has ended just before, init clears its group",
        "A",
    ),
    row(
        "expired",
        rf"Service '{NAME}' expired its timeout of (?P<seconds>\d+) seconds and will now be killed",
        "service.cpp",
        "10-15",
        "a kill by timeout_period",
        "A",
    ),
    row(
        "critical",
        rf"critical process '{NAME}' exited 4 times (?P<when>before boot completed|in \d+ minutes)",
        "service.cpp",
        "10-15",
        "the device goes down, at the fifth end",
        "A",
    ),
    row(
        "updatable",
        rf"(?:updatable process|process with updatable components) '{NAME}' exited 4 times .*",
        "service.cpp",
        "10-15",
        "nothing in the model",
        "B",
    ),
    row(
        "reboot_on_failure",
        rf"Service '?{NAME}'? (?:has|with) 'reboot_on_failure' option .*failed, shutting down system.*",
        "service.cpp",
        "11-15",
        "the device goes down; the model doesn't know it",
        "C",
    ),
    row(
        "not_started",
        rf"Could not (?P<what>start|restart) (?:service|process) '{NAME}'.*: (?P<cause>.*)",
        "builtins.cpp, init.cpp",
        "10-15",
        "a class's start, or a restart, without a process",
        "B",
    ),
    # -- waits
    row(
        "prop_wait",
        rf"Wait for property '(?P<name>[^=]*)=(?P<value>.*)' took (?P<took>\d+)ms",
        "init.cpp",
        "10-15",
        "a wait_for_prop has ended; ro.cold_boot_done is init's own",
        "A",
    ),
    row(
        "prop_there",
        r"start_waiting_for_property\(\"(?P<name>.*)\", \"(?P<value>.*)\"\): already set",
        "init.cpp",
        "10-15",
        "a wait_for_prop that didn't wait",
        "A",
    ),
    row(
        "file_wait",
        r"wait for '(?P<path>.*)' (?P<out>timed out and )?took (?P<took>\d+)ms",
        "util.cpp",
        "10-15",
        "a wait for a file has ended, or its time has run out",
        "A",
    ),
    # -- control messages and refused sets
    row(
        "control",
        rf"Control message: Processed ctl\.(?P<what>\S+) for '{NAME}' {ASKER}",
        "init.cpp",
        "11-15",
        "a control message; it comes after the lines of the service",
        "A",
    ),
    row(
        "control_first",
        rf"Received control message '(?P<what>.*?)' for '{NAME}' {ASKER}",
        "init.cpp",
        "10",
        "the same; it comes before the lines of the service",
        "B",
    ),
    row(
        "control_failed",
        rf"(?:Control message: )?Could not (?:find|ctl\.\S+) .*?'{NAME}'.* {ASKER}.*",
        "init.cpp",
        "10-15",
        "no service has the name, or the operation failed",
        "B",
    ),
    row(
        "refused",
        rf"Unable to set property '(?P<name>[^']*)'(?: to '(?P<value>.*)')? from uid:(?P<uid>\d+) gid:\d+ pid:{PID}: (?P<cause>.*)",
        "property_service.cpp",
        "10-15; the value 10-12?",
        "a client's set is refused",
        "A",
    ),
    row(
        "init_refused",
        rf"Init cannot set '{NAME}' to '(?P<value>.*)': (?P<cause>.*)",
        "property_service.cpp",
        "10-15",
        "a set of init's own is refused; the command itself succeeds on a device",
        "A",
    ),
    # -- rc files
    row("parsing", r"Parsing file (?P<file>.*)\.\.\.", "parser.cpp", "10-15", "a file is read", "A"),
    row("parsing_folder", r"Parsing directory (?P<file>.*)\.\.\.", "parser.cpp", "10-15", "a folder is read", "A"),
    row("import", r"Added '(?P<file>.*)' to import list", "import_parser.cpp", "10-15", "nothing: the next row follows", "A"),
    row("unreadable", r"Unable to read config file '(?P<file>.*?)': (?P<cause>.*)", "parser.cpp", "10-15", "nothing: the next row follows", "A"),
    row("no_import", FOUND.replace("(?P<cause>.*)", r"(?P<cause>Could not import file '.*': .*)"), "import_parser.cpp", "10-15", "an import of no file", "A"),
    row("bad_line", FOUND, "parser.cpp", "10-15", "the line, or for a service's whole section its header, is refused", "A"),
    # -- the end of the log
    row("powerctl", rf"Received sys\.powerctl='(?P<value>.*)' from pid: {PID} \(.*\)", "init.cpp", "10-15", "the device goes down", "B"),
    row("powerctl", r"Reboot start, reason: .*|Reboot ending, jumping to kernel", "reboot.cpp", "10-15", "the device goes down", "B"),
    # -- lines of the first stage
    row("stage", r"init (?:first|second) stage started!", "first_stage_init.cpp, init.cpp", "10-15", "nothing", "A"),
    row("early", r"Loading SELinux policy|Switching root to .*|Loading module .*", "selinux.cpp, switch_root.cpp, modprobe", "10-15", "nothing", "A"),
    row("early", r"\[libfs_mgr\].*", "fs_mgr/libfs_mgr", "10-15", "nothing", "A"),
    # -- lost lines
    row(
        "suppressed",
        r"(?P<count>\d+) output lines suppressed due to ratelimiting",
        "the kernel's printk",
        "10-15",
        "lost lines of this writer; the kernel says so when the writer closes /dev/kmsg",
        "A",
    ),
    row("too_long", r"(?P<count>\d+)-byte message too long for printk.*", "libbase", "10?-15", "one lost line", "B"),
)
# A line of the kernel's own, without `init: `.
DROPPED = re.compile(r"\*\* (\d+) printk messages dropped \*\*")
KERNEL_WORDS = re.compile(r"(?:Kernel command line|bootconfig): (.*)")
# Causes of a refused client's set, by what the model calls them.
REFUSALS = (
    (re.compile(r"SELinux permission check failed|Invalid permissions to perform '.*' on '.*'"), "Denied"),
    (re.compile(r"Read-only property was already set"), "ReadOnly"),
    (re.compile(r"Property type check failed.*"), "InvalidType"),
    (re.compile(r"Illegal property name.*"), "InvalidName"),
)
# Init's actions and lines by which a log shows its version: the first and the last that has them.
VERSIONS = {
    "console_init": (10, 10),
    "InitBinder": (10, 10),
    "StartBoringSslSelfTest": (10, 10),
    "MixHwrngIntoLinuxRng": (10, 12),
    "SetKptrRestrict": (11, 15),
    "TestPerfEventSelinux": (11, 15),
    "ConnectEarlyStageSnapuserd": (12, 15),
}
VERSIONS_OF_KINDS = {"control_first": (10, 10), "control": (11, 15), "running": (11, 15), "started": (13, 15)}
FIRST_VERSION, LAST_VERSION = 10, 15


def row_of(text):
    """The row that a text has, with what the expression found in it; None twice without one."""
    for it in TABLE:
        found = it.expression.fullmatch(text)
        if found:
            return it, found
    return None, None


def refusal_of(cause):
    """What the model calls the cause of a refused set."""
    return next((name for expression, name in REFUSALS if expression.match(cause)), None)
