"""Reads the forms of a kernel log: dmesg, a bugreport's kernel section, console-ramoops and a serial capture, each with its prefixes."""
import re
from dataclasses import dataclass, field

from device_log import lines

WRITER = "init: "
# A line's time, after a priority, and the thread or processor that a kernel may print.
STAMP = re.compile(r"(?:<(?P<level>\d{1,3})>)?\[ *(?P<seconds>\d+)\.(?P<micros>\d{6})\] ?(?:\[ *(?P<thread>[TC]\d+)\] ?)?")
# MediaTek's ` (1)[1:init]` and Samsung's `[1:           init:    1] `.
VENDOR = re.compile(r" *(?:\(\d+\)\[(?P<pid>\d+):[^\]]*\]|\[\d+: *[^:\]]*: *(?P<process>\d+)\]) ?")
DATED = re.compile(r"\[(?:Mon|Tue|Wed|Thu|Fri|Sat|Sun) \w{3} [ \d]\d \d\d:\d\d:\d\d \d{4}\] ?" + WRITER)
# What is looked at closely; all else is only counted.
WANTED = re.compile(rb"init: |printk messages dropped|Linux version |Booting Linux|[Kk]ernel command line: |bootconfig: |^------ ")
BOOT = re.compile(r"Linux version |Booting Linux on ")
SECTION = re.compile(r"------ (.*?) ------")
KERNEL_SECTION = "KERNEL LOG"
# A line is cut after so many bytes, so that a file without line feeds doesn't fill the memory.
MOST_BYTES = 65_536
MOST_PARTS = 40
# A time so much earlier than the one before is that of another boot.
BACK = 2_000_000


class Unusable(Exception):
    """Why no boot can be followed in a log."""


@dataclass(slots=True)
class Message:
    """A line of init's, or a mark of the kernel's own about lost lines."""

    line: int
    time: int  # in microseconds
    level: int | None
    text: str
    kind: str = ""
    found: dict = field(default_factory=dict)

    @property
    def name(self):
        return self.found.get("name", "")


@dataclass(slots=True)
class Log:
    """The last boot of a log."""

    messages: list = field(default_factory=list)
    count: int = 0
    boot_props: dict = field(default_factory=dict)
    notes: list = field(default_factory=list)
    last_time: int = 0

    def of(self, *kinds):
        return [it for it in self.messages if it.kind in kinds]


class Reader:
    """Reads physical lines one after another."""

    def __init__(self):
        self.log, self.open, self.was_dated, self.was_cut = Log(), None, False, False
        # (of a bugreport the kernel's section alone is read)
        self.in_section, self.is_over = False, False
        self.other, self.latest = None, b""

    def read(self, file):
        number = 0
        while raw := file.readline(MOST_BYTES):
            number += 1
            if self.is_over:
                continue
            if b"[" in raw:
                self.latest = raw
            if WANTED.search(raw) or self.open is not None and self.open.kind == "":
                self.take(number, raw)
            while raw[-1:] != b"\n" and len(raw) == MOST_BYTES:
                raw = file.readline(MOST_BYTES)
        self.log.count = number
        self.close()
        if self.was_dated and not self.log.messages:
            raise Unusable("its times are those of `dmesg -T`, which has no fractions of a second: take plain `dmesg`")
        if self.log.count == 0:
            raise Unusable("it is empty")
        return self.chosen()

    def chosen(self):
        """The last boot, or the one before where nothing of the last one can be followed."""
        last = self.log
        if self.other is not None and not last.of("action") and self.other.of("action"):
            last, self.other.count = self.other, last.count
            last.notes.append("another boot begins after it, without a line of an action")
        join_commands(last)
        stamp = STAMP.search(self.latest.decode("utf-8", "surrogateescape"))
        last.last_time = max([it.time for it in last.messages] + ([time_of(stamp)] if stamp and last is self.log else []), default=0)
        return last

    def take(self, number, raw):
        text = raw.decode("utf-8", "surrogateescape").rstrip("\r\n")
        section = SECTION.match(text)
        if section:
            self.enter_section(number, section[1].startswith(KERNEL_SECTION))
            return
        if DATED.search(text):
            self.was_dated = True
        stamps = list(STAMP.finditer(text))
        first = stamps[0].start() if stamps else len(text)
        if text[:first].strip() or not stamps:
            self.continue_with(text[:first])
        for stamp, following in zip(stamps, [*stamps[1:], None]):
            before = self.open
            self.take_piece(number, stamp, text[stamp.end() : following.start() if following else len(text)])
            if following and self.open is not before:
                self.was_cut = True

    def enter_section(self, number, is_kernel):
        """In a bugreport the kernel's section alone is read."""
        if is_kernel and not self.in_section:
            self.log, self.open = Log(), None
            self.log.notes.append(f"line {number}: the kernel's section of a bugreport")
        elif self.in_section and not is_kernel:
            self.is_over = True
            self.close()
        self.in_section = is_kernel

    def take_piece(self, number, stamp, rest):
        vendor = VENDOR.match(rest)
        rest = rest[vendor.end() :] if vendor else rest.lstrip(" ")
        time = time_of(stamp)
        level = int(stamp["level"]) if stamp["level"] else None
        if BOOT.match(rest):
            self.begin_boot(number, time)
        words = lines.KERNEL_WORDS.match(rest)
        if words:
            self.log.boot_props.update(boot_props(words[1]))
        if lines.DROPPED.search(rest):
            self.log.messages.append(Message(number, self.kept(time), level, rest, "dropped"))
        elif rest.startswith(WRITER):
            self.take_own(number, time, level, rest[len(WRITER) :])

    def take_own(self, number, time, level, text):
        latest = self.log.messages[-1].time if self.log.messages else 0
        if time < latest - BACK:
            self.begin_boot(number, time)
        self.close()
        message = Message(number, self.kept(time), level, text)
        read_kind(message)
        self.open = message
        self.log.messages.append(message)

    def kept(self, time):
        """The time, not before that of the message before: two processors may write out of order."""
        return max(time, self.log.messages[-1].time if self.log.messages else 0)

    def begin_boot(self, number, time):
        if not self.log.messages:
            return
        self.close()
        if self.log.of("action") or self.other is None:
            self.other = self.log
        self.log, self.open = Log(), None
        self.log.notes.append(f"line {number}: another boot begins, at {time / 1e6:.1f} s; the last one is taken")

    def continue_with(self, text):
        """A line without a time goes on with a line of init's that has no row yet."""
        if self.open is not None and self.open.kind == "":
            # (another writer cut the line, or it has a line feed)
            self.open.text += text if self.was_cut else f"\n{text}"
            self.was_cut = False
            read_kind(self.open)

    def close(self):
        self.open, self.was_cut = None, False


def time_of(stamp):
    return int(stamp["seconds"]) * 1_000_000 + int(stamp["micros"])


def read_kind(message):
    row, found = lines.row_of(message.text)
    if row is not None:
        message.kind, message.found = row.kind, found.groupdict()


def join_commands(log):
    """Joins a command with a line feed in it, whose lines came as messages of their own."""
    kept = []
    rest = iter(range(len(log.messages)))
    for at in rest:
        message = log.messages[at]
        if message.kind == "" and message.text.startswith("Command '"):
            used = joined(log.messages, at)
            for _ in range(used):
                next(rest)
        kept.append(message)
    log.messages = kept


def joined(messages, at):
    """How many messages after this one are parts of it, which are put into it."""
    text = messages[at].text
    for used, part in enumerate(messages[at + 1 : at + 1 + MOST_PARTS], 1):
        if part.kind != "":
            return 0
        text += "\n" + part.text
        row, found = lines.row_of(text)
        if row is not None:
            messages[at].text, messages[at].kind, messages[at].found = text, row.kind, found.groupdict()
            return used
    return 0


def boot_props(words):
    """The ro.boot properties of the kernel's command line."""
    pairs = (it.partition("=") for it in words.split())
    return {f"ro.boot.{name.removeprefix('androidboot.')}": value.strip('"') for name, _, value in pairs if name.startswith("androidboot.")}


def read_log(path):
    with open(path, "rb") as file:
        return Reader().read(file)


def version_of(log):
    """The Android versions that the log's lines fit: the first and the last, which may be none that agree."""
    first, last = lines.FIRST_VERSION, lines.LAST_VERSION
    kinds = {it.kind for it in log.messages} & lines.VERSIONS_OF_KINDS.keys()
    names = {it.name for it in log.of("builtin")} & lines.VERSIONS.keys()
    for low, high in [*(lines.VERSIONS_OF_KINDS[it] for it in kinds), *(lines.VERSIONS[it] for it in names)]:
        first, last = max(first, low), min(last, high)
    return first, last


def judge(log):
    """Refuses a log in which the lines of actions are hidden."""
    own = [it for it in log.messages if it.kind != "dropped"]
    if not own:
        raise Unusable("no line of init is in it")
    if log.of("starting", "started") and not log.of("action", "builtin"):
        raise Unusable("it has no line of an action, though services start: set loglevel to 6 or more (in the kernel's words, and `loglevel` in rc files), and ANDROID_LOG_TAGS='*:i' for init")
    if not log.of("action"):
        raise Unusable("no line of an action is in it, by which a boot could be followed")
    times = [it.time for it in own]
    if not any(late - early < 5_000_000 for early, late in zip(times, times[10:])):
        raise Unusable("it never has more than 10 lines of init in 5 seconds, which is the limit of /dev/kmsg: boot with printk.devkmsg=on")
