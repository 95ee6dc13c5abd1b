"""How a kernel log has init's messages: the forms of a line, and the messages of others between."""
from dataclasses import dataclass

INFO, WARNING, ERROR, FATAL = 6, 4, 3, 2
FACILITY = 8
NOISE = (
    "random: crng init done",
    "usb 1-1: new high-speed USB device number 2 using xhci-hcd",
    "healthd: battery l=81 v=4079 t=27.0 h=2 st=2 c=220 fc=2914000 cc=16 chg=u",
    "apexd: Scanning /system/apex for embedded keys",
    "logd: logdr: UID=1000 GID=1000 PID=811 n tail=0 logMask=99 pid=0",
    "type=1400 audit(1700000000.1:12): avc: denied { read } for comm=\"init.qcom.sh\" permissive=0",
    "ueventd: firmware: loading 'novatek_ts_fw.bin' for '/devices/platform/soc/894000.i2c'",
)
STYLES = ("plain", "raw", "thread", "mediatek", "samsung", "bugreport", "serial")


@dataclass
class Said:
    """A message: who wrote it, and when (in microseconds)."""

    time: int
    level: int
    text: str
    thread: str = "T1"
    is_own: bool = True
    entry: int = 0  # of the trace
    mark: str = ""


def stamp(it):
    return f"[{it.time // 1_000_000:5d}.{it.time % 1_000_000:06d}]"


def plain(it, text):
    return f"{stamp(it)} {text}"


def raw(it, text):
    return f"<{it.level + FACILITY}>{plain(it, text)}"


def thread(it, text):
    return f"<{it.level + FACILITY}>{stamp(it)}[{it.thread:>5}] {text}"


def mediatek(it, text):
    owner = "1:init" if it.is_own else "77:kworker/1:1"
    return f"<{it.level + FACILITY}>{stamp(it)}  (1)[{owner}]{text}"


def samsung(it, text):
    owner, pid = ("init", 1) if it.is_own else ("kworker/1:1", 77)
    return f"<{it.level}>{stamp(it)} [2: {owner:>15}: {pid:4}] {text}"


def serial(it, text):
    return plain(it, text) + "\r"


WRITERS = {"plain": plain, "raw": raw, "thread": thread, "mediatek": mediatek, "samsung": samsung, "bugreport": raw, "serial": serial}
BEFORE = ["== dumpstate: 2026-11-27 09:00:00", "------ UPTIME MMAP PERF (uptime) ------", "up 1 min", "", "------ KERNEL LOG (dmesg) ------"]
AFTER = ["------ 0.012s was the duration of 'KERNEL LOG' ------", "[    1.000000] init: starting service 'of-another-section'...", ""]


def with_noise(messages, count):
    """The messages, with so many of other writers after each."""
    made = []
    for place, it in enumerate(messages):
        made.append(it)
        made += [Said(it.time + 1 + other, INFO, NOISE[(place + other) % len(NOISE)], "C0", False) for other in range(count)]
    return made


def physical_lines(messages, style):
    """The lines of a log, each with the message that it is of, or None."""
    write = WRITERS[style]
    made = [(it, None) for it in BEFORE] if style == "bugreport" else []
    for it in messages:
        for part in it.text.split("\n") if it.is_own else [it.text]:
            made.append((write(it, f"init: {part}" if it.is_own else part), it))
    return made + ([(it, None) for it in AFTER] if style == "bugreport" else [])
