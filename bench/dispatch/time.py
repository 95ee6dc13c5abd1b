"""Sets a second from start to end of `initsim dispatch`, beside `initsim race` and a plain program on the same scripts, in turns: time.py
PROVED PLAIN. A script has clients and sets alone, and each program has to write a trace in which each set is accepted. Two numbers of
sets are timed from outside, with reading, the queue and the trace, and the difference counts, each by the least of nine."""
import os
import subprocess
import sys
import tempfile
import time

ROUNDS = 9
# How many sets all sessions make together, in the short run and in the long one. (A script has at most 100,000 lines.)
FEW, MANY = 16_000, 96_000
SESSIONS = (1, 4, 64)
NAMES, OWN = 1_024, 16
VALUE = "a-value-of-middling-length"
TOPS = ("boot", "persist", "sys", "vendor", "init", "debug", "dalvik", "wifi")
TREE = {
    "property_contexts": "* default_prop prefix string\npersist. persist_prop prefix string\n"
    "persist.sys.usb.config usb_prop exact enum none adb mtp\nsys. system_prop prefix string\nsys.boot_completed boot_prop exact bool\n"
    "vendor. vendor_prop prefix string\nvendor.thermal.level thermal_prop exact uint\ndebug. debug_prop prefix string\n"
    "wifi. wifi_prop prefix string\n",
    "property_allow": "".join(f"allow d {it}_prop\n" for it in ("default", "persist", "system", "vendor", "debug", "wifi")),
    "system/etc/init/hw/init.rc": "",
}


def fail(line):
    sys.exit(f"bench: {line}")


def name(place):
    return f"{TOPS[place % 8]}.part{place // 8 % 50}.key{place}"


def write(path, text):
    os.makedirs(os.path.dirname(path), exist_ok=True)
    with open(path, "w") as file:
        file.write(text)


def script(sessions, sets):
    names = [name(k * 7919 % NAMES) for k in range(NAMES)]
    lines = [f"client c{who} d" for who in range(1, sessions + 1)]
    for at in range(sets // sessions):
        lines += [f"@c{who} set {names[(who - 1) * OWN + at % OWN]} {VALUE}" for who in range(1, sessions + 1)]
    return "".join(f"{line}\n" for line in lines)


def seconds(words, sets):
    """Seconds from start to end of a program, which has to accept so many sets."""
    with tempfile.TemporaryFile() as out:
        began = time.monotonic()
        try:
            status = subprocess.run(words, stdout=out).returncode
        except OSError as why:
            fail(f"{words[0]} can't be run: {why.strerror}")
        took = time.monotonic() - began
        if status:
            fail(f"{' '.join(words)} ended with status {status}")
        out.seek(0)
        trace = out.read()
    if trace.count(b"\n accepted ") != sets or not trace.endswith(b"\nend\n"):
        fail(f"{' '.join(words)} doesn't accept each set")
    return took


def of_one(words, times):
    """Seconds of one set, of these times of few and of many."""
    few, many = (min(column) for column in zip(*times))
    if many <= few:
        fail(f"{' '.join(words)}: {MANY} sets took no longer than {FEW}, so nothing was measured")
    return (many - few) / (MANY - FEW)


def measured(timed, room, sessions):
    """Seconds of one set, for each of the programs, which run in turns."""
    times = [[] for _ in timed]
    for _ in range(ROUNDS):
        for words, column in zip(timed, times):
            column.append([seconds([*words, f"{room}/tree", f"{room}/{sessions}.{sets}"], sets) for sets in (FEW, MANY)])
    return [of_one(words, column) for words, column in zip(timed, times)]


def main():
    proved, plain = sys.argv[1:]
    timed = (proved, "dispatch"), (proved, "race"), (plain,)
    print(f"cores: {os.cpu_count()}, load {os.getloadavg()[0]:.1f}", flush=True)
    with tempfile.TemporaryDirectory() as room:
        for path, text in TREE.items():
            write(f"{room}/tree/{path}", text)
        for sessions in SESSIONS:
            for sets in (FEW, MANY):
                write(f"{room}/{sessions}.{sets}", script(sessions, sets))
            dispatch, race, other = measured(timed, room, sessions)
            print(f"sessions {sessions}: dispatch {1e-6 / dispatch:.2f}, race {1e-6 / race:.2f}, plain {1e-6 / other:.2f} million sets a second; "
                  f"dispatch takes {dispatch / other:.2f} times plain Rust's time, and {dispatch / race:.2f} times a race's", flush=True)


main()
