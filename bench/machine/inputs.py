#!/usr/bin/env python3
"""Makes the inputs of the benchmarks: inputs.py FOLDER [SHAPE..]. A shape is a folder with a `tree`, for a run a `script`, and `words`, one a
line, as they are called in that folder. Without names all shapes are made. The same is made each time."""
import os
import shutil
import sys

ROOT_FILE = "system/etc/init/hw/init.rc"
INIT = "system/etc/init"
WIDE = "area 1048576\n"
SIZES = (5_000, 10_000, 20_000, 40_000)
MOST_BYTES = 1_048_576


class Shape:
    """One shape's folder, as it is made."""

    def __init__(self, top, name):
        self.folder = os.path.join(top, name)
        shutil.rmtree(self.folder, ignore_errors=True)
        os.makedirs(self.folder)

    def put(self, path, text):
        path = os.path.join(self.folder, path)
        os.makedirs(os.path.dirname(path), exist_ok=True)
        with open(path, "w") as file:
            file.write(text)

    def rc(self, path, text):
        if len(text) > MOST_BYTES:
            sys.exit(f"{self.folder}: {path} has {len(text)} bytes")
        self.put("tree/" + path, text)

    def script(self, text):
        self.put("script", text)
        self.words("run", "tree", "script")

    def words(self, *words):
        self.put("words", "".join(word + "\n" for word in words))

    def root(self, *lines):
        self.rc(ROOT_FILE, "".join(line + "\n" for line in lines))

    def spread(self, sections, limit=200_000):
        """Sections in files of at most so many bytes, read in the order in which they are given."""
        files, size = [[]], 0
        for it in sections:
            if size + len(it) > limit and files[-1]:
                files.append([])
                size = 0
            files[-1].append(it)
            size += len(it)
        for number, texts in enumerate(files):
            self.rc(f"{INIT}/{number:04}.rc", "".join(texts))


# -- trees to read

def service(number, klass="main"):
    return (f"service daemon_{number} /system/bin/daemon_{number} --name \"daemon {number}\" -v\n    class {klass}\n    user system\n"
            f"    group system inet\n    capabilities NET_ADMIN SYS_NICE\n    task_profiles ProcessCapacityHigh\n"
            f"    onrestart setprop debug.daemon_{number}.restarted 1\n\n")


def action(number):
    """An action as devices have them, of about 190 bytes; one of 50 has a mistake."""
    mistake = "" if number % 50 != 7 else "    mount_all /vendor/etc/fstab --early\n"
    trigger = (f"post-fs-{number % 40}", f"property:sys.unit_{number}.ready=1", f"boot && property:ro.kind_{number % 7}=a")[number % 3]
    return (f"# What unit {number} needs.\non {trigger}\n    mkdir /data/unit/{number} 0770 system system\n"
            f"    write /sys/unit/{number}/enable 1\n    setprop vendor.unit_{number}.state \"ready\"\n    chown system system /dev/unit_{number}\n{mistake}\n")


def sections_of_file(number, bytes_wanted):
    """The text of one file of just so many bytes."""
    texts, size, count = [], 0, 0
    while True:
        it = service(number * 1000 + count) if count % 10 == 0 else action(number * 1000 + count)
        if size + len(it) >= bytes_wanted:
            break
        texts.append(it)
        size, count = size + len(it), count + 1
    return "".join(texts) + "#" * (bytes_wanted - size - 1) + "\n"


# A boot that begins two of three actions of such a tree.
BOOT = ("on early-init\n    setprop ro.kind_1 a\n    setprop ro.kind_2 a\n\non late-init\n"
        + "".join(f"    trigger post-fs-{k}\n" for k in range(40)) + "    trigger boot\n\n")


def many_files(shape):
    """1,000 files with 20,000 actions and 2,000 services."""
    for number in range(1000):
        text = "".join(service(2 * number + k) for k in range(2)) + "".join(action(20 * number + k) for k in range(20))
        shape.rc(ROOT_FILE if number == 0 else f"{INIT}/{number:04}.rc", text if number else BOOT + text)


def bytes_of(shape, files, each):
    shape.rc(ROOT_FILE, BOOT + sections_of_file(0, each - len(BOOT)))
    for number in range(1, files):
        shape.rc(f"{INIT}/{number:04}.rc", sections_of_file(number, each))


def read_trees():
    makers = {
        "files_1000": many_files,
        "mib_4": lambda shape: bytes_of(shape, 128, 32_768),
        "mib_32": lambda shape: bytes_of(shape, 1024, 32_768),
    }
    for name, maker in makers.items():
        def check(shape, maker=maker):
            maker(shape)
            shape.words("check", "tree")

        def run(shape, maker=maker):
            maker(shape)
            shape.script(WIDE + "step 40000\n")
        yield "check_" + name, check
        yield "run_" + name, run


# -- many actions

def ring(shape, count):
    """Each action triggers the next one: an event a step."""
    shape.root("on late-init", "    trigger e0")
    shape.spread(f"on e{k}\n    trigger e{(k + 1) % count}\n\n" for k in range(count))
    shape.script("step 100000\n")


def changes_that_match(shape, count):
    """Each change matches one action, which makes the next change."""
    shape.root("on late-init", "    setprop p0 1")
    shape.spread(f"on property:p{k}=*\n    setprop p{(k + 1) % count} {k}\n\n" for k in range(count))
    shape.script(WIDE + "client c d\nstep 2\n@c set p0 0\nstep 100000\n")
    shape.put("tree/property_allow", "allow d default_prop\n")


def changes_that_match_none(shape, count):
    """Nine of ten events are changes to values that no action tests."""
    sets = [f"    setprop p{k} 0" for k in range(9)]
    shape.root("on late-init", "    trigger loop", "", "on loop", *sets, "    trigger loop")
    shape.spread(f"on property:p{k}=1\n    setprop q 1\n\n" for k in range(count))
    shape.script("step 100000\n")


def many_actions():
    for form, maker in (("ring", ring), ("match", changes_that_match), ("none", changes_that_match_none)):
        for count in SIZES:
            yield f"{form}_{count}", lambda shape, maker=maker, count=count: maker(shape, count)


# -- services

def services(shape, count, period=lambda k: 5, path=lambda k: "/bin/s"):
    shape.spread(f"service s{k} {path(k)}\n    class main\n    restart_period {period(k)}\n\n" for k in range(count))
    shape.root("on late-init", "    class_start main")


def start_of_5000(shape):
    services(shape, 5000)
    shape.script(WIDE + "step 3\n")


def ticks_over_2000(shape, count=2000, ticks=99_996):
    """All wait for their restart, which comes at 50 of the ticks."""
    services(shape, count, lambda k: 50 + k)
    shape.script(WIDE + "plan /bin/s 0 1\nstep 3\ntick 0\n" + "tick 1\n" * ticks)


def ticks_over_10000(shape, count=10_000):
    """One of 10,000 is due at each tick but the first two."""
    services(shape, count, lambda k: count + k)
    shape.script(WIDE + f"plan /bin/s 0 1\nstep 3\ntick 0\ntick {count * 1000 - 1000}\n" + "tick 1000\n" * count)


def classes_again(shape, count=5000):
    """Services started and stopped again and again."""
    services(shape, count)
    commands = [f"    class_{word} main" for word in ("start", "restart", "stop", "reset")]
    shape.root("on late-init", "    trigger loop", "", "on loop", *commands, "    trigger loop")
    shape.script(WIDE + "step 5\ntick 1\n" * 12)


# -- the tree

def files_in_one_directory(shape):
    shape.root()
    shape.spread((f"on late-init\n" + "".join(f"    write /dev/unit/f{100 * number + k} x\n" for k in range(100)) + "\n" for number in range(1000)), 900_000)
    shape.script("step 100000\n")


def deep_path(shape):
    path = "/a" * 2000
    shape.root("on late-init", f"    mkdir {path}", "    trigger loop", "", "on loop", f"    write {path}/f x", f"    chmod 0644 {path}/f",
               f"    copy {path}/f {path}/g", f"    rm {path}/f", f"    rmdir {path}", f"    rm {path}/g", "    trigger loop")
    shape.script("step 7000\n")


# -- many steps

def self_trigger(shape):
    shape.root("on late-init", "    trigger loop", "", "on loop", "    trigger loop")
    shape.script("step 1000000\n")


def property_loop(shape):
    shape.root("on late-init", "    setprop p 0", "", "on property:p=*", "    setprop p 1")
    shape.script("step 1000000\n")


def setprop_900(shape):
    shape.root("on late-init", "    trigger loop", "", "on loop", *(f"    setprop p{k} {k}" for k in range(900)), "    trigger loop")
    shape.script("step 80000\n")


def device(shape, daemons=2000, actions=20_000, rounds=100, steps=4200):
    """2,000 services and 20,000 actions: a ring of events, changes that match, services that start and end."""
    def of(k):
        events = (f"on e{k}", f"on property:vendor.unit_{k - 1}.state=*", f"on e{k - 2} && property:ro.kind=a")[k % 3]
        start = f"    start daemon_{k * daemons // actions}\n" if k % 30 == 0 else ""
        commands = (f"    setprop vendor.unit_{k}.state ${{vendor.unit_{k - 1}.state:-{k}}}\n{start}    trigger e{(k + 3) % (actions + 1)}\n",
                    f"    write /sys/unit/{k}/enable 1\n    mount ext4 /dev/unit{k} /mnt/{k}\n",
                    f"    mkdir /data/unit/{k} 0770 system system\n    export UNIT_{k} ${{vendor.unit_{k - 2}.state}}\n")[k % 3]
        return events + "\n" + commands + "\n"
    shape.root("on early-init", "    setprop ro.kind a", "", "on late-init", "    class_start core", "    trigger e0")
    shape.spread([service(k, "core" if k % 2 else "main") for k in range(daemons)] + [of(k) for k in range(actions)])
    plans = "".join(f"plan /system/bin/daemon_{k} {1000 + k} 1\n" for k in range(0, daemons, 4))
    shape.script(WIDE + plans + f"step {steps}\ntick 700\n" * rounds)


def script_of_most_bytes(shape, lines=99_998):
    """A script of nearly 16 MiB and 100,000 lines: reads, and the notes between them."""
    shape.root("on early-init", "    setprop ro.kind a")
    note = "# " + "what the next line asks for, as a person would note it; " * 5 + "\n"
    pair = [f"@u read vendor.unit_{{}}.state\n", note]
    shape.script("client u shell\n" + "".join(pair[k % 2].format(k) for k in range(lines)) + "step 1\n")


# -- policies, build files and stores of the limits' sizes

CONTEXTS = "* default_prop\nq. wanted_label prefix string\n"


def most_lines(lines):
    """The front of some lines that a text of the limit's size has room for."""
    kept, size = [], 0
    for it in lines:
        size += len(it) + 1
        if size > MOST_BYTES:
            break
        kept.append(it)
    return "".join(it + "\n" for it in kept)


def client_sets(shape, name, count=99_000):
    """A client that asks for so many sets, in a machine with little else to do."""
    shape.root("on boot", "    setprop a 1")
    shape.script(WIDE + "client c shell\n" + "".join(f"@c set {name(k)} {k}\n" for k in range(count)))


def many_allow_lines(shape):
    """An allow text that fills the limit, of which the last line is wanted at each of 99,000 sets."""
    client_sets(shape, lambda k: f"q.{k % 1000}")
    shape.put("tree/property_contexts", CONTEXTS)
    shape.put("tree/property_allow", most_lines([f"allow shell label_{k}" for k in range(44_000)] + ["allow shell wanted_label"]))


def many_contexts(shape):
    """Contexts that fill the limit, each with a name of its own, which 99,000 sets go through."""
    client_sets(shape, lambda k: f"p{k % 40_000}")
    shape.put("tree/property_contexts", most_lines(["* default_prop"] + [f"p{k} wanted_label exact int" for k in range(200_000)]))
    shape.put("tree/property_allow", "allow shell wanted_label\n")


def many_build_pairs(shape):
    """A build file that fills the limit."""
    shape.root("on boot", "    setprop a 1")
    shape.put("tree/system/build.prop", most_lines(f"n{k}=v" for k in range(200_000)))
    shape.script(WIDE + "step 5\n")


# -- a generated boot

def soak(shape, services):
    shape.words("soak", str(services))


def boot_of(shape, names):
    """The boot that a soak generates, with these numbers in its names."""
    shape.root("on boot", "class_start default", "on late-init", "trigger boot",
               *(line for k in names for line in (f"service s{k} /bin/s{k}", f"on property:p{k}=*", f"setprop q{k} ${{p{k}}}")))
    shape.put("tree/property_contexts", "* default_prop\n")
    shape.put("tree/property_allow", "allow d default_prop\n")
    shape.script("client c d\nstep 3\n" + "".join(f"@c set p{k} {k}\n@c read p{k}\n" for k in names) + f"step {len(names) + 1}\n")


def soaks():
    for services in (250, 500, 1000):
        yield f"soak_{services}", lambda shape, services=services: soak(shape, services)
    for services in (250, 500, 1000):
        # in an order that makes no chain in a search tree: each number times another without a common factor
        mixed = [1 + 619 * k % services for k in range(services)]
        yield f"soak_ascending_{services}", lambda shape, services=services: boot_of(shape, range(1, services + 1))
        yield f"soak_mixed_{services}", lambda shape, mixed=mixed: boot_of(shape, mixed)


SHAPES = dict([
    *read_trees(),
    *many_actions(),
    ("start_5000", start_of_5000),
    ("classes_5000", classes_again),
    ("ticks_2000", ticks_over_2000),
    ("ticks_10000", ticks_over_10000),
    ("files_100000", files_in_one_directory),
    ("deep_path", deep_path),
    ("self_trigger", self_trigger),
    ("property_loop", property_loop),
    ("setprop_900", setprop_900),
    ("device", device),
    ("script_mib_16", script_of_most_bytes),
    ("allow_mib_1", many_allow_lines),
    ("contexts_mib_1", many_contexts),
    ("build_mib_1", many_build_pairs),
    *soaks(),
])


def main():
    unknown = [it for it in sys.argv[2:] if it not in SHAPES]
    folder = sys.argv[1] if len(sys.argv) > 1 else ""
    if not folder or folder.startswith("-") and folder != "--known" or unknown:
        sys.exit(f"bench: {' '.join(unknown) or folder or 'no folder'}: usage: inputs.py FOLDER [SHAPE..], of {' '.join(SHAPES)}")
    if folder == "--known":
        return
    for name in sys.argv[2:] or SHAPES:
        SHAPES[name](Shape(folder, name))


if __name__ == "__main__":
    main()
