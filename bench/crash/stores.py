"""The run that bench/crash stops, its stores, and the run that opens what is left."""
import os

HERE = os.path.dirname(os.path.abspath(__file__))
TOP = os.path.join(HERE, "../..")

ROOT_FILE = "/system/etc/init/hw/init.rc"
STORE = "tree/data/property"
IMAGE = f"{STORE}/persist.img"
FILES = {
    f"tree{ROOT_FILE}": "on early-init\n    load_persist_props\n",
    "tree/property_allow": "allow shell default_prop\n",
    f"{STORE}/persist.txt": "persist 2\npersist.a any 0\n",
    "opening": "client u shell\nstep 1\n@u set persist.z 1\n",
}
# The texts of these stores differ in length, some of them by pages.
VALUES = ["1", "2" * 91, "", "3", "4" * 50, "5"]
MANY = 120
A_SETS = [("persist.a", value) for value in VALUES]
SETS = [*A_SETS, *((f"persist.m{k:03}", "7" * 80) for k in range(MANY)), *A_SETS]


def pairs_at(step):
    """The saved pairs after so many of the run's sets."""
    held = {"persist.a": "0"}
    for name, value in SETS[:step]:
        held[name] = value
    return held


def text_with(held):
    lines = [f"{name} any {value or '%'}\n" for name, value in sorted(held.items())]
    return "".join(["persist 2\n", *lines]).encode()


def opening_trace(held):
    """What the opening run writes where these pairs are stored."""
    puts = [f" put {k + 1} {name} {value or '%'}\n" for k, (name, value) in enumerate(sorted(held.items()))]
    number = len(puts) + 1
    head = f"initsim 1\nboot\nnext\n event early-init\n action {ROOT_FILE} 1\n command {ROOT_FILE} 2 load_persist_props\n"
    set_of_z = f"set 1 persist.z 1\n put {number} persist.z 1\n stored persist.z\n accepted {number}\n"
    return "".join([head, *puts, " ok\n", set_of_z, "client 1 u shell\nend\n"]).encode()


def make_tree(folder):
    """The tree, and the scripts of both runs."""
    for path, text in {**FILES, "script": script_of_sets()}.items():
        place = os.path.join(folder, path)
        os.makedirs(os.path.dirname(place), exist_ok=True)
        with open(place, "w") as file:
            file.write(text)


def script_of_sets():
    return "client u shell\nstep 1\n" + "".join(f"@u set {name} {value or '%'}\n" for name, value in SETS)
