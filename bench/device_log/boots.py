"""The two boots whose logs are made: walnut's as it is, and one that differs from ROOT in twelve ways, one of each kind."""
import os
import shutil
from typing import NamedTuple

from make_log import TOP, messages_of, write_log

WALNUT = os.path.join(TOP, "examples/device")
LATE_CHECK = """service vendor.loopd /vendor/bin/loopd
    class late_start
    user system

service vendor.watch /vendor/bin/watch
    class late_start
    critical
    user system

on nonencrypted
    exec - root root -- /vendor/bin/late_check --all
    setprop vendor.late.checked 1

on property:ro.vendor.factory=1
    setprop vendor.factory.state on
"""
DEBUG = """on post-fs-data
    mkdir /data/vendor/debug 0770 system system
"""
ONCE = "exit vendor.loopd 1\nexit vendor.watch 1\ntick 5000\n"
END = f"exit cameraserver 139\n{ONCE * 3}exit vendor.watch 1\ntick 5000\nexit vendor.watch 1\n"
ASKERS = {"thermal": "vendor.thermal-hal"}


class Wanted(NamedTuple):
    """A divergence: its kind, and the text that its line of the log has."""

    kind: str
    text: str
    count: int = 1  # the line that has it for the so manieth time


WANTED = (
    Wanted("file", "Parsing file /vendor/etc/init/zz_debug.rc..."),
    Wanted("rc-line", "/vendor/etc/init/android.hardware.nfc.rc: 4: Invalid keyword 'grupp'"),
    Wanted("order", "starting service 'lmkd'..."),
    Wanted("command", "Command 'symlink /vendor/firmware /firmware' action=init (/init.walnut.rc:3)"),
    Wanted("wait", "wait for '/dev/socket/property_service' timed out"),
    Wanted("never-started", "processing action (boot) from (/system/etc/init/hw/init.rc:97)"),
    Wanted("action", "processing action (ro.vendor.factory=1) from (/vendor/etc/init/late_check.rc:"),
    Wanted("refused", "Unable to set property 'vendor.thermal.level'"),
    Wanted("hang", "SVC_EXEC service 'exec 3 (/vendor/bin/late_check --all)'"),
    Wanted("crash", "Service 'cameraserver' (pid"),
    Wanted("loop", "Service 'vendor.loopd' (pid", 3),
    Wanted("critical", "critical process 'vendor.watch' exited 4 times before boot completed"),
)


def script_of_walnut():
    with open(os.path.join(WALNUT, "script"), encoding="utf-8") as file:
        return file.read()


def change(path, old, new):
    """Replaces a text that a file has once."""
    with open(path, encoding="utf-8") as file:
        text = file.read()
    assert text.count(old) == 1, (path, old)
    with open(path, "w", encoding="utf-8") as file:
        file.write(text.replace(old, new))


def add(path, text):
    with open(path, "a", encoding="utf-8") as file:
        file.write(text)


def make_roots(room):
    """The product's ROOT, and the tree of the device that differs from it."""
    root, device = os.path.join(room, "root"), os.path.join(room, "device")
    shutil.copytree(os.path.join(WALNUT, "tree"), root)
    add(f"{root}/vendor/etc/init/late_check.rc", LATE_CHECK)
    shutil.copytree(root, device)
    add(f"{device}/vendor/etc/init/zz_debug.rc", DEBUG)
    add(f"{device}/vendor/build.prop", "ro.vendor.factory=1\n")
    add(f"{device}/vendor/etc/init/android.hardware.gnss.rc", "    disabled\n")
    change(f"{device}/vendor/etc/init/android.hardware.nfc.rc", "group nfc", "grupp nfc")
    change(f"{device}/system/etc/init/hw/init.rc", "    start lmkd\n    start servicemanager\n", "    start servicemanager\n    start lmkd\n")
    change(f"{device}/property_allow", "allow vendor_thermal vendor_thermal_prop\n", "")
    return root, device


def differing_script():
    """Walnut's script up to the wait that hangs, with what goes otherwise on the device."""
    script = script_of_walnut()
    front, rest = script.split("@vold set vold.mount_all.done 1\n")
    assert "file /dev/socket/property_service %\n" in front
    front = front.replace("file /dev/socket/property_service %\n", "tick 2000\n").replace("# post-fs runs vdc", "file /firmware x\n# post-fs runs vdc")
    return f"{front}step 8\n@thermal set vendor.thermal.level 3\n@vold set vold.mount_all.done 1\nstep 8\n{END}"


def clean_messages(version, noise=1, tree=None):
    """Those of walnut's boot, or of the same boot of another tree."""
    return messages_of(tree or os.path.join(WALNUT, "tree"), script_of_walnut(), version, ASKERS, noise)


def differing_messages(device, version, noise=1):
    return messages_of(device, differing_script(), version, ASKERS, noise)


def lines_of(log, wanted):
    """The number of the line of each divergence that a written log has, by its kind."""
    found = {}
    for it in wanted:
        numbers = [number for number, (text, _) in enumerate(log, 1) if it.text in text]
        if len(numbers) >= it.count:
            found[it.kind] = numbers[it.count - 1]
    return found
