"""The tests of the examples, edits that break the boot of the device, and edits that don't matter."""
import os
import shutil
import subprocess
from typing import NamedTuple

from boot import runs as boot_runs

DEVICE, PRODUCT = "examples/device", "examples/product"
INIT = "/system/etc/init/hw/init.rc"
ALLOW = "/property_allow"
PROPS = "/vendor/build.prop"


class Edit(NamedTuple):
    what: str
    path: str
    old: str  # what stands there; empty to add at the end
    new: str
    named: str = ""  # what a failure must begin with, after its place; nothing if the test must pass


BREAKING = [
    Edit("a trigger is removed", INIT, "    trigger zygote-start\n", "",
         f"failed: @system_server set sys.boot_completed 1: system_server can't ask; zygote never started: {INIT}:90 (start zygote) didn't run, "
         "since nothing triggers zygote-start"),
    Edit("a service is misspelled", INIT, "exec_start derive_sdk", "exec_start derive_sd", f"failed: {INIT}:80: exec_start derive_sd: NoSuchService derive_sd"),
    Edit("a wait for what nobody sets", "/vendor/etc/init/modem_svc.rc", "", "on boot\n    wait_for_prop vendor.modem.ready 1\n",
         "failed: until idle: not reached; init is waiting at /vendor/etc/init/modem_svc.rc:{last} (prop vendor.modem.ready 1)"),
    Edit("a class is misspelled", "/system/etc/init/surfaceflinger.rc", "class core animation", "class cor animation",
         "failed: surfaceflinger never started: no action starts it"),
    Edit("an import leads nowhere", "/system/build.prop", "ro.zygote=zygote64", "ro.zygote=zygote65", "zygote never started: no rc file declares such a service"),
    Edit("the policy lacks a line", ALLOW, "allow odsign odsign_prop\n", "",
         f"failed: until idle: not reached; init is waiting at {INIT}:87 (prop odsign.verification.done 1), trace line {{any}}; "
         "odsign (odsign) asked for it, and was refused: Denied odsign_prop"),
    Edit("charger mode", PROPS, "", "ro.bootmode=charger\n", "late-init never comes when ro.bootmode is charger"),
    Edit("an event is renamed", "/system/etc/init/zz_mount_all.rc", "trigger nonencrypted", "trigger nonencripted",
         f"failed: installd never started: {INIT}:107 (class_start main) didn't run, since nothing triggers nonencrypted"),
    Edit("a start comes later", INIT, "    start vold\n", "    start logd\n", "failed: spawn vold came at trace line {any}, after event post-fs-data at trace line {any}"),
    Edit("a path is misspelled", INIT, "property_service 2", "propertyservice 2",
         f"failed: until idle: not reached; init is waiting at {INIT}:95 (file /dev/socket/propertyservice)"),
    Edit("a class isn't started", INIT, "    class_start early_hal\n", "    class_start hal\n", "failed: spawn keystore2 never came (keystore2 never started: no action starts it)"),
    Edit("a circle", INIT, "    start netd\n", "    wait_for_prop vendor.net.up 1\n    setprop vendor.net.up 1\n",
         f"failed: until idle: not reached; init is waiting at {INIT}:90 (prop vendor.net.up 1), trace line {{any}}; "
         f"{INIT}:91 (setprop vendor.net.up 1) would end this, and init runs nothing while it waits"),
]
HARMLESS = [
    Edit("comments", INIT, "on early-init\n", "# one\n\n# two\non early-init\n"),
    Edit("three folders more", INIT, "    mkdir /data/anr", "    mkdir /data/a\n    mkdir /data/b\n    mkdir /data/c\n    mkdir /data/anr"),
    Edit("a service elsewhere", "/vendor/etc/init/rild.rc", "", "service vendor.new /vendor/bin/new\n    class main\n"),
    Edit("an rc file more", "/product/etc/init/new.rc", "", "on boot\n    start product.new\nservice product.new /product/bin/new\n    oneshot\n"),
    Edit("a property more", PROPS, "", "vendor.new.prop=1\n"),
    Edit("a start more", INIT, "    init_user0\n", "    init_user0\n    start tombstoned\n"),
    Edit("two lines swapped", INIT, "    mkdir /data/misc 01771 system misc\n    mkdir /data/property 0700 root root\n",
         "    mkdir /data/property 0700 root root\n    mkdir /data/misc 01771 system misc\n"),
    Edit("an action more", "/odm/etc/init/panel_tune.rc", "", "on property:sys.boot_completed=1\n    setprop vendor.new 1\n"),
    Edit("a program more", INIT, "    mkdir /cache 0770", "    exec - root root -- /system/bin/vdc volume list\n    mkdir /cache 0770"),
    Edit("options more", "/system/etc/init/netd.rc", "    class main\n", "    class main late_start\n    task_profiles MaxPerformance\n"),
    Edit("a rule of the policy more", ALLOW, "", "allow shell system_prop\n"),
    Edit("blanks at the ends", "/system/etc/init/vold.rc", "    user root\n", "    user root \t\r\n\r\n"),
]


def copy(check, source, name):
    root = os.path.join(check.room, name)
    shutil.rmtree(root, ignore_errors=True)
    shutil.copytree(source, root, ignore=shutil.ignore_patterns("persist.img"))
    return root


def apply(root, edit):
    """Makes the edit; the number of the last line of what it made."""
    place = root + edit.path
    content = ""
    if os.path.exists(place):
        with open(place, encoding="utf-8", newline="") as file:
            content = file.read()
    if edit.old not in content:
        raise AssertionError(f"{edit.what}: {edit.path} hasn't {edit.old!r}")
    content = content.replace(edit.old, edit.new, 1) if edit.old else content + edit.new
    with open(place, "w", encoding="utf-8", newline="") as file:
        file.write(content)
    return content.count("\n")


def text_of(check, folder):
    with open(os.path.join(check.top, folder, "boot.test"), encoding="utf-8") as file:
        return file.read()


def names(line, named):
    """Whether a line has this text, in which {any} is some number."""
    rest = line
    for piece in named.split("{any}"):
        at = rest.find(piece)
        if at < 0:
            return False
        rest = rest[at + len(piece) :]
    return True


def without_notes(lines):
    return [it for it in lines if ": note: until" not in it]


def pecan(check):
    """The tree of the product, as tools/take-product makes it."""
    source = os.path.join(check.room, "product")
    if not os.path.isdir(source):
        shutil.copytree(os.path.join(check.top, PRODUCT), source, symlinks=True)
        take = [os.path.join(check.top, "tools/take-product"), "pecan", "root", "--prop", "ro.boot.hardware=pecan"]
        for words in (["./make-links"], [*take, "--getprop", "getprop", "--sesearch", "sesearch", "--data", "encrypted"]):
            subprocess.run(words, cwd=source, check=True, stdout=subprocess.DEVNULL, timeout=60)
    return os.path.join(source, "root")


def check_examples(check):
    for folder, root in ((PRODUCT, pecan(check)), (DEVICE, os.path.join(check.top, DEVICE, "tree"))):
        check.expect(f"the test of {folder}", [], without_notes(check.said(root, text_of(check, folder))))
    # (the copy that a run gets is the tree, for the run)
    with boot_runs.runs_of(os.path.join(check.top, DEVICE, "tree"), lambda: check.program) as runs:
        with open(os.path.join(check.top, DEVICE, "script"), encoding="utf-8") as file:
            script = file.read()
        with open(os.path.join(check.top, DEVICE, "stdout"), "rb") as file:
            wanted = file.read()
        check.expect("the device's own script", [True, True], [runs.trace(script) == wanted for _ in range(2)])


def check_edits(check):
    test = text_of(check, DEVICE)
    for edit in BREAKING:
        root = copy(check, os.path.join(check.top, DEVICE, "tree"), "edited")
        named = edit.named.replace("{last}", str(apply(root, edit)))
        lines = [it for it in check.said(root, test) if ": failed: " in it]
        if not any(names(it, named) for it in lines):
            check.expect(f"breaking: {edit.what}", named, lines)
        else:
            check.expect(f"breaking: {edit.what}", True, True)
    for edit in HARMLESS:
        root = copy(check, os.path.join(check.top, DEVICE, "tree"), "edited")
        apply(root, edit)
        check.expect(f"harmless: {edit.what}", [], without_notes(check.said(root, test)))
