"""Properties that a device has before any rc file is read, or that init itself sets: what a log shows of them."""
import os
import shutil
import tempfile
from contextlib import contextmanager
from typing import NamedTuple

from product.disk import copy_file
from product.texts import Stop, is_legal_name, is_utf8, line_fault, most_value_bytes

from device_log.rc_tree import triggers_of_text

OWN = ("sys.init.perf_lsm_hooks", "ro.persistent_properties.ready", "dev.mnt.", "partition.", "ro.boottime.")
BUILD_FILE = "vendor/build.prop"
HARDWARE = "ro.boot.hardware"
UNREADABLE = 2


class Known(NamedTuple):
    name: str
    value: str
    line: int
    why: str

    def __str__(self):
        return f"{self.name}={self.value}: {self.why} (take-product --prop {self.name}={self.value})"


def known_before(log, tree):
    """The properties that ROOT's build files lack, and which its rc files ask for."""
    given, found = tree.sources.build_properties(), {}
    asked = " ".join(word for words in tree.words.values() for word in words)
    for it in log.of("action"):
        for name, value in triggers_of_text(it.found["triggers"]).properties.items():
            if name.startswith(OWN) and name not in given and name not in found:
                found[name] = Known(name, "1" if value == "*" else value, it.line, "init sets it itself")
    for name, value in log.boot_props.items():
        if given.get(name) != value and name in asked and name not in found:
            found[name] = Known(name, value, 1, "by the kernel's command line in the log")
    if HARDWARE in log.boot_props and "ro.hardware" in asked and given.get("ro.hardware") != log.boot_props[HARDWARE]:
        found["ro.hardware"] = Known("ro.hardware", log.boot_props[HARDWARE], 1, "by the kernel's command line in the log")
    return [it for it in found.values() if can_have(it.name, it.value)]


def can_have(name, value):
    return is_legal_name(name) and is_utf8(value) and line_fault(value) is None and len(value.encode()) <= most_value_bytes(name)


@contextmanager
def root_with(root, known):
    """ROOT, or a copy of it whose build file has these properties too."""
    if not known:
        yield root
        return
    with tempfile.TemporaryDirectory(prefix="device-log-") as room:
        copy = os.path.join(room, "root")
        try:
            shutil.copytree(root, copy, symlinks=True, copy_function=copy_file)
            os.makedirs(os.path.join(copy, "vendor"), exist_ok=True)
            with open(os.path.join(copy, BUILD_FILE), "a", encoding="utf-8") as file:
                file.write("\n" + "".join(f"{it.name}={it.value}\n" for it in known))
        except (OSError, shutil.Error) as why:
            first = why.args[0][0][2] if isinstance(why, shutil.Error) else why.strerror
            raise Stop(UNREADABLE, f"{root}: it can't be copied: {first}") from None
        yield copy
