"""What mount_all does once /data is there (queue_fs_event of init's builtins.cpp): this machine doesn't model it."""
import re

MOUNTED_RC = "/system/etc/init/zz_mount_all.rc"
# By whether /data is encrypted, by file, or not at all.
DATA = {
    "encrypted": ("setprop ro.crypto.state encrypted", "setprop ro.crypto.type file", "trigger nonencrypted"),
    "unencrypted": ("setprop ro.crypto.state unencrypted", "trigger nonencrypted"),
}
PLAIN = re.compile(r'[^\s"#\\]+')


def is_early(words):
    """Whether a mount_all leaves /data to a later one."""
    return "--early" in words


def mounted(mounts, data):
    """The rc file that does it, and the place of the mount_all that it stands for: the first with --late, else the last one."""
    late = [it for it in mounts if "--late" in it[1]]
    chosen = late[:1] or mounts[-1:]
    if data is None or not chosen:
        return None, None
    place, _, header = chosen[0]
    if not all(PLAIN.fullmatch(it) for it in header):
        return None, None
    lines = [f"# This file belongs to the model: it does what the mount_all of {place} does where /data is {data}.", " ".join(header)]
    return "".join(f"{it}\n" for it in [*lines, *(f"    {it}" for it in DATA[data])]), place
