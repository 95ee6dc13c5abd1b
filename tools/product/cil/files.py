"""The files of CIL that init compiles (OpenSplitPolicy of its selinux.cpp), and whether it does."""
import re

from product.cil.rules import read_policy
from product.texts import UNREADABLE, Stop, text_of

PLATFORM = "/system/etc/selinux/plat_sepolicy.cil"
VERSION_FILE = "/vendor/etc/selinux/plat_sepolicy_vers.txt"
VERSION = re.compile(r"[A-Za-z0-9][A-Za-z0-9._-]*")
VENDOR = "/vendor/etc/selinux/vendor_sepolicy.cil"
VERSIONED = "/vendor/etc/selinux/plat_pub_versioned.cil"
# In place of both, in Android 8.
NONPLAT = "/vendor/etc/selinux/nonplat_sepolicy.cil"
ODM = "/odm/etc/selinux/odm_sepolicy.cil"

PRECOMPILED = ("/odm/etc/selinux/precompiled_sepolicy", "/vendor/etc/selinux/precompiled_sepolicy")
# The sums that have to be the same: a partition's, and that behind the name of the compiled policy.
SUMS = {
    **{
        f"/{it}/etc/selinux/{name}_sepolicy_and_mapping.sha256": f".{name}_sepolicy_and_mapping.sha256"
        for it, name in (("system", "plat"), ("system_ext", "system_ext"), ("product", "product"))
    },
    # (of Android 8 and 9)
    "/system/etc/selinux/plat_and_mapping_sepolicy.cil.sha256": ".plat_and_mapping.sha256",
}


def first_line(content):
    return text_of(content).split("\n")[0].strip()


def version_of(device):
    """The version of the platform's policy for which the vendor's is made."""
    content = device.read(VERSION_FILE)
    if content is None:
        raise Stop(UNREADABLE, f"{PLATFORM}:1: it needs {VERSION_FILE}, which isn't there")
    version = first_line(content)
    if not VERSION.fullmatch(version):
        raise Stop(UNREADABLE, f"{VERSION_FILE}:1: a version as 33.0 is expected, \"{version[:60]}\" is given")
    return version


def wanted_files(device, version):
    """The paths in init's order, each with whether it has to be there."""
    mapping = f"etc/selinux/mapping/{version}"
    is_split = device.follow(VENDOR) is not None
    return {
        PLATFORM: True,
        f"/system/{mapping}.cil": True,
        f"/system/{mapping}.compat.cil": False,
        "/system_ext/etc/selinux/system_ext_sepolicy.cil": False,
        f"/system_ext/{mapping}.cil": False,
        f"/system_ext/{mapping}.compat.cil": False,
        "/product/etc/selinux/product_sepolicy.cil": False,
        f"/product/{mapping}.cil": False,
        **({VERSIONED: True, VENDOR: True} if is_split else {NONPLAT: True}),
        ODM: False,
    }


def read_texts(device):
    """The texts of the files by their paths, a character for each byte."""
    version, texts = version_of(device), {}
    for path, is_needed in wanted_files(device, version).items():
        content = device.read(path)
        if content is not None:
            texts[path] = content.decode("latin-1")
        elif is_needed:
            needed = f"{VENDOR} or {NONPLAT}, and neither is" if path == NONPLAT else f"{path}, which isn't"
            raise Stop(UNREADABLE, f"{VERSION_FILE}:1: a policy of version {version} needs {needed} there")
    return texts


def read_split(device):
    """The policy in the files of CIL; None where the product has no such files."""
    return None if device.follow(PLATFORM) is None else read_policy(read_texts(device))


def differing_sum(device):
    """The precompiled policy that init leaves, and the file whose sum differs from its own; None where there is none."""
    path = next((it for it in PRECOMPILED if device.follow(it)), None)
    for own, ending in SUMS.items() if path else ():
        sums = [device.read(it) for it in (own, path + ending)]
        if sums != [None, None] and (None in sums or not first_line(sums[0]) or first_line(sums[0]) != first_line(sums[1])):
            return path, own, path + ending
    return None
