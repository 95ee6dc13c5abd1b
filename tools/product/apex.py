"""The rc files of the APEXes, which init reads once they are there (ParseApexConfigs of its apex_init_util.cpp)."""
import posixpath
import re
import stat

# Read last: it stands in the last folder that init reads, behind its other files.
APEX_RC = "/product/etc/init/zz_apex.rc"
# A name of an rc file, and the version of the SDK from which on it holds.
NAME = re.compile(r"(.*)\.([0-9]*)rc")


def apex_files(device, held):
    """The paths of the rc files in the APEXes that stand unpacked in OUT/apex."""
    found = []
    for name, _ in device.entries("/apex") or []:
        folder = posixpath.join("/apex", name, "etc")
        # (a name with @ is the same package by its version)
        if "@" not in name and device.is_folder(folder):
            found += [posixpath.join(folder, it) for it in chosen(device.entries(folder), held.get("ro.build.version.sdk", ""))]
    return found


def chosen(entries, sdk):
    """Of the rc files of a folder, for each name the one of the highest version that the SDK has."""
    most = int(sdk) if sdk.isdigit() else None
    best = {}
    for name, mode in entries:
        fits = NAME.fullmatch(name)
        if not fits or stat.S_ISDIR(mode):
            continue
        version = int(fits[2] or 0)
        if (most is None or version <= most) and version >= best.get(fits[1], (0,))[0]:
            best[fits[1]] = version, name
    return sorted(name for _, name in best.values())


def tell_packed(device, report):
    """Says which APEXes stand in OUT packed alone."""
    there = {name for name, _ in device.entries("/apex") or []}
    packed = []
    for partition in ("system", "system_ext", "product", "vendor", "odm"):
        for name, _ in device.entries(f"/{partition}/apex") or []:
            front, dot, kind = name.rpartition(".")
            if dot and kind in ("apex", "capex") and front not in there:
                packed.append(f"/{partition}/apex/{name}")
    if packed:
        report.lacks(f"the rc files in {', '.join(packed)}: unpack each to OUT/apex/NAME (deapexer extract)")
