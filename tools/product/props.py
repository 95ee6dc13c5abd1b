"""The build files of all partitions, merged into the two that are read."""
from typing import NamedTuple

from product.derived import BOOT_PROPS, Pair, derived
from product.texts import bytes_of, counted, expand, is_legal_name, is_utf8, most_value_bytes, text_of

# The build files in the order in which init loads them (PropertyLoadBootDefaults of its property_service.cpp), as those that
# become /system/build.prop and those that become /vendor/build.prop. Of one name the last pair holds.
SYSTEM_PROPS = ("/second_stage_resources/system/etc/ramdisk/build.prop", "/system/build.prop", "system_ext", "/system_dlkm/etc/build.prop")
VENDOR_PROPS = ("/vendor/default.prop", "/vendor/build.prop", "/vendor_dlkm/etc/build.prop", "/odm_dlkm/etc/build.prop", "odm", "product")
# What Android 11 and earlier ones have before these: the first that is there.
DEFAULT_PROPS = ("/system/etc/prop.default", "/prop.default", "/default.prop")
# A partition's etc/build.prop; where it isn't there, default.prop and build.prop, up to this version of its SDK.
LEGACY_UNTIL = {"system_ext": 30, "odm": 28, "product": 30}
MOST_IMPORTS = 16
NOT_IN_FILES = {"sys.powerctl", "selinux.restorecon_recursive"}


def pair_of(line, place, report):
    """The pair of a line of a build file, as init reads it. A line that is none stays in ROOT, so that rc-lint tells it."""
    name, equals, value = line.partition("=")
    name, value = name.strip(), value.strip()
    if equals and not name.startswith("ctl.") and name not in NOT_IN_FILES:
        return Pair(name, value, place)
    what = f"{name} may not stand in a build file" if equals else "the line has no ="
    report.left(f"{place}: {what}, and says nothing", trips=bool(equals))
    # (this machine would take the names that only init itself knows)
    return Pair(None, f"# {line}" if name in NOT_IN_FILES else line, place)


def named(loaded):
    """The pairs of all these build files, in their order."""
    return [pair for _, pairs in loaded for pair in pairs if pair.name is not None]


def passes(name, only):
    """Whether a name fits the filter of an import in a build file."""
    return not only or (name.startswith(only[:-1]) if only.endswith("*") else name == only)


def pairs_in(device, path, given, report, only="", depth=0):
    """The pairs of a build file and of those that it imports; None where it isn't there."""
    content = device.read(path)
    if content is None:
        return None
    pairs = []
    for number, raw in enumerate(text_of(content).split("\n"), 1):
        line, place = raw.strip(), f"{path}:{number}"
        if not line or line.startswith("#"):
            continue
        if line.startswith("import ") and not only:
            pairs += imported_pairs(device, line.split()[1:], given, report, place, depth)
            continue
        pair = pair_of(line, place, report)
        if passes(pair.name or "", only):
            pairs.append(pair)
    return pairs


def imported_pairs(device, words, given, report, place, depth):
    """The pairs of a file that a build file imports, by a line `import PATH` or `import PATH FILTER`."""
    wanted, only = (*words, "", "")[:2]
    path, lacking = expand(wanted, given)
    if lacking:
        report.lacks(f"{lacking}, by which {place} imports {wanted}: give it by --prop {lacking}=VALUE")
        return []
    found = None
    if path and path.startswith("/") and depth < MOST_IMPORTS:
        found = pairs_in(device, path, given, report, only, depth + 1)
    if found is None:
        report.lacks(f"{path or wanted}, which {place} imports", trips=device.surely_lacks(path or wanted))
    return found or []


def partition_props(device, partition):
    """The paths of a partition's build files."""
    path = f"/{partition}/etc/build.prop"
    return [path] if device.follow(path) else [f"/{partition}/default.prop", f"/{partition}/build.prop"]


def is_too_new(partition, pairs):
    """Whether init stops at the partition's default.prop and build.prop."""
    version = {it.name: it.value for it in pairs}.get(f"ro.{partition}.build.version.sdk", "")
    return version.isdigit() and int(version) > LEGACY_UNTIL[partition]


def default_props(device):
    return [it for it in DEFAULT_PROPS if device.follow(it)][:1]


def load_props(device, wanted, given, report):
    """The build files that are there, each with its pairs, in the order in which init loads them."""
    loaded = []
    for it in wanted:
        paths = [it] if it.startswith("/") else partition_props(device, it)
        for path in paths:
            pairs = pairs_in(device, path, given, report)
            if pairs is None:
                continue
            report.took(f"{path}: {counted(len(named([(path, pairs)])), 'property', 'properties')}")
            if len(paths) > 1 and is_too_new(it, pairs):
                report.lacks(f"/{it}/etc/build.prop: init stops where so new a partition has its properties in {path}", trips=True)
            loaded.append((path, pairs))
    return loaded


def exported(given):
    """The bootloader's properties, and those that init makes of them."""
    made = {to: given[it] for it, to in BOOT_PROPS.items() if it in given}
    return {**made, **given}


def tell_early(loaded, given, report):
    """Says which pairs of files can't hold on a device, since init has set their names of the bootloader's before."""
    sources = {to: it for it, to in BOOT_PROPS.items()}
    for pair in named(loaded):
        if pair.name in sources and pair.name not in given:
            source = sources[pair.name]
            report.lacks(f"{source}: init makes {pair.name} of it before it reads {pair.place}: give it by --prop {source}=VALUE")


def tell_refused(pairs, report):
    """Says which pairs are set neither here nor, mostly, on a device."""
    for pair in pairs:
        size = len(bytes_of(pair.value))
        if not is_legal_name(pair.name):
            why = "it is no legal name"
        elif not is_utf8(pair.value):
            why = "its value isn't UTF-8"
        elif size > most_value_bytes(pair.name):
            why = f"its value has {size} bytes, and {most_value_bytes(pair.name)} is the most"
        else:
            continue
        report.lacks(f"{pair.name}, of {pair.place}, since a boot refuses to set it: {why}", trips=pair.place.startswith("/"))


class Props(NamedTuple):
    files: dict  # path in ROOT -> text
    held: dict  # name -> value, what imports see


def take_props(device, given, report):
    """The two build files that are read, made of all that init loads."""
    given = exported(given)
    system = load_props(device, [*default_props(device), *SYSTEM_PROPS], given, report)
    vendor = load_props(device, VENDOR_PROPS, given, report)
    if not any(path == "/system/build.prop" for path, _ in system):
        report.lacks("/system/build.prop", trips=True)
    tell_early(system + vendor, given, report)
    vendor.append(("what the bootloader gives (--prop, --getprop)", [Pair(name, value, "the bootloader's") for name, value in sorted(given.items())]))
    vendor.append(("what init makes of these", derived({it.name: it.value for it in named(system + vendor)})))
    last = {pair.name: pair for pair in named(system + vendor)}
    tell_refused(last.values(), report)
    files = {"/system/build.prop": merged(system, last), "/vendor/build.prop": merged(vendor, last)}
    return Props(files, {name: pair.value for name, pair in last.items()})


def merged(loaded, last):
    """A build file: each pair that holds, and as a comment each that a later one overrides."""
    lines = ["# Made by take-product from the build files of all partitions, in the order in which init loads them."]
    for path, pairs in loaded:
        if pairs:
            lines.append(f"# -- {path}")
        for pair in pairs:
            if pair.name is None:
                lines.append(pair.value)
                continue
            text = f"{pair.name}={pair.value}"
            lines.append(text if last[pair.name] is pair else f"# {text} (overridden at {last[pair.name].place})")
    return "".join(f"{it}\n" for it in lines)
