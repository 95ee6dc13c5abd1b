"""The property contexts."""
from typing import NamedTuple

from product.texts import counted, text_of

# The property contexts in the order in which init reads them.
CONTEXTS = (
    "/system/etc/selinux/plat_property_contexts",
    "/system_ext/etc/selinux/system_ext_property_contexts",
    "/vendor/etc/selinux/vendor_property_contexts",
    "/product/etc/selinux/product_property_contexts",
    "/odm/etc/selinux/odm_property_contexts",
)
DEFAULT_LINE = "* default_prop"
TYPES = {"string", "bool", "int", "uint", "double", "size"}
CONTROLS = {"ctl.start$": "ctl.start", "ctl.stop$": "ctl.stop", "ctl.restart$": "ctl.restart"}

class Context(NamedTuple):
    key: tuple
    words: list  # of which the second is the label


def is_type(words):
    return not words or words[0] == "enum" and len(words) > 1 or len(words) == 1 and words[0] in TYPES


def control_name(name):
    """The name by which this machine asks who may set a control name; None where it doesn't ask of this one."""
    if not name.startswith("ctl.") or name in ("ctl.", *CONTROLS.values()):
        return name
    return CONTROLS.get(name)


class Left(Exception):
    """Why a line is left, and whether a device refuses it too."""

    def __init__(self, why, trips=True):
        super().__init__(why)
        self.trips = trips


def context_of(line):
    """The context of a line of AOSP's, in our words."""
    name, *rest = line.split()
    label = rest[0].split(":")[2] if rest and rest[0].count(":") >= 3 else None
    kind, types = (rest[1] if len(rest) > 1 else "prefix"), rest[2:]
    if label is None:
        raise Left("NAME and a context u:object_r:LABEL:s0 are expected")
    if kind not in ("exact", "prefix"):
        raise Left(f'exact or prefix is expected, "{kind}" is given')
    if not is_type(types):
        raise Left(f'"{" ".join(types)}" is no type')
    mapped = control_name(name)
    if mapped is None:
        raise Left(f"{name}: this machine asks who may set ctl.start, ctl.stop and ctl.restart, whatever the service", trips=False)
    kind = "exact" if mapped != name else kind
    if mapped == "*":
        return Context(("*",), ["*", label, *(["prefix"] if types else []), *types])
    return Context((mapped, kind), [mapped, label, kind, *types])


class Contexts:
    """The contexts of the files so far. Of one name and kind the last one holds."""

    def __init__(self, aliases, report):
        self.aliases, self.report = aliases, report
        self.lines, self.places = {}, {}

    def add_file(self, path, text):
        """Adds the contexts of a file, and answers how many it has."""
        count = 0
        for number, line in enumerate(text.split("\n"), 1):
            if line.strip() and not line.strip().startswith("#"):
                count += self.add(line, f"{path}:{number}")
        return count

    def add(self, line, place):
        """Adds the context of a line, and answers whether it has one."""
        try:
            context = context_of(line)
        except Left as left:
            self.report.left(f"{place}: {left}", left.trips)
            return False
        if context.key in self.lines:
            what = " ".join(context.key)
            why = f"{what} stands in {place} too, and the last one is taken; init refuses two"
            self.report.left(f"{self.places[context.key]}: {why}", trips=True)
            del self.lines[context.key]
        label = context.words[1]
        if label in self.aliases:
            context.words[1] = self.aliases[label]
            self.report.left(f"{place}: {label} is an alias in the policy, and its type {self.aliases[label]} is taken")
        self.lines[context.key], self.places[context.key] = " ".join(context.words), place
        return True


def take_contexts(device, aliases, report):
    """The text of property_contexts, with a type for each label that is its alias; None where the product has none."""
    contexts, absent = Contexts(aliases, report), []
    for path in CONTEXTS:
        content = device.read(path)
        if content is None:
            absent.append(path)
            continue
        count = contexts.add_file(path, text_of(content))
        report.took(f"{path}: {counted(count, 'line', 'lines')}")
    if absent == list(CONTEXTS):
        report.lacks("property_contexts: OUT has none, so each property has the context default_prop and the type string", trips=True)
        return None
    if absent:
        report.lacks(f"{', '.join(absent)}; a product needn't have them all")
    contexts.lines.setdefault(("*",), DEFAULT_LINE)
    return "".join(f"{it}\n" for it in ["# Made by take-product from the product's property contexts.", *contexts.lines.values()])
