"""What a dump of a device's properties has for us: the persistent store, and what the bootloader gives."""
import re

from product.device import read_plain
from product.texts import BAD_GIVEN, MOST_VALUE_BYTES, Stop, bytes_of, counted, is_legal_name, is_utf8, line_fault, quoted, text_of


# The types that the store spells; string, double and size are any.
TYPES = {"bool", "int", "uint", "enum"}
FORMS = {"bool": r"0|1|false|true", "int": r"-?[0-9]{1,19}", "uint": r"[0-9]{1,20}"}
RANGES = {"int": range(-(2**63), 2**63), "uint": range(2**64)}


def types_in(contexts):
    """The types of names in the text of property_contexts, by kind and name."""
    lines = [it.split() for it in contexts.split("\n") if it.strip() and not it.startswith("#")]
    return {(words[2] if len(words) > 2 else "prefix", words[0]): words[3] if len(words) > 3 else "string" for words in lines}


def type_of(name, types):
    """The type of a property, as the store spells it."""
    found = types.get(("exact", name))
    for size in range(len(name), -1, -1):
        found = found or types.get(("prefix", name[:size]))
    found = found or next((it for key, it in types.items() if key[-1] == "*"), "string")
    return found if found in TYPES else "any"


def passes(kind, value):
    if not value or kind not in FORMS:
        return True
    return re.fullmatch(FORMS[kind], value) is not None and (kind not in RANGES or int(value) in RANGES[kind])


def store_text(pairs, types):
    """The text of the persistent store, version 2, for pairs of names and values."""
    lines = [f"{name} {type_of(name, types)} {quoted(value)}" for name, value in sorted(pairs.items())]
    return "".join(f"{it}\n" for it in ["persist 2", *lines])


def dumped(text):
    """The pairs of a dump of getprop. A value may have several lines."""
    for found in re.finditer(r"^\[([^\]\n]*)\]: \[(.*?)\]\r?$", text, re.DOTALL | re.MULTILINE):
        yield found[1], found[2]


def fault_of(name, value, kind="any"):
    """Why the store can't have the pair, if it can't."""
    size = len(bytes_of(value))
    if not is_legal_name(name):
        return "it is no legal name"
    if size > MOST_VALUE_BYTES:
        return f"its value has {size} bytes, and {MOST_VALUE_BYTES} is the most"
    if not is_utf8(value):
        return "its value isn't UTF-8"
    return None if passes(kind, value) else f"its value is no {kind}"


def read_dump(path):
    """The properties of a device, by what getprop wrote."""
    found = dict(dumped(text_of(read_plain(path, BAD_GIVEN))))
    if not found:
        raise Stop(BAD_GIVEN, f"{path}: it has no line of getprop's, as in: [persist.sys.timezone]: [Europe/Berlin]")
    return found


def take_boot(path, found, report):
    """The properties of the dump that a bootloader gives."""
    pairs = {name: value for name, value in found.items() if name.startswith("ro.boot.") and not fault_of(name, value)}
    for name in [it for it in pairs if line_fault(pairs[it])]:
        report.left(f"{path}: {name}: its value {line_fault(pairs.pop(name))}")
    if pairs:
        report.took(f"{path}: {counted(len(pairs), 'property', 'properties')} of the bootloader (ro.boot.)")
    return pairs


def take_store(path, found, contexts, report):
    """The text of the store of a device with these properties, under the text of property_contexts."""
    pairs, types = {}, types_in(contexts or "")
    for name, value in found.items():
        why = fault_of(name, value, type_of(name, types))
        if not name.startswith("persist."):
            continue
        if why:
            report.left(f"{path}: {name}: {why}", trips=True)
        else:
            pairs[name] = value
    report.took(f"{path}: {counted(len(pairs), 'persistent property', 'persistent properties')}")
    return store_text(pairs, types)
