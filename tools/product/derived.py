"""The properties that init makes of others (its property_service.cpp), where no file has them."""
from typing import NamedTuple

from product.texts import most_value_bytes

# Of the bootloader's, before it reads the files (ExportKernelBootProps).
BOOT_PROPS = {
    "ro.boot.serialno": "ro.serialno",
    "ro.boot.mode": "ro.bootmode",
    "ro.boot.baseband": "ro.baseband",
    "ro.boot.bootloader": "ro.bootloader",
    "ro.boot.hardware": "ro.hardware",
    "ro.boot.revision": "ro.revision",
}
# Of those of the partitions, in this order.
PRODUCT_PROPS = ("brand", "device", "manufacturer", "model", "name")
PRODUCT_SOURCES = ("product", "odm", "vendor", "system_ext", "system")
ABI_SOURCES = ("product", "odm", "vendor", "system")
ABI_LIST = "ro.product.cpu.abilist"
FINGERPRINT = "ro.build.fingerprint"
USB_CONFIG = "persist.sys.usb.config"


class Pair(NamedTuple):
    name: str  # or None, for a line that says nothing, which is then the value
    value: str
    place: str  # FILE:LINE, for people


def product_props(held):
    """ro.product.brand and its like."""
    named = [it for it in held.get("ro.product.property_source_order", "").split(",") if it]
    order = named if named and set(named) <= set(PRODUCT_SOURCES) else PRODUCT_SOURCES
    pairs = []
    for prop in PRODUCT_PROPS:
        source = next((it for it in order if held.get(f"ro.product.{it}.{prop}")), None)
        if source and not held.get(f"ro.product.{prop}"):
            pairs.append(Pair(f"ro.product.{prop}", held[f"ro.product.{source}.{prop}"], f"ro.product.{source}.{prop}"))
    return pairs


def abi_props(held):
    """The lists of the processor's interfaces, of the first partition that has one."""
    if held.get(ABI_LIST):
        return []
    for source in ABI_SOURCES:
        wide, narrow = (held.get(f"ro.{source}.product.cpu.abilist{it}", "") for it in (64, 32))
        if wide or narrow:
            whole = ",".join(it for it in (wide, narrow) if it)
            made = {ABI_LIST: whole, f"{ABI_LIST}32": narrow, f"{ABI_LIST}64": wide}
            return [Pair(name, value, f"ro.{source}.product.cpu.abilist") for name, value in made.items() if value]
    return []


def fingerprint(held):
    """The build's fingerprint."""
    if held.get(FINGERPRINT):
        return []
    words = "ro.product.brand / ro.product.name / ro.product.device : ro.build.version.release_or_codename"
    words += " / ro.build.id / ro.build.version.incremental : ro.build.type / ro.build.tags"
    value = "".join(it if it in "/:" else held.get(it) or "unknown" for it in words.split())
    return [Pair(FINGERPRINT, value, "its parts")] if len(value) <= most_value_bytes(FINGERPRINT) else []


def usb_config(held):
    """The configuration of USB, to which a build that can be debugged adds adb."""
    config, debuggable = held.get(USB_CONFIG, ""), held.get("ro.debuggable") in ("1", "y", "yes", "on", "true")
    if config in ("", "none"):
        value = "adb" if debuggable else "none"
    elif debuggable and "adb" not in config:
        value = f"{config},adb"
    else:
        return []
    return [Pair(USB_CONFIG, value, "ro.debuggable")] if value != config else []


def derived(held):
    """All of them, in the order in which init makes them."""
    pairs = []
    for make in (product_props, fingerprint, abi_props, usb_config):
        pairs += make({**held, **{it.name: it.value for it in pairs}})
    return pairs
