"""All differences of two boots, by what they are of."""
from boot_diff.commands import CommandDifferences
from boot_diff.difference import listed
from boot_diff.inputs import act_differences, diagnostic_differences, reading_differences
from boot_diff.properties import PropertyDifferences
from boot_diff.services import ServiceDifferences
from boot_diff.troubles import failure_differences, reboot_differences, refusal_differences, wait_differences
from product.texts import counted


def differences(old, new):
    """The differences by their group, causes first: what was given, why the boot doesn't go on, what was refused, what ran, and what followed."""
    commands = CommandDifferences(old, new).found
    services = ServiceDifferences(old, new, commands).found
    properties = PropertyDifferences(old, new, commands).found
    waits = wait_differences(old, new)
    tell_lost(old, new, [it for it in waits if it.ends_boot])
    return {
        "input": diagnostic_differences(old, new) + act_differences(old, new),
        "stop": reboot_differences(old, new) + [it for it in waits if it.ends_boot],
        "refusal": refusal_differences(old, new),
        "command": commands,
        "service": services,
        "wait": [it for it in waits if not it.ends_boot],
        "failure": failure_differences(old, new),
        "property": properties + reading_differences(old, new),
    }


def tell_lost(old, new, open_waits):
    """Says with a wait that is open how many services it costs."""
    lost = [it for it in old.services if it not in new.services]
    for it in open_waits if lost else ():
        it.note("service", f"{counted(len(lost), 'service no longer starts', 'services no longer start')}: {listed(lost)}")
