"""What was given to the two boots: their diagnostics, what the script's actors did, and what clients read."""
from collections import Counter, defaultdict
from itertools import zip_longest

from boot_diff.difference import Difference, Place, times
from boot_trace.lines import Absent, Exit, File, Found, Set


def diagnostic_differences(old, new):
    sides = [diagnostics_by_kind(boot) for boot in (old, new)]
    found = []
    for kind in dict.fromkeys([*sides[1], *sides[0]]):
        before, after = (side.get(kind, []) for side in sides)
        found += [Difference("!", "diagnostic", kind[1], "is new", None, it) for it in after[len(before) :]]
        found += [Difference("-", "diagnostic", kind[1], "is gone", it) for it in before[len(after) :]]
    return found


def diagnostics_by_kind(boot):
    found = defaultdict(list)
    for it in boot.trace.diagnostics:
        found[it.file, it.kind].append(Place(it.file, it.line))
    return found


def act_differences(old, new):
    """Acts of the script that are on one side alone, and the time that passed."""
    counts = [acts(boot) for boot in (old, new)]
    found = []
    for act in dict.fromkeys([*counts[1], *counts[0]]):
        before, after = (it[act] for it in counts)
        if before != after:
            how = "is gone" if not after else "is new" if not before else f"comes {times(after)}, was {times(before)}"
            found.append(Difference("-" if not after else "+" if not before else "~", "input", act, how))
    clocks = [boot.trace.entries[-1].clock if boot.trace.entries else 0 for boot in (old, new)]
    if clocks[0] != clocks[1]:
        found.append(Difference("~", "input", "the time of the whole boot", f"{clocks[1]} ms, was {clocks[0]} ms"))
    return found


def acts(boot):
    return Counter(it for it in map(lambda entry: act(boot, entry.head), boot.trace.entries) if it)


def act(boot, head):
    """What an actor of the script did, as a script has it."""
    if type(head) is Set:
        return f"act @{boot.client_name(head.client)} set {head.name} {head.value}"
    if type(head) is Exit:
        return f"act exit {head.name} {head.status}"
    return f"act file {head.path}" if type(head) is File else None


def reading_differences(old, new):
    """What clients read: the values, and not the numbers of the sets by then."""
    found = []
    for before, after in zip(old.trace.clients, new.trace.clients):
        if before.name != after.name:
            continue
        for one, other in zip_longest(readings(before), readings(after)):
            if one != other:
                found.append(changed_reading(after.name, one, other))
    return found


def readings(client):
    return [(it.name, it.value if type(it) is Found else None) for it in client.readings if type(it) in (Found, Absent)]


def changed_reading(client, one, other):
    name = (other or one)[0]
    said = [f"{name} = {it[1]}" if it and it[1] is not None else f"{name} absent" if it else "nothing" for it in (one, other)]
    return Difference("~", "reading", f"read by {client}", f"{said[1]}, was {said[0]}")
