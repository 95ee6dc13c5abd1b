"""New failures, refusals and reboots; waits that are longer, new, or still open."""
from collections import Counter, defaultdict

from boot_diff.difference import Difference, place_of, times
from boot_trace.failures import is_only_in_model
from boot_trace.lines import Reboot
from boot_trace.lives import EXEC
from boot_trace.properties import Setter
from boot_trace.waits import WaitEnd, WaitKind
from product.texts import counted


def wait_differences(old, new):
    sides = [waits_by_subject(boot) for boot in (old, new)]
    found = []
    for subject in dict.fromkeys([*sides[1], *sides[0]]):
        before, after = (side.get(subject, []) for side in sides)
        found += [it for pair in zip(before, after) if (it := changed_wait(*pair))]
        found += [one_wait("-", it, "is gone") for it in before[len(after) :]]
        found += [one_wait("!" if it.end is not WaitEnd.RELEASED else "+", it, "is new") for it in after[len(before) :]]
    return found


def waits_by_subject(boot):
    found = defaultdict(list)
    for wait in boot.waits:
        found[wait.kind, wait.subject, wait.value].append(wait)
    return found


def changed_wait(old, new):
    """The difference of one wait on both sides; None if there is none."""
    if (old.end, old.milliseconds) == (new.end, new.milliseconds):
        return None
    sign = "!" if new.end is not WaitEnd.RELEASED and new.end is not old.end else "~"
    how = f"{length(new)}, was {length(old)}"
    return Difference(sign, "wait", wait_name(new), how, place_of(old.command), place_of(new.command), ends_boot=new.end is WaitEnd.OPEN)


def one_wait(sign, wait, how):
    side = {"old" if sign == "-" else "new": place_of(wait.command)}
    return Difference(sign, "wait", wait_name(wait), f"{how}, {length(wait)}", **side, ends_boot=sign != "-" and wait.end is WaitEnd.OPEN)


def wait_name(wait):
    if wait.kind is WaitKind.CHILD and wait.subject == EXEC:
        return f"wait for the end of {wait.value}"
    return f"wait for {wait.what}"


def length(wait):
    if wait.end is WaitEnd.OPEN:
        return f"still open at the end, with {counted(wait.blocked, 'Next', 'Nexts')} blocked"
    return f"{wait.milliseconds} ms" + (", to its time limit" if wait.end is WaitEnd.TIMEOUT else "")


# ---- failures


def failure_differences(old, new):
    sides = [failures_by_text(boot.device_failures) for boot in (old, new)]
    runs = {(it.file, it.text) for it in new.commands}
    found = []
    for text in dict.fromkeys([*sides[1], *sides[0]]):
        before, after = (side.get(text, []) for side in sides)
        if causes(before) != causes(after):
            found.append(changed_failure(before, after, text in runs))
    return found + model_failures(old, new)


def failures_by_text(runs):
    found = defaultdict(list)
    for it in runs:
        found[it.file, it.text].append(it)
    return found


def causes(runs):
    return Counter(str(it.cause) for it in runs)


def changed_failure(before, after, runs):
    what = (after or before)[0].text
    said, was = (", ".join(f"{cause} {times(count)}" if count > 1 else cause for cause, count in causes(it).items()) for it in (before, after))
    if not after:
        return Difference("-", "failure", what, f"no longer {'fails' if runs else 'runs, so no longer fails'}: {said}", place_of(before[0]))
    how = f"fails: {was}" + (f", was {said}" if before else "")
    return Difference("!", "failure", what, how, place_of(before[0] if before else None), place_of(after[0]))


def model_failures(old, new):
    """Failures that only the model has, in one line."""
    counts = [sum(map(is_only_in_model, boot.failures)) for boot in (old, new)]
    if counts[0] == counts[1]:
        return []
    how = f"{counts[1]}, were {counts[0]}"
    return [Difference("~", "failure", "failures that only the model has (its tree lacks files of the kernel)", how)]


# ---- refusals and reboots


def refusal_differences(old, new):
    sides = [refusals_by_text(boot) for boot in (old, new)]
    found = []
    for text in dict.fromkeys([*sides[1], *sides[0]]):
        before, after = (side.get(text, []) for side in sides)
        if len(before) != len(after):
            found.append(changed_refusal(before, after))
    return found


def refusals_by_text(boot):
    found = defaultdict(list)
    for it in boot.refused:
        if it.setter is not Setter.COMMAND:  # (that one is a failure)
            found[it.by, it.name, it.value, str(it.refusal)].append(it)
    return found


def changed_refusal(before, after):
    it = (after or before)[0]
    what = f"set {it.name} {it.value} by {it.by}" if it.value is not None else f"set {it.name} by {it.by}"
    if not after:
        return Difference("-", "refusal", what, f"no longer refused: {it.refusal}")
    often = f" {times(len(after))}, was {times(len(before)) if before else 'never'}" if len(after) > 1 or before else ""
    return Difference("!", "refusal", what, f"refused{often}: {it.refusal}")


def reboot_differences(old, new):
    targets = [[output.target for entry in boot.trace.entries for output in entry.outputs if type(output) is Reboot] for boot in (old, new)]
    if targets[0] == targets[1]:
        return []
    if not targets[1]:
        return [Difference("-", "reboot", f"reboot to {targets[0][0]}", "no longer comes")]
    return [Difference("!", "reboot", f"reboot to {targets[1][0]}", "a critical service ended once too often, and the boot is over")]
