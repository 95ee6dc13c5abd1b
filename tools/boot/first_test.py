"""A first boot test, made of a draft: its acts as rules, and five expectations or more."""
from boot_trace.words import quoted

from boot.policy import ZYGOTE

HEAD = """# A first boot test, made by draft-test. What its rules say of the device is assumed: see to it that it is so there.
"""
# Services that a boot is there for, of which those that run are expected.
WANTED = ("servicemanager", "vold", ZYGOTE, "surfaceflinger")
# The time that may pass, where the draft let some pass.
WITHIN = " within 60s"


def first_test(draft):
    """The text of the test."""
    until = "until idle" + (WITHIN if any(it.act.startswith("tick ") for it in draft.steps) else "")
    last = [it for it in draft.steps if it.awaited is None and it.act.startswith("@")]
    blocks = [clients(draft), rules(draft), [until, *(line for it in last for line in (it.act, until))], expectations(draft)]
    return HEAD + "".join("\n" + "".join(f"{it}\n" for it in block) for block in blocks if block)


def clients(draft):
    return [f"client {it.name} {it.domain}" + (f" in {it.service}" if it.service else "") for it in draft.test.clients.values()]


def rules(draft):
    """A rule for each wait that an act of the draft ended, with the reason of the first one."""
    lines, known = [], set()
    for it in draft.steps:
        if it.awaited is None or it.act.startswith("tick ") or (it.awaited, it.act) in known:
            continue
        known.add((it.awaited, it.act))
        lines += [f"# {it.why}", f"when waiting for {it.awaited} then {it.act}"]
    return lines


def expectations(draft):
    """What the boot must have come to; of what failed in the draft, that it may."""
    boot = draft.now.cut()
    lines = ["expect boot complete", "expect no wait open"]
    lines += [f"expect running {quoted(it)}" for it in WANTED if draft.now.is_running(it)]
    lines += ["expect no service crashed"]
    failed = list(dict.fromkeys(" ".join([it.word, *map(quoted, it.arguments)]) for it in boot.device_failures))
    lines += ["expect no command failed" + (" but" if failed else ""), *(f"    {it}" for it in failed)]
    return [*lines, "expect no set refused"]
