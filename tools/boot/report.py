"""What somebody looks for in a boot first, in sections of lines."""
from boot_trace.failures import is_only_in_model
from boot_trace.lines import Mark
from boot_trace.properties import Setter
from boot_trace.waits import WaitEnd
from boot_trace.words import quoted, text
from product.texts import counted

from boot.causes import at_wait, end_of
from boot.standing import COMPLETED

MOST_PLACES = 3
# A service with so many processes restarts again and again.
AGAIN = 3


def report(causes, has_root, script):
    """The sections: a title, and the lines of each that has something to say."""
    made = [
        ("end", end(causes)),
        ("never started", never_started(causes) if has_root else []),
        ("ended by themselves", crashes(causes.boot)),
        ("started again and again", again(causes.boot)),
        ("failed", failures(causes.boot)),
        ("refused sets", refusals(causes.boot)),
        ("waits", waits(causes.boot)),
        ("events", events(causes.boot)),
        ("named nothing", idle_acts(causes.boot) + idle_plans(causes.boot, script)),
    ]
    return [(title, lines) for title, lines in made if lines]


def grouped(items, key):
    """The items by their keys, in the order of the first of each."""
    groups = {}
    for it in items:
        groups.setdefault(key(it), []).append(it)
    return groups


def some(items):
    more = len(items) - MOST_PLACES
    return ", ".join(items[:MOST_PLACES]) + (f", and {more} more" if more > 0 else "")


def end(causes):
    """How the boot ended, and how much of the script did nothing."""
    completed = causes.now.held(COMPLETED)
    verdict = "the boot reached its end" if causes.now.is_complete else "the boot didn't reach its end"
    when = f"{COMPLETED} was set at trace line {completed.moment.line}" if completed else f"{COMPLETED} was never set"
    lines = [f"{verdict}: {when}; {causes.init()}"]
    blocked = causes.boot.marks[Mark.BLOCKED]
    if blocked:
        at = [f"{it.blocked} at {at_wait(it)}" for it in causes.boot.waits if it.blocked]
        lines.append(f"{counted(blocked, 'step was', 'steps were')} blocked: {some(at)}")
    return lines


def never_started(causes):
    """The services that some action starts, or that aren't disabled, and that never started."""
    absent = [it for it in causes.sources.services if it not in causes.boot.services]
    wanted = [it for it in absent if causes.starters(it)]
    quiet = len(absent) - len(wanted)
    lines = [causes.never_started(it) for it in wanted]
    return lines + ([f"{counted(quiet, 'other', 'others')}, which no action starts"] if quiet else [])


def crashes(boot):
    found = grouped([it for it in boot.lives if it.is_crash], lambda it: it.name)
    return [f"{name}: {counted(len(lives), 'time', 'times')}; it {end_of(lives[0])}" for name, lives in found.items()]


def again(boot):
    often = {name: lives for name, lives in boot.services.items() if len(lives) >= AGAIN}
    return [f"{name}: {len(lives)} processes, at trace lines {some([str(it.began.line) for it in lives])}" for name, lives in often.items()]


def failures(boot):
    found = grouped([it for it in boot.failures if not is_only_in_model(it)], lambda it: str(it.cause))
    lines = [f"{cause}: {len(commands)}: {some([f'{it.place} ({it.text})' for it in commands])}" for cause, commands in found.items()]
    of_model = len(boot.failures) - sum(map(len, found.values()))
    if of_model:
        lines.append(f"only in the model, whose tree has no files of the kernel: {of_model}")
    return lines


def refusals(boot):
    """The refused sets by who asked and by the context, or else the cause."""
    found = grouped(boot.refused, lambda it: (asker(it), str(it.refusal)))
    return [f"{who}: {why}: {len(sets)}: {some([asked(it) for it in sets])}" for (who, why), sets in found.items()]


def asker(refused):
    if refused.setter is Setter.CLIENT and refused.client:
        return f"domain {refused.client.domain}"
    return "init"


def asked(refused):
    value = "" if refused.value is None else f" {quoted(refused.value)}"
    return f"{quoted(refused.name)}{value} (trace line {refused.moment.line})"


def waits(boot):
    return [f"{at_wait(it)}: {how_long(it)} (trace line {it.began.line})" for it in boot.waits]


def how_long(wait):
    steps = f", and {counted(wait.blocked, 'step', 'steps')} blocked" if wait.blocked else ""
    if wait.end is WaitEnd.OPEN:
        return f"still open{steps}"
    timed_out = ", till its time was over" if wait.end is WaitEnd.TIMEOUT else ""
    return f"{wait.milliseconds} ms{timed_out}{steps}"


def events(boot):
    """The events that began actions, in their order; the others are counted."""
    begun = [it for it in boot.events if it.actions]
    lines = [f"{it}: entry {it.moment.entry}, trace line {it.moment.line}, {counted(len(it.actions), 'action', 'actions')}" for it in begun]
    rest = len(boot.events) - len(begun)
    return lines + ([f"{counted(rest, 'other', 'others')}, without an action"] if rest else [])


def idle_acts(boot):
    entries = [it for it in boot.trace.entries if Mark.NO_PROCESS in it.outputs]
    return [f"exit {quoted(it.head.name)} {it.head.status}: no process had this name (trace line {it.line})" for it in entries]


def idle_plans(boot, script):
    """The plans of a script of whose paths no process began."""
    begun = {it.path for it in boot.lives}
    plans = [(number, it.split()) for number, it in enumerate(script.split("\n"), 1) if it.split()[:1] == ["plan"]]
    return [f"plan {words[1]}: no process of this path began (script line {number})" for number, words in plans if len(words) > 1 and text(words[1]) not in begun]
