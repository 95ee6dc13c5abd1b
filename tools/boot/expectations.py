"""Judges what a test expects of a boot at the place where it expects it: None if it holds, else what was the case."""
from boot_trace.lives import Ending
from boot_trace.properties import Setter
from boot_trace.runs import EventKind
from boot_trace.words import quoted, text

from boot.causes import by, end_of

MOST_SHOWN = 3


def judge(expectation, causes):
    """Why the expectation doesn't hold; None if it does."""
    return JUDGES[expectation.kind](expectation, causes)


def holds(expectation, causes):
    condition = expectation.condition
    if causes.now.occurrence(condition) is not None:
        return None
    if condition.kind == "prop":
        return f"{causes.prop(text(condition.words[0]))}; {causes.init()}"
    if condition.kind in ("running", "stopped", "restarting"):
        return f"{causes.service(text(condition.words[0]))}; {causes.init()}"
    return causes.init()


def absent(expectation, causes):
    name = text(expectation.words[0])
    return causes.prop(name) if causes.now.held(name) else None


def never_started(expectation, causes):
    lives = lives_of(expectation, causes)
    return f"{lives[0].name} was started by {by(lives[0].started_by)} (trace line {lives[0].began.line})" if lives else None


def started(expectation, causes):
    return None if lives_of(expectation, causes) else f"{causes.service(text(expectation.words[0]))}; {causes.init()}"


def once(expectation, causes):
    lives = lives_of(expectation, causes)
    if len(lives) == 1:
        return None
    if not lives:
        return started(expectation, causes)
    first = lives[0]
    ended = f"it {end_of(first)}" if first.ended else "its first process still runs"
    return f"{first.name} started {len(lives)} times (trace lines {shown([str(it.began.line) for it in lives])}); {ended}"


def lives_of(expectation, causes):
    return causes.boot.services.get(text(expectation.words[0]), [])


def no_crash(expectation, causes):
    crashes = [it for it in causes.boot.lives if it.is_crash]
    return but(expectation, [((quoted(it.name),), f"{it.name} {end_of(it)}") for it in crashes], "didn't crash", causes)


def no_failure(expectation, causes):
    found = []
    for it in causes.boot.device_failures:
        words = it.word, *map(quoted, it.arguments)
        found.append((words, f"{it.place}: {' '.join(words)}: {it.cause} (trace line {it.moment.line})"))
    return but(expectation, found, "didn't fail", causes)


def no_refusal(expectation, causes):
    found = []
    for it in causes.boot.refused:
        if it.setter is not Setter.COMMAND:
            words = (quoted(it.name), *([quoted(it.value)] if it.value is not None else []))
            found.append((words, f"{' '.join(words)}, set by {it.by}: {it.refusal} (trace line {it.moment.line})"))
    return but(expectation, found, "wasn't refused", causes)


def but(expectation, found, absence, causes):
    """What was found and isn't listed, or was listed and not found."""
    listed = [words for _, words in expectation.listed]
    odd = [said for words, said in found if not any(fits(it, words) for it in listed)]
    if odd:
        return shown(odd)
    if causes.is_cut:
        return None
    absent = [f"{' '.join(it)} {absence}" for it in listed if not any(fits(it, words) for words, _ in found)]
    return f"{shown(absent)}, and is listed below" if absent else None


def fits(listed, words):
    """Whether what is listed is this; a last word * stands for any words."""
    return words[: len(listed) - 1] == listed[:-1] if listed[-1] == "*" else words == listed


def shown(items):
    more = len(items) - MOST_SHOWN
    return ", ".join(items[:MOST_SHOWN]) + (f", and {more} more" if more > 0 else "")


def no_wait(_, causes):
    return causes.init() if causes.now.wait else None


def complete(_, causes):
    return None if causes.now.is_complete else f"the boot didn't reach its end: {causes.init()}"


def before(expectation, causes):
    first, then = (line_of(it, causes.boot) for it in expectation.sides)
    left, right = (it.text for it in expectation.sides)
    if first is None or then is None:
        absent = right if then is None else left
        return f"{absent} never came{why_never(expectation.sides[then is None], causes)}; {causes.init()}"
    return None if first < then else f"{left} came at trace line {first}, after {right} at trace line {then}"


def why_never(side, causes):
    if side.kind == "spawn":
        return f" ({causes.never_started(text(side.words[0]))})"
    return f" ({causes.prop(text(side.words[0]))})" if side.kind == "set" else ""


def line_of(side, boot):
    """The trace's line of the first time that this came; None if it never did."""
    words = [text(it) for it in side.words]
    if side.kind == "event":
        lines = [it.moment.line for it in boot.events if it.kind is EventKind.NAMED and it.name == words[0]]
    elif side.kind == "action":
        lines = [it.moment.line for it in boot.actions if it.event and trigger_of(it.event) == words[0] and it.file == words[1]]
    elif side.kind == "spawn":
        lines = [it.began.line for it in boot.lives if it.name == words[0]]
    else:
        lines = [it.moment.line for it in boot.sets.get(words[0], []) if words[1:] in ([], [it.value])]
    return lines[0] if lines else None


def trigger_of(event):
    """What began an action, as a test names it."""
    if event.kind is EventKind.CHANGE:
        return f"{event.name}={event.value}"
    return event.name if event.kind is EventKind.NAMED else "all-properties"


JUDGES = {
    "holds": holds,
    "absent": absent,
    "never started": never_started,
    "started": started,
    "once": once,
    "no crash": no_crash,
    "no failure": no_failure,
    "no refusal": no_refusal,
    "no wait": no_wait,
    "complete": complete,
    "before": before,
}
