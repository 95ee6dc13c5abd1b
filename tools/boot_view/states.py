"""The lower part of the picture: the states of services that change, and the properties that triggers test."""
from boot_trace.lives import STATES
from boot_trace.runs import EventKind
from boot_trace.waits import WaitKind
from boot_view.axis import HEIGHT
from boot_view.lives import row_head
from boot_view.shapes import CHARACTER, Box, Panel, Label, shortened

ROW = 17
MOST_ROWS = 34
MOST_PROPERTIES = 120
NEAREST = 5
MOST_CROWD = 12


def state_panels(boot, axis, sources, marks, folded):
    names = tested(boot, sources) + changing(boot, folded)
    folded.add(len(names) - MOST_PROPERTIES, "rows of properties")
    names = names[:MOST_PROPERTIES]
    return [panel(names[at : at + MOST_ROWS], boot, axis, marks, folded) for at in range(0, len(names), MOST_ROWS)]


def tested(boot, sources):
    """The properties that began actions by their changes, that triggers of these actions test (by ROOT, if it is there), or that init
    waited for, in the order of their first sets."""
    names = {it.name for it in boot.events if it.kind is EventKind.CHANGE and it.actions}
    names |= {it.subject for it in boot.waits if it.kind is WaitKind.PROPERTY}
    for action in boot.actions if sources else ():
        section = sources.action(action.file, action.line)
        names |= {it.split("=")[0].removeprefix("property:") for it in section.words[1:] if it.startswith("property:")} if section else set()
    return [it for it in boot.sets if it in names and not it.startswith(STATES)]


def changing(boot, folded):
    """The states that change after the first; the others are as their bars."""
    states = [it for it in boot.sets if it.startswith(STATES)]
    found = [it for it in states if len(boot.sets[it]) > 1]
    folded.add(len(states) - len(found), "states of services that are set once, as their bars show")
    return found


def panel(names, boot, axis, marks, folded):
    made = Panel("properties", HEIGHT + 4 + len(names) * ROW + 4)
    made.shapes += axis.shapes(made.height)
    for at, name in enumerate(names):
        y = HEIGHT + 4 + at * ROW
        signs = marks.services if name.startswith(STATES) else marks.properties
        made.shapes += row_head(axis, name, y, signs.get(name.removeprefix(STATES)), ROW)
        made.shapes += values(boot.sets[name], axis, y, folded)
    return made


def values(sets, axis, y, folded):
    """A box for each value, from its set to the next one; short ones that follow each other are one box."""
    made, crowd = [], []
    for at, it in enumerate(sets):
        x = axis.x(it.moment.entry)
        end = axis.x(sets[at + 1].moment.entry) if at + 1 < len(sets) else axis.right
        if end - x < NEAREST and at + 1 < len(sets):
            crowd.append((it, x, end))
            if end - crowd[0][1] < MOST_CROWD:
                continue
        made += crowded(crowd, y, folded)
        if not crowd or crowd[-1][0] is not it:
            made += value(it, x, end, y)
        crowd = []
    return made


def crowded(crowd, y, folded):
    """A box for values that are too near to each other to be drawn apart."""
    if not crowd:
        return []
    folded.add(len(crowd), "values of properties, in boxes with dotted lines")
    (first, x, _), (last, _, end) = crowd[0], crowd[-1]
    title = f"{first.name}: {len(crowd)} values, entries {first.moment.entry} to {last.moment.entry}, the last {last.value}"
    return [Box(x - 1, y + 2, max(end - x, 2) + 1, ROW - 5, "values", title)]


def value(it, x, end, y):
    shown = it.value or "(empty)"
    title = f"{it.name} = {shown} from entry {it.moment.entry} on"
    made = [Box(x, y + 2, max(end - x, 1.5), ROW - 5, "value", title)]
    room = int((end - x - 6) / CHARACTER)
    return [*made, Label(x + 4, y + ROW - 6, shortened(shown, room), "inside", title=title)] if room >= min(len(shown), 4) else made
