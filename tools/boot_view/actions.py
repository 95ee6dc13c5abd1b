"""The upper part of the picture: the events that began actions, the actions one after another, and the waits."""
from boot_trace.lives import EXEC
from boot_trace.waits import WaitEnd, WaitKind
from boot_view.axis import HEIGHT, spoken
from boot_view.shapes import CHARACTER, Box, Label, Line, Panel, label_start, lanes_for, shortened, width_of
from product.texts import counted

LANE = 14
MOST_LANES = 13
MOST_TEXT = 38
ACTION = 18
LEAST = 1.5  # points between two things that are drawn apart


def upper_panel(boot, axis, marked, folded):
    """Events, actions and waits; what has no room is counted in `folded`."""
    panel = Panel("events", 0)
    y = HEIGHT + 4
    y = events(boot, axis, panel, y, folded)
    y = actions(boot, axis, panel, y, marked, folded)
    y = waits(boot, axis, panel, y, folded)
    panel.height = y + 4
    panel.shapes[:0] = axis.shapes(panel.height)
    return panel


def labels(axis, panel, y, wanted):
    """Labels at their places in as many lanes as they need: the height of all, and how many had no room."""
    sizes = [(x, width_of(shortened(text, MOST_TEXT))) for x, text, _, _ in wanted]
    lanes = lanes_for(sizes, axis.right, MOST_LANES)
    placed = [(*it, width, y + lane * LANE) for it, (_, width), lane in zip(wanted, sizes, lanes) if lane is not None]
    panel.shapes += [Line(x, y - 6, x, top + LANE - 3, "lead") for x, _, _, _, _, top in placed]
    for x, text, title, style, width, top in placed:
        is_left = label_start(x, width, axis.right) < x
        place, anchor = (x - 3, "end") if is_left else (x + 2, "start")
        panel.shapes.append(Label(place, top + LANE - 4, shortened(text, MOST_TEXT), f"{style} lettered", anchor, title))
    most = max((it + 1 for it in lanes if it is not None), default=1)
    return most * LANE, lanes.count(None)


def events(boot, axis, panel, y, folded):
    panel.shapes.append(Label(axis.left - 6, y + LANE - 4, "events", "head", "end"))
    begun = [it for it in boot.events if it.actions]
    wanted = [(axis.x(it.moment.entry), str(it), f"{it}: entry {it.moment.entry}, {counted(len(it.actions), 'action', 'actions')}", "event") for it in begun]
    height, missing = labels(axis, panel, y, wanted)
    folded.add(missing, "names of events without room")
    folded.add(len(boot.events) - len(begun), "events that began no action")
    return y + height + 4


def actions(boot, axis, panel, y, marked, folded):
    panel.shapes.append(Label(axis.left - 6, y + ACTION - 5, "actions", "head", "end"))
    last, merged = axis.left - LEAST, 0
    for at, action in enumerate(it for it in boot.actions if it.commands):
        x, end = axis.x(action.commands[0].moment.entry), axis.x(action.commands[-1].moment.entry + 1)
        if end - last < LEAST:
            merged += 1
            continue
        name = action.file.rsplit("/", 1)[-1]
        style = f"action{at % 2}" + (" differs" if id(action) in marked else "")
        title = f"on {action.event}: {action.place}, {counted(len(action.commands), 'command', 'commands')}, from entry {action.commands[0].moment.entry}"
        panel.shapes.append(Box(x, y, max(end - x, 1), ACTION - 2, style, title))
        room = int((end - x - 6) / CHARACTER)
        if room >= min(len(name), 12):
            panel.shapes.append(Label(x + 3, y + ACTION - 6, shortened(name, room), "inside", title=title))
        last = end
    folded.add(merged, "actions too near to another to be drawn apart")
    return y + ACTION + 4


def short_name(wait):
    """What is waited for, in few words."""
    if wait.kind is WaitKind.CHILD:
        return f"end of {wait.value.rsplit('/', 1)[-1] if wait.subject == EXEC else wait.subject}"
    return wait.what.removeprefix("the ")


def waits(boot, axis, panel, y, folded):
    panel.shapes.append(Label(axis.left - 6, y + LANE - 4, "waits", "head", "end"))
    wanted, last, merged = [], axis.left - LEAST, 0
    for wait in boot.waits:
        x, end = axis.x(wait.began.entry), axis.end(wait.ended)
        if end - last < LEAST:
            merged += 1
            continue
        took = "open at the end" if wait.end is WaitEnd.OPEN else spoken(wait.milliseconds)
        limit = ", to its time limit" if wait.end is WaitEnd.TIMEOUT else ""
        title = f"{wait.place} waits for {wait.what}: {took}{limit}, {counted(wait.blocked, 'Next', 'Nexts')} blocked"
        panel.shapes.append(Box(x, y, max(end - x, 3), LANE - 2, "wait", title))
        wanted.append((x, f"{short_name(wait)}: {took}{limit}", title, "waiting"))
        last = end
    height, missing = labels(axis, panel, y + LANE + 6, wanted)
    folded.add(merged, "waits too near to another to be drawn apart")
    folded.add(missing, "names of waits without room")
    return y + LANE + 6 + (height if wanted else 0)
