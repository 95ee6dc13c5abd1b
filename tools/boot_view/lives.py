"""The middle of the picture: a row for each service, with a bar for each life."""
from itertools import groupby

from boot_trace.lives import Ending
from boot_view.axis import HEIGHT
from boot_view.shapes import Box, Glyph, Label, Line, Panel, shortened

ROW = 17
BAR = 9
# Rows of a panel, so that it fits a printed page.
MOST_ROWS = 34
MOST_SERVICES = 600
# Lives nearer than this are drawn as one, with how many they are.
NEAREST = 9
MOST_BARS = 120
INSET = 6  # of the mark at an end, so that the one of the next life's begin has room


def service_panels(boot, axis, marks, folded):
    """The services in the order of their first starts, and after them those that start in another boot alone, without a bar."""
    absent = {it: [] for it in marks.services if it not in boot.services}
    services = [*boot.services.items(), *absent.items()]
    folded.add(len(services) - MOST_SERVICES, "services, the last ones to start")
    services = services[:MOST_SERVICES]
    return [panel(services[at : at + MOST_ROWS], boot, axis, marks, folded) for at in range(0, len(services), MOST_ROWS)]


def panel(services, boot, axis, marks, folded):
    made = Panel("services", HEIGHT + 4 + len(services) * ROW + 4)
    made.shapes += axis.shapes(made.height) + wait_bands(boot, axis, made.height)
    for at, (name, lives) in enumerate(services):
        y = HEIGHT + 4 + at * ROW
        made.shapes += row_head(axis, name, y, marks.services.get(name), ROW)
        if not lives:
            made.shapes.append(Label(axis.left + 4, y + ROW - 5, "doesn't start", "quiet"))
        for group in groups_of(lives, axis):
            made.shapes += life(group[0], axis, y) if len(group) == 1 else crowd(group, axis, y, folded)
    return made


def wait_bands(boot, axis, height):
    """The waits, through all rows; those that are wide enough to be seen."""
    spans = [(axis.x(it.began.entry), axis.end(it.ended)) for it in boot.waits]
    return [Box(x, HEIGHT, end - x, height - HEIGHT, "band") for x, end in spans if end - x >= 2]


def row_head(axis, name, y, sign, row):
    """The name of a row, and a mark if it differs in another boot."""
    text = shortened(name, 32)
    head = [Label(axis.left - 6, y + row - 5, f"{sign} {text}" if sign else text, "name differing" if sign else "name", "end", name)]
    band = [Box(0, y, axis.right, row, "difference")] if sign else []
    return [*band, *head, Line(axis.left, y + row - 1, axis.right, y + row - 1, "row")]


def groups_of(lives, axis):
    """The lives of a service; those that are short and near to each other together, and where there are many all that begin near."""
    groups, last = [], None
    for it in lives:
        begin, end = axis.x(it.began.entry), end_of(it, axis)
        if last is not None and begin - last < NEAREST and end - begin < NEAREST:
            groups[-1].append(it)
        else:
            groups.append([it])
        last = end if end - begin < NEAREST else None
    if len(groups) <= MOST_BARS:
        return groups
    return [list(it) for _, it in groupby(lives, lambda it: int(axis.x(it.began.entry) / NEAREST))]


def end_of(life, axis):
    """Where a life ends: at the begin of an entry, since the next one may begin in the same."""
    return max(axis.x(life.ended.entry), axis.x(life.began.entry) + 1) if life.ended else axis.right


def style_of(life):
    """How a life is drawn: the style of its bar, and the mark at its end."""
    if life.is_crash:
        return "crash"
    return {Ending.EXITED: "exited", Ending.KILLED: "killed", Ending.RUNNING: "running"}[life.ending]


def life(it, axis, y):
    x, end = axis.x(it.began.entry), end_of(it, axis)
    title, style, middle = title_of(it), style_of(it), y + ROW / 2
    made = [Box(x, y + (ROW - BAR) / 2, max(end - x, 2), BAR, style, title)]
    inset = min(INSET, (end - x) / 3) if style in ("crash", "killed") else 0
    if it.is_restart:
        made.append(Glyph(x + min(INSET, (end - x) / 3), middle, "restart", title))
    return [*made, Glyph(end - inset, middle, style, title)]


def title_of(it):
    by = it.started_by
    start = f"started by {by.text} ({by.place})" if hasattr(by, "place") else "restarted" if it.is_restart else "started by a client"
    if it.ended is None:
        return f"{it.name}: {start} at entry {it.began.entry}; runs to the end"
    status = "killed" if it.status is None else f"exit {it.status}"
    how = "killed by init, " if it.ending is Ending.KILLED and it.status is not None else ""
    return f"{it.name}: {start} at entry {it.began.entry}; {how}{status} at entry {it.ended.entry}; then {it.afterwards.value}"


def crowd(group, axis, y, folded):
    """Lives that are drawn as one."""
    folded.add(len(group) - 1, "lives of services, in boxes with dotted lines")
    x, end = axis.x(group[0].began.entry), min(end_of(group[-1], axis), axis.x(group[-1].began.entry) + NEAREST)
    crashes = sum(it.is_crash for it in group)
    title = f"{group[0].name}: {len(group)} lives, {crashes} of them crashes, entries {group[0].began.entry} to {group[-1].began.entry}"
    made = [Box(x, y + 2, max(end - x, 4), ROW - 4, "crowd", title)]
    text = f"{len(group)} lives" + (f", {crashes} crashed" if crashes else "")
    return [*made, Label(x + 4, y + ROW - 5, text, "inside lettered", title=title)] if end - x > len(text) * 7 else made
