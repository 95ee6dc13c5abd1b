"""The tables below the picture."""
from collections import Counter, defaultdict
from dataclasses import dataclass, field

from boot_trace.failures import is_only_in_model
from boot_trace.lives import STATES, Ending
from boot_trace.waits import WaitEnd
from boot_view.axis import spoken
from product.texts import counted

MOST_ROWS = 300
AGAIN = 3  # starts from which a service is said to restart again and again


@dataclass(slots=True)
class Table:
    title: str
    heads: list
    rows: list
    nothing: str  # what is said if there is no row
    note: str = ""
    folded: int = field(default=0)

    def __post_init__(self):
        self.folded = max(len(self.rows) - MOST_ROWS, 0)
        self.rows = self.rows[:MOST_ROWS]


def tables_of(boot):
    return [open_table(boot), failure_table(boot), refusal_table(boot), restart_table(boot), wait_table(boot), diagnostic_table(boot), event_table(boot)]


def open_table(boot):
    """What hadn't ended when the trace did."""
    rows = []
    if boot.open_wait:
        wait = boot.open_wait
        rows.append(["wait", wait.what, wait.place, f"{counted(wait.blocked, 'Next', 'Nexts')} blocked, from entry {wait.began.entry} on"])
    for name in boot.sets:
        if name.startswith(STATES) and boot.value(name) in ("restarting", "stopping"):
            rows.append(["service", name.removeprefix(STATES), "", f"{boot.value(name)} since entry {boot.sets[name][-1].moment.entry}"])
    running = [it.name for it in boot.lives if not it.is_service and it.ending is Ending.RUNNING]
    rows += [["exec", it, "", "its process runs"] for it in running]
    return Table("Open at the end", ["what", "name", "place", "since"], rows, "Nothing was open at the end.")


def failure_table(boot):
    """Failed commands by their cause; those that only the model has are counted."""
    groups = defaultdict(list)
    for it in boot.device_failures:
        groups[str(it.cause), it.place, it.text].append(it)
    rows = [[cause, text, place, str(len(runs))] for (cause, place, text), runs in sorted(groups.items(), key=lambda it: it[0][0])]
    only = sum(map(is_only_in_model, boot.failures))
    note = f"{counted(only, 'more failure is', 'more failures are')} the model's alone: its tree lacks files of the kernel." if only else ""
    return Table("Failed commands", ["cause", "command", "place", "times"], rows, "No command failed as it would on a device.", note)


def refusal_table(boot):
    counts = Counter((it.name, it.value or "", str(it.refusal), it.by) for it in boot.refused)
    rows = [[name, value, refusal, by, str(count)] for (name, value, refusal, by), count in counts.items()]
    return Table("Refused sets", ["property", "value", "refusal", "by", "times"], rows, "No set was refused.")


def restart_table(boot):
    rows = []
    for name, lives in boot.services.items():
        crashes = sum(it.is_crash for it in lives)
        if len(lives) >= AGAIN or crashes > 1:
            statuses = Counter(str(it.status) for it in lives if it.is_crash)
            said = ", ".join(f"exit {status}: {count}" for status, count in statuses.items())
            rows.append([name, str(len(lives)), str(crashes), said])
    nothing = f"No service started {AGAIN} times, or crashed twice."
    return Table("Services that restart again and again", ["service", "starts", "crashes", "statuses"], rows, nothing)


def wait_table(boot):
    rows = []
    for it in boot.waits:
        took = "open" if it.end is WaitEnd.OPEN else spoken(it.milliseconds) + (", its time limit" if it.end is WaitEnd.TIMEOUT else "")
        rows.append([it.what, it.place, f"{it.began.entry}", took, str(it.blocked)])
    return Table("Waits", ["for", "place", "entry", "took", "blocked Nexts"], rows, "Init waited for nothing.")


def diagnostic_table(boot):
    rows = [[it.kind, f"{it.file}:{it.line}"] for it in boot.trace.diagnostics]
    return Table("Diagnostics", ["kind", "place"], rows, "The files have no mistake.")


def event_table(boot):
    rows = [[str(it), str(it.moment.entry), ", ".join(action.place for action in it.actions)] for it in boot.events if it.actions]
    return Table("Events that began actions", ["event", "entry", "actions"], rows, "No event began an action.")
