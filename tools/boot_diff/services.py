"""The services that start, end or are restarted otherwise, or in another order."""
from boot_diff.difference import Difference, listed, place_of, times
from boot_diff.order import Orders
from boot_trace.lines import Set
from boot_trace.lives import STATES, Ending
from boot_trace.runs import CommandRun


class ServiceDifferences:
    """What the differences of commands explain is told with these; the rest is found here."""

    def __init__(self, old, new, commands):
        self.old, self.new, self.found = old, new, []
        self.explained = {}
        for it in commands:
            self.explain(it)
        both = [it for it in old.services if it in new.services]
        otherwise = {it for it in both if starter(old.services[it][0]) != starter(new.services[it][0])}
        self.orders = Orders(old.services, new.services, otherwise | self.explained.keys())
        for it in commands:
            self.tell_with(it)
        for name in dict.fromkeys([*new.services, *old.services]):
            self.compare(name)

    def explain(self, difference):
        """The services whose first start is by a run of this difference."""
        runs = {id(it) for it in [*difference.old_runs, *difference.new_runs]}
        for boot in (self.old, self.new):
            for name, lives in boot.services.items():
                if id(lives[0].started_by) in runs:
                    self.explained.setdefault(name, difference)

    def tell_with(self, difference):
        """Adds to a difference of commands what it did to the starts of services."""
        names = difference.services = [name for name, it in self.explained.items() if it is difference]
        gone = [it for it in names if it not in self.new.services]
        added = [it for it in names if it not in self.old.services]
        if gone:
            difference.note("service", f"{listed(gone)} no longer start{'s' if len(gone) == 1 else ''}")
        if added:
            difference.note("service", f"{listed(added)} now start{'s' if len(added) == 1 else ''}")
        for name in names:
            self.tell_starter(difference, name)
        passed = {}
        for name in names:
            if name in self.orders.moved:
                passed.setdefault(self.order(name), []).append(name)
        text = difference.what.split(" ")
        for order, moved in passed.items():
            if order:
                alone = len(names) == 1 and names[0] in text
                difference.note("service", order if alone else f"{listed(moved)} {order}")

    def tell_starter(self, difference, name):
        """Adds what starts a service now, or did before, if the difference is on one side alone."""
        old, new = self.old.services.get(name), self.new.services.get(name)
        if old and new and not (difference.old_runs and difference.new_runs) and starter(old[0]) != starter(new[0]):
            difference.note("service", f"{name} is started by {starter(new[0])}, was by {starter(old[0])}")

    def order(self, name):
        before, after = self.orders.passed(name)
        parts = [f"before {listed(before)}"] if before else []
        parts += [f"after {listed(after)}"] if after else []
        return f"now {' and '.join(parts)}" if parts else ""

    def compare(self, name):
        old, new = self.old.services.get(name), self.new.services.get(name)
        if old is None or new is None:
            if name not in self.explained:
                self.one_side(name, old or new, "-" if new is None else "+")
            return
        said = self.starts(name, old, new) + self.endings(old, new) + self.states(name)
        if said:
            crashes = sum(it.is_crash for it in new) > sum(it.is_crash for it in old)
            self.add("!" if crashes else "~", name, "; ".join(said), old, new)

    def one_side(self, name, lives, sign):
        how = f"{'no longer starts' if sign == '-' else 'now starts'}: {starter(lives[0])}"
        self.add(sign, name, how, *([lives, None] if sign == "-" else [None, lives]))

    def starts(self, name, old, new):
        """What is said of the first start, unless a difference of commands says it."""
        said = []
        if name not in self.explained:
            if starter(old[0]) != starter(new[0]):
                said.append(f"started by {starter(new[0])}, was by {starter(old[0])}")
            order = self.order(name) if name in self.orders.moved else ""
            said += [order] if order else []
        if len(old) != len(new):
            said.append(f"starts {times(len(new))}, was {times(len(old))}")
        delays = [(b, a) for a, b in zip(restarts(old), restarts(new)) if a != b]
        return said + [f"is restarted after {after} ms, was after {before}" for after, before in delays[:1]]

    def endings(self, old, new):
        before, after = [past(it) for it in old], [past(it) for it in new]
        if before == after:
            return []
        crashes = [sum(it.is_crash for it in side) for side in (old, new)]
        if crashes[0] != crashes[1]:
            return [crash_change(*crashes)]
        at = next((at for at, pair in enumerate(zip(before, after)) if pair[0] != pair[1]), None)
        return [] if at is None else [f"{now(new[at])}, {past(old[at])} before"]

    def states(self, name):
        before, after = (boot.value(STATES + name) for boot in (self.old, self.new))
        return [] if before == after else [f"is {after} at the end, was {before}"]

    def add(self, sign, name, how, old, new):
        places = [place_of(lives[0].started_by) if lives and isinstance(lives[0].started_by, CommandRun) else None for lives in (old, new)]
        self.found.append(Difference(sign, "service", f"service {name}", how, *places, subject=name))


def restarts(lives):
    """The model's time between each end and the restart after it."""
    return [it.began.clock - before.ended.clock for before, it in zip(lives, lives[1:]) if it.is_restart and before.ended]


def crash_change(before, after):
    if before and after:
        return f"crashes {times(after)}, was {times(before)}"
    return "crashes" if after else "no longer crashes"


def starter(life):
    """What began a life, in words."""
    by = life.started_by
    if isinstance(by, CommandRun):
        return by.text
    return f"a client's {by.name}" if type(by) is Set else "a restart"


def now(life):
    """How a life ends, in words."""
    if life.ending is Ending.RUNNING:
        return "runs to the end"
    return f"exits with {life.status}" if life.ending is Ending.EXITED else f"is killed by {killer(life)}"


def past(life):
    if life.ending is Ending.RUNNING:
        return "ran to the end"
    return f"exited with {life.status}" if life.ending is Ending.EXITED else f"was killed by {killer(life)}"


def killer(life):
    by = life.killed_by
    if isinstance(by, CommandRun):
        return by.text
    return f"a client's {by.name}" if type(by) is Set else "its timeout"
