"""The commands and actions that now run, no longer run, or run in another place. A command is known by its file, its text and the event at
which it runs, so that a line number which only shifts is no difference."""
from collections import Counter, defaultdict

from boot_diff.difference import Difference, listed, place_of, times
from boot_diff.order import Orders

STILL, GONE = ", which still comes", ", which no longer comes"


def label(run):
    """When a command runs: the event of its action, or the service whose `onrestart` line it is."""
    if run.service:
        return f"onrestart of {run.service}"
    return f'"{run.action.event}"' if run.action and run.action.event else "an unknown event"


def key(run):
    return run.file, label(run), run.text


class CommandDifferences:
    def __init__(self, old, new):
        self.old, self.new = runs_by_key(old), runs_by_key(new)
        self.events = [{f'"{it}"' for it in boot.events} for boot in (old, new)]
        self.gone = {it: runs for it, runs in self.old.items() if it not in self.new}
        self.added = {it: runs for it, runs in self.new.items() if it not in self.old}
        self.found = []
        self.pair(lambda file, event, text: (file, text), self.moved)
        self.pair(lambda file, event, text: (event, text), self.moved)
        self.pair(lambda file, event, text: (file, event, *text.split(" ")[:2]), self.changed)
        self.pair(self.only_words(), self.changed)
        self.whole(0, "file")
        self.whole(1, "event")
        self.by_action("-", self.gone)
        self.by_action("+", self.added)
        self.reordered()
        self.more_or_fewer()

    def only_words(self):
        """The word of a command, if it is the only one of its file and event on both sides; else nothing is like it."""
        counts = [Counter((file, event, text.split(" ")[0]) for file, event, text in some) for some in (self.gone, self.added)]

        def alike(file, event, text):
            word = file, event, text.split(" ")[0]
            return word if counts[0][word] == counts[1][word] == 1 else (file, event, text, "alone")

        return alike

    def pair(self, alike, differ):
        """Pairs what is gone with what was added, by what is alike of them, in the order of the trace."""
        waiting = defaultdict(list)
        for it in self.added:
            waiting[alike(*it)].append(it)
        pairs = []
        for it in list(self.gone):
            others = waiting.get(alike(*it))
            if others:
                pairs.append((self.gone.pop(it), self.added.pop(others.pop(0))))
        differ(pairs)

    def moved(self, pairs):
        """Commands with the same text at another event or in another file; those of one action that moved together are one difference."""
        groups = defaultdict(list)
        for old, new in pairs:
            groups[action_of(old[0]), action_of(new[0]), label(old[0]), label(new[0])].append((old, new))
        for (_, _, before, after), members in groups.items():
            old, new = ([runs for pair in members for runs in pair[side]] for side in (0, 1))
            how = f"moved from {before} to {after}" if before != after else f"moved to another file, at {after}"
            if len(members) > 1:
                how += f", with {len(members) - 1} more of its action: {listed(pair[1][0].text for pair in members[1:])}"
            self.add("~", "command", members[0][1][0].text, how, old, new)

    def changed(self, pairs):
        for old, new in pairs:
            self.add("~", "command", new[0].text, f"was {old[0].text}", old, new)

    def whole(self, part, kind):
        """Files, or events, of which nothing runs any more, or something for the first time: more than one action together."""
        for sign, some, every in (("-", self.gone, self.old), ("+", self.added, self.new)):
            counts, groups = Counter(it[part] for it in every), defaultdict(list)
            for it in some:
                groups[it[part]].append(it)
            for name, keys in groups.items():
                actions = {action_of(some[it][0]) for it in keys}
                if len(keys) == counts[name] and len(actions) > 1:
                    self.add_whole(sign, kind, name, len(actions), [some.pop(it) for it in keys])

    def add_whole(self, sign, kind, name, actions, members):
        texts = listed(it[0].text for it in members)
        how = f"nothing of it runs any more: {actions} actions" if sign == "-" else f"{actions} actions of it now run"
        if kind == "event":
            still = {"": "", STILL: ", though it still comes", GONE: ", since it no longer comes"}[self.comes(name)]
            how = f"no longer begins anything{still}: {actions} actions" if sign == "-" else f"now begins {actions} actions"
        side = {"old" if sign == "-" else "new": [run for it in members for run in it]}
        self.add(sign, kind, f"{kind} {name}", f"{how}, {len(members)} commands: {texts}", **side)

    def comes(self, event):
        """Whether an event at which nothing runs now still comes."""
        if event not in self.events[0]:
            return ""
        return STILL if event in self.events[1] else GONE

    def by_action(self, sign, some):
        """Commands that are on one side alone, those of one action together."""
        groups, still = defaultdict(list), {it[:2] for it in self.new}
        for it, runs in some.items():
            groups[it[0], it[1], action_of(runs[0])].append(runs)
        for (file, event, _), members in groups.items():
            how = f"no longer runs at {event}{'' if (file, event) in still else self.comes(event)}" if sign == "-" else f"now runs at {event}"
            if len(members) > 1:
                how += f", with {len(members) - 1} more of its action: {listed(it[0].text for it in members[1:])}"
            side = {"old" if sign == "-" else "new": [run for it in members for run in it]}
            self.add(sign, "command", members[0][0].text, how, **side)

    def reordered(self):
        """Commands that run at the same event, and at another place among those that run there; those of one action together."""
        sequences = [by_event(runs) for runs in (self.old, self.new)]
        for event, old in sequences[0].items():
            orders = Orders(old, sequences[1].get(event, ()))
            groups = defaultdict(list)
            for it in orders.moved:
                groups[action_of(self.new[it][0])].append(it)
            for members in groups.values():
                self.add_reordered(event, members, self.before(members[0], sequences[1][event], orders))

    def before(self, moved, sequence, orders):
        """The command that keeps its place and runs right before one that moved."""
        at = sequence.index(moved)
        return next((it for it in reversed(sequence[:at]) if it in orders.kept), None)

    def add_reordered(self, event, members, last):
        how = f"moved within {event}, " + (f"after {last[2]}" if last else "to its front")
        if len(members) > 1:
            how += f", with {len(members) - 1} more of its action: {listed(it[2] for it in members[1:])}"
        old, new = ([run for it in members for run in side[it]] for side in (self.old, self.new))
        self.add("~", "command", members[0][2], how, old, new)

    def more_or_fewer(self):
        """Commands that run in the same place, and another number of times; the first one of each action."""
        said = set()
        for it, new in self.new.items():
            old = self.old.get(it, [])
            if not old or len(old) == len(new) or (it[0], action_of(new[0])) in said:
                continue
            said.add((it[0], action_of(new[0])))
            self.add("~", "command", new[0].text, f"runs {times(len(new))} at {it[1]}, was {times(len(old))}", old, new)

    def add(self, sign, kind, what, how, old=(), new=()):
        places = place_of(old[0] if old else None), place_of(new[0] if new else None)
        if kind != "command":
            places = None, None
        self.found.append(Difference(sign, kind, what, how, *places, old_runs=list(old), new_runs=list(new)))


def runs_by_key(boot):
    found = defaultdict(list)
    for run in boot.commands:
        found[key(run)].append(run)
    return found


def by_event(runs):
    """The commands of each event, in the order in which they first ran."""
    found = defaultdict(list)
    for it in runs:
        found[it[1]].append(it)
    return found


def action_of(run):
    """The section of a command: two commands of one action have the same one."""
    return (run.action.file, run.action.line) if run.action else (run.service, 0)
