"""The properties that end with other values. The states of services belong to these."""
from boot_diff.difference import MOST_NAMED, Difference, place_of, value_change
from boot_trace.lines import Boot as BootHead
from boot_trace.lines import Put, Set
from boot_trace.lives import STATES


class PropertyDifferences:
    def __init__(self, old, new, commands):
        self.old, self.new, self.found, self.notes = old, new, [], {}
        self.setters = [setters(boot) for boot in (old, new)]
        self.commands = {id(run): it for it in commands for run in [*it.old_runs, *it.new_runs]}
        for name in dict.fromkeys([*new.sets, *old.sets]):
            if not name.startswith(STATES) and old.value(name) != new.value(name):
                self.compare(name)
        for difference, notes in self.notes.values():
            self.tell(difference, notes)

    def tell(self, difference, notes):
        shown = notes if len(notes) <= MOST_NAMED else notes[: MOST_NAMED - 1]
        for it in shown:
            difference.note("property", it)
        if len(shown) < len(notes):
            difference.note("property", f"{len(notes) - len(shown)} more properties end otherwise")

    def compare(self, name):
        before, after = self.old.value(name), self.new.value(name)
        runs = [self.setter(boot, at, name) for at, boot in enumerate((self.old, self.new))]
        how = value_change(before, after)
        difference = next((self.commands[id(it)] for it in runs if id(it) in self.commands), None)
        if difference:
            difference.properties.append(name)
            self.notes.setdefault(id(difference), (difference, []))[1].append(f"{name} {how}")
            return
        sign = "-" if after is None else "+" if before is None else "~"
        heads = [self.head(boot, name) for boot in (self.old, self.new)]
        by = next((f" ({it})" for it in reversed(heads) if it), "") if not any(runs) else ""
        self.found.append(Difference(sign, "property", f"property {name}", how + by, *map(place_of, runs), subject=name))

    def setter(self, boot, at, name):
        """The command that set it last, if one did."""
        return self.setters[at].get(boot.sets[name][-1].moment.line) if name in boot.sets else None

    def head(self, boot, name):
        """Who set it last, if no command did."""
        if name not in boot.sets:
            return None
        head = boot.trace.entries[boot.sets[name][-1].moment.entry - 1].head
        if type(head) is BootHead:
            return "a build file"
        return f"set by {boot.client_name(head.client)}" if type(head) is Set else None


def setters(boot):
    """The command that made each set, by the line of the set."""
    return {line: run for run in boot.commands for line, output in run.effects if type(output) is Put}
