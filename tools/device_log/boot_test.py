"""Writes the boot test of a log: what ended waits as rules, and the other acts after anchors in place of counted steps."""
from types import SimpleNamespace

from boot.first_test import expectations
from boot.standing import Standing, awaited
from boot_trace import lines as form
from boot_trace.boot import Boot
from boot_trace.lives import STATES
from boot_trace.reader import parse_trace
from boot_trace.waits import WaitEnd, WaitKind
from boot_trace.words import quoted

from device_log.script import NEXT

HEAD = "# Made by device-log of {}: what kernel and daemons did in that boot. Comments have the line of the log that an act is for."
CLOCK = "tick "


class Test:
    """The text of a boot test that does what a script did."""

    def __init__(self, log_name, script, trace):
        self.log_name, self.script, self.boot = log_name, script, Boot(parse_trace(trace))
        self.acts = self.placed_acts()
        self.rules, self.awaited = self.find_rules()

    def placed_acts(self):
        """The acts with the numbers of their entries."""
        return [(number, act) for number, act in enumerate(self.script.acts, 2) if act is not NEXT]

    def find_rules(self):
        """By what is awaited: the acts that end it, if they are always the same; and the entries of these acts."""
        acts, ends = dict(self.acts), {}
        for wait in self.boot.waits:
            if wait.end is not WaitEnd.OPEN and wait.ended.entry in acts and not acts[wait.ended.entry].text.startswith(CLOCK):
                ends.setdefault(awaited(wait), []).append((wait, wait.ended.entry))
        rules, entries = {}, set()
        for what, found in ends.items():
            texts = {acts[entry].text for _, entry in found}
            if len(texts) == 1 and self.can_be_rule(found[0][0]):
                rules[what] = acts[found[0][1]]
                entries |= {entry for _, entry in found}
        return rules, entries

    def can_be_rule(self, wait):
        return wait.kind is not WaitKind.PROPERTY or not wait.subject.startswith(STATES)

    def text(self):
        blocks = [[HEAD.format(self.log_name)], self.script.clients(), self.rule_lines(), self.act_lines(), self.expectation_lines()]
        return "\n".join("".join(f"{it}\n" for it in block) for block in blocks if block)

    def rule_lines(self):
        lines = []
        for what, act in self.rules.items():
            lines += [f"# line {act.line}: {act.why}", f"when waiting for {what} then {act.text}"]
        return lines

    def act_lines(self):
        """The other acts, each after the anchor that the boot had reached."""
        lines, known, time = [], None, 0
        for number, act in self.acts:
            if number in self.awaited:
                continue
            if act.text.startswith(CLOCK) and number + 1 in self.awaited:
                # (the rule ends that wait at once)
                continue
            if act.text.startswith(CLOCK):
                time += int(act.text.removeprefix(CLOCK))
                if self.speaks(number):
                    known = self.add(lines, known, number, act, f"{CLOCK}{time}")
                    time = 0
                continue
            if time:
                lines.append(f"{CLOCK}{time}")
                time = 0
            known = self.add(lines, known, number, act, act.text)
        return [*lines, "until quiet"]

    def speaks(self, number):
        return bool(self.boot.trace.entries[number - 1].outputs)

    def add(self, lines, known, number, act, text):
        """Adds an act after its anchor, if that is another than the one before; the anchor."""
        anchor = self.anchor(number)
        if anchor and anchor != known:
            lines.append(f"until {anchor}")
        lines += [f"# line {act.line}: {act.why}", text]
        return anchor

    def anchor(self, number):
        """What the boot had come to when an act was made: it waited or was idle, or the last thing that it set."""
        standing = Standing(self.boot, number - 1)
        if standing.wait is not None:
            return f"waiting for {awaited(standing.wait)}"
        ahead = self.boot.trace.entries[number - 2]
        if standing.is_idle:
            return "idle"
        if type(ahead.head) is not form.Next:
            return None
        return self.last_set(number - 1)

    def last_set(self, number):
        """The last state or value that was set up to an entry, as a condition."""
        for entry in reversed(self.boot.trace.entries[:number]):
            for output in reversed(entry.outputs):
                if type(output) is form.Put:
                    return condition(output)
        return None

    def expectation_lines(self):
        """What the boot came to. Of what failed, ended or was refused in it, that it may."""
        standing = Standing(self.boot, len(self.boot.trace.entries))
        dropped = set()
        if not standing.is_complete:
            dropped.add("expect boot complete")
        if standing.wait is not None:
            dropped.add("expect no wait open")
        lines = [it for it in expectations(SimpleNamespace(now=standing)) if it not in dropped]
        return [more for it in lines for more in self.with_exceptions(it)]

    def with_exceptions(self, line):
        if line == "expect no service crashed":
            return allowed(line, [quoted(it.name) for it in self.boot.lives if it.is_crash])
        if line == "expect no set refused":
            return allowed(line, [f"{quoted(it.name)} {quoted(it.value)}" for it in self.boot.refused if it.value is not None])
        return [line]


def condition(put):
    if put.name.startswith(STATES) and put.value in ("running", "stopped", "restarting"):
        return f"{put.value} {quoted(put.name.removeprefix(STATES))}"
    return f"prop {quoted(put.name)} {quoted(put.value)}"


def allowed(line, listed):
    listed = list(dict.fromkeys(listed))
    return [f"{line} but", *(f"    {it}" for it in listed)] if listed else [line]


def boot_test(log_name, script):
    """The text of the boot test that does what the script does, and then lets the boot come to rest."""
    return Test(log_name, script, script.runs.trace(script.text([f"step {script.look}"]))).text()

