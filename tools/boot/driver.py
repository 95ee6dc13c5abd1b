"""Drives a boot by a test: finds the script that the test amounts to, by running far enough once and cutting."""
from math import isqrt
from typing import NamedTuple

from boot_trace.lines import Failed as FailedLine, Mark
from boot_trace.words import text as text_of

from boot.language import Expectation, Rule, Until
from boot.standing import Standing

# Nexts that one run looks ahead: the first try, and the most.
FIRST_LOOK, MOST_LOOK = 64, 20_000
# Acts of rules in a row, after one Next or other act.
MOST_RULE_ACTS = 100
MOST_TICKS = 200
# By these acts of clients nothing is done: they make no entry.
SILENT = ("read", "sync", "catch")


class Undone(Exception):
    """Why the boot can't be driven further: the line of the test, what was wanted there, and why that isn't so."""

    def __init__(self, line, what, why, service=None):
        super().__init__(what)
        # (the service of which to say what became)
        self.line, self.what, self.why, self.service = line, what, why, service


class Fault(NamedTuple):
    """An act that did nothing."""

    line: int
    text: str
    why: str


class Counts:
    """What the driving took."""

    def __init__(self):
        self.steps, self.ticks, self.rule_acts = 0, 0, 0


class Script:
    """The acts so far, each with the line of the test of which it comes."""

    def __init__(self, test):
        self.test = test
        self.acts = []  # (line and text of the test's part, act)
        self.source = None

    @property
    def head(self):
        """The declarations."""
        clients = [f"client {it.name} {it.domain}" for it in self.test.clients.values()]
        return [text for _, text in self.test.declarations] + clients

    def add(self, act):
        """Adds an act; Nexts in a row of one source are one line."""
        last = self.acts[-1] if self.acts else (None, "")
        if act == "step 1" and last[0] == self.source and last[1].startswith("step "):
            self.acts[-1] = (self.source, f"step {int(last[1].split()[1]) + 1}")
        else:
            self.acts.append((self.source, act))

    def with_acts(self, *more):
        return "".join(f"{it}\n" for it in [*self.head, *(act for _, act in self.acts), *more])

    def text(self):
        """The text for people, in which comments say of which lines of the test the acts come."""
        lines, source = [f"# Made by boot-test of {self.test.path}.", *self.head], None
        for of, act in self.acts:
            if of != source:
                lines.append(f"# {self.test.path}:{of[0]}: {of[1]}")
            source = of
            lines.append(act)
        return "".join(f"{it}\n" for it in lines)


def awaited_service(condition):
    """The service whose state a condition asks for."""
    return text_of(condition.words[0]) if condition.kind in ("running", "stopped", "restarting") else None


class Driver:
    """The script so far, and where the boot stands after it. What comes if it only goes on is known ahead."""

    def __init__(self, test, runs):
        self.test, self.runs = test, runs
        self.script, self.counts = Script(test), Counts()
        self.rules, self.acted = [], {}
        self.faults, self.notes = [], []
        # (what couldn't be done, and the parts after it)
        self.undone, self.skipped, self.reached = None, [], []
        # (whether what is expected now rests on acts that weren't done)
        self.is_left = False
        self.look = FIRST_LOOK
        self.now = Standing(None, 0)
        self.look_ahead(1)

    def boot_of(self, *acts):
        """The boot that the script makes with these acts after it."""
        return self.runs.boot(self.script.with_acts(*acts))

    def look_ahead(self, entries, *acts):
        """Looks ahead by one run, and goes on by so many entries."""
        self.now = Standing(self.boot_of(*acts, f"step {self.look}"), self.now.at + entries)

    def next(self):
        """Does one Next."""
        if self.now.at == len(self.now.boot.trace.entries):
            self.look = min(self.look * 4, MOST_LOOK)
            self.look_ahead(0)
        self.now = Standing(self.now.boot, self.now.at + 1)
        self.script.add("step 1")
        self.counts.steps += 1

    def act(self, text):
        """Does one act that is no step."""
        words = text.split()
        if not (words[0].startswith("@") and words[1] in SILENT):
            self.look = FIRST_LOOK
            self.look_ahead(1, text)
        self.script.add(text)
        self.counts.ticks += words[0] == "tick"

    # -- the parts of a test

    def drive(self, judge):
        """Does the parts of the test in their order. After what couldn't be done the next expectations are judged, up to a further act."""
        is_judged = False
        for part in self.test.parts:
            is_expectation = isinstance(part, Expectation)
            if is_expectation and not self.is_left:
                judge(part, self.now)
                is_judged = is_judged or self.undone is not None
            elif self.undone:
                self.skipped.append(part)
                self.is_left = is_judged
            else:
                self.do_part(part)

    def do_part(self, part):
        self.script.source = part.line, part.text
        try:
            if isinstance(part, Rule):
                self.rules.append(part)
            elif isinstance(part, Until):
                self.until(part)
                self.reached.append(part)
            else:
                self.do_act(part)
            self.apply_rules()
        except Undone as undone:
            self.undone = undone

    def do_act(self, act):
        if act.text.startswith("step "):
            self.do_steps(int(act.text.split()[1]))
            return
        dead = self.dead_client(act)
        if dead:
            raise Undone(act.line, act.text, f"{dead.name} can't ask", dead.service)
        self.act(act.text)
        self.see_to_it(act)

    def do_steps(self, count):
        for _ in range(count):
            self.apply_rules()
            self.next()

    def see_to_it(self, act):
        """Notes an act that did nothing."""
        said = self.now.entry.outputs if act.client is None else []
        for output in said[:1]:
            if output is Mark.NO_PROCESS:
                self.faults.append(Fault(act.line, act.text, "no process has this name then"))
            elif output is Mark.TOO_FAR:
                self.faults.append(Fault(act.line, act.text, "the clock would pass its end"))
            elif isinstance(output, FailedLine):
                self.faults.append(Fault(act.line, act.text, f"the model's tree refuses the file: {output.cause}"))

    def dead_client(self, act):
        """The client that asks, if the service in which it lives doesn't run."""
        client = self.test.clients.get(act.client)
        return client if client and client.service and not self.now.is_running(client.service) else None

    # -- rules

    def apply_rules(self):
        """Lets the rules act whose conditions have come true, until none is left."""
        acts = 0
        while True:
            rule = next((it for it in self.rules if self.is_wanted(it) and self.is_able(it)), None)
            if rule is None:
                return
            acts += len(rule.acts)
            if acts > MOST_RULE_ACTS:
                raise Undone(rule.line, rule.text, f"rules acted {MOST_RULE_ACTS} times in a row, and it still holds")
            self.acted[rule.line] = self.now.occurrence(rule.condition)
            self.let_act(rule)

    def is_wanted(self, rule):
        """Whether the condition holds, and the rule hasn't acted since it came true."""
        occurrence = self.now.occurrence(rule.condition)
        return occurrence is not None and self.acted.get(rule.line) != occurrence

    def is_able(self, rule):
        return not any(self.dead_client(it) for it in rule.acts)

    def let_act(self, rule):
        before, self.script.source = self.script.source, (rule.line, rule.text)
        for act in rule.acts:
            self.counts.rule_acts += 1
            if act.text.startswith("step "):
                for _ in range(int(act.text.split()[1])):
                    self.next()
            else:
                self.do_act(act)
        self.script.source = before

    # -- until

    def until(self, part):
        steps, passed, ticks = 0, 0, 0
        while True:
            self.apply_rules()
            if self.now.occurrence(part.condition) is not None:
                break
            if self.now.is_over or self.now.is_idle or self.now.wait:
                moved = self.pass_time(part, passed, ticks)
                passed, ticks = passed + moved, ticks + 1
            elif steps < part.steps:
                self.next()
                steps += 1
            else:
                raise Undone(part.line, part.text, f"not reached after {steps} steps")
        if part.within is not None:
            self.notes.append((part.line, f"{part.text}: {passed} ms passed, in {ticks} tick{'' if ticks == 1 else 's'}"))

    def pass_time(self, part, passed, ticks):
        """Lets time pass up to the next moment at which something happens by itself; how much."""
        left = 0 if part.within is None or self.now.is_over else part.within - passed
        moved = self.silent_time(left) if left > 0 and ticks < MOST_TICKS else 0
        if moved:
            self.act(f"tick {moved}")
            return moved
        raise Undone(part.line, part.text, self.why_at_rest(part, passed, ticks), self.dead_service() or awaited_service(part.condition))

    def silent_time(self, most):
        """The time after which something happens by itself; 0 if nothing would within the most."""
        size = isqrt(most - 1) + 1
        coarse = self.first_to_speak([size] * (most // size) + [most % size] * (most % size > 0))
        if coarse is None:
            return 0
        before = size * coarse
        fine = self.first_to_speak([before, *[1] * min(size, most - before)][before == 0 :])
        return before + fine + (before == 0)

    def first_to_speak(self, ticks):
        """The first of these ticks, from 0, at which something happens; None if nothing does."""
        entries = self.boot_of(*(f"tick {it}" for it in ticks)).trace.entries[self.now.at :]
        return next((at for at, it in enumerate(entries) if it.outputs), None)

    def why_at_rest(self, part, passed, ticks):
        if ticks == MOST_TICKS:
            return f"not reached after {ticks} ticks, of {passed} ms"
        if part.within is None or self.now.is_over:
            return "not reached"
        return f"not reached, and nothing more happens by itself in the {part.within} ms that may pass"

    def dead_service(self):
        """The service for want of which a rule can't act."""
        rules = [it for it in self.rules if self.is_wanted(it)]
        clients = (self.dead_client(act) for it in rules for act in it.acts)
        return next((it.service for it in clients if it), None)
