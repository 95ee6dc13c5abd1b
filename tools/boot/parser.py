"""Reads a boot test: line by line, each fault with its line."""
import difflib

from boot.forms import ACTS, DECLARATIONS, MOST_STEPS as MOST_SCRIPT_STEPS, Wrong, check_ask, legal_name, milliseconds, number, q_form, want_count
from boot.language import MOST_STEPS, Act, Client, Condition, Event, Expectation, Rule, Test, Until

MOST_BYTES = 16_777_216
MOST_CLIENTS = 64
FIRST_WORDS = (*DECLARATIONS, "client", *ACTS, "until", "when", "expect")
# The conditions by their words, with what stands after these.
CONDITIONS = {
    ("idle",): (),
    ("blocked",): (),
    ("quiet",): (),
    ("running",): ("NAME",),
    ("stopped",): ("NAME",),
    ("restarting",): ("NAME",),
    ("prop",): ("NAME", "VALUE"),
    ("waiting", "for", "file"): ("PATH",),
    ("waiting", "for", "prop"): ("NAME", "VALUE"),
    ("waiting", "for", "exit", "of"): ("NAME",),
}
# Those by which no rule can act, since they hold again and again.
AT_REST = ("idle", "blocked", "quiet")
# The other expectations: their words, what stands after these, their kind, and whether `but` may follow.
EXPECTATIONS = {
    ("no", "prop"): (("NAME",), "absent", False),
    ("never", "started"): (("NAME",), "never started", False),
    ("no", "service", "crashed"): ((), "no crash", True),
    ("no", "command", "failed"): ((), "no failure", True),
    ("no", "set", "refused"): ((), "no refusal", True),
    ("no", "wait", "open"): ((), "no wait", False),
    ("boot", "complete"): ((), "complete", False),
}
SIDES = "event NAME, action TRIGGER in FILE, spawn NAME, set NAME, or set NAME VALUE"


class Faults(Exception):
    """What is wrong with a test: (line, what) of each fault."""

    def __init__(self, path, faults):
        super().__init__(path)
        self.lines = [f"{path}:{line}: {what}" for line, what in faults]


def parse_test(path, text):
    """The test with this text."""
    reading = Reading(path)
    for line, raw in enumerate(text.split("\n"), 1):
        words = raw.split()
        if words and not words[0].startswith("#"):
            reading.take(line, words, is_indented=raw[0] in " \t")
    reading.close()
    if reading.faults:
        raise Faults(path, reading.faults)
    return reading.test


class Reading:
    """What was read so far."""

    def __init__(self, path):
        self.test, self.faults = Test(path, [], {}, []), []
        # (what takes the indented lines: a rule's acts, or what stands below `but`)
        self.below = None
        self.planned = {}
        self.first_act = None

    def take(self, line, words, is_indented):
        try:
            check_text(words)
            if is_indented:
                self.take_indented(line, words)
            else:
                self.close_block()
                self.take_part(line, words)
        except Wrong as wrong:
            self.faults.append((line, str(wrong)))

    def take_part(self, line, words):
        first = words[0]
        if first in DECLARATIONS or first == "client":
            self.take_declaration(line, words)
        elif first == "until":
            self.test.parts.append(until_of(line, words[1:]))
        elif first == "when":
            self.take_rule(line, words[1:])
        elif first == "expect":
            self.take_expectation(line, words[1:])
        else:
            self.test.parts.append(self.act_of(line, words))
        if first not in ("when", "client", *DECLARATIONS):
            self.first_act = self.first_act or line

    def take_indented(self, line, words):
        if self.below is None:
            raise Wrong("an indented line belongs to a `when`, or to an `expect .. but`, and none is above it")
        kind, _, made = self.below
        made.append(self.act_of(line, words) if kind == "when" else (line, tuple(q_form(it) for it in words)))

    def close_block(self):
        if self.below and not self.below[2] and not any(line >= self.below[1] for line, _ in self.faults):
            kind, line, _ = self.below
            self.faults.append((line, "an act is expected after `then`, or indented below it" if kind == "when" else "what may be is expected below it, indented"))
        self.below = None

    def close(self):
        self.close_block()
        if not any(isinstance(it, Expectation) for it in self.test.parts) and not self.faults:
            self.faults.append((1, "the test expects nothing; an `expect` is missing"))

    def take_declaration(self, line, words):
        if self.first_act:
            raise Wrong(f"area, plan and client stand before all acts, and line {self.first_act} has one")
        if words[0] == "client":
            self.take_client(line, words)
            return
        DECLARATIONS[words[0]](words)
        key = tuple(words[:2] if words[0] == "plan" else words[:1])
        if key in self.planned:
            raise Wrong(f"{' '.join(key)} is declared in line {self.planned[key]} too")
        self.planned[key] = line
        self.test.declarations.append((line, " ".join(words)))

    def take_client(self, line, words):
        if len(words) not in (3, 5) or words[3:4] not in ([], ["in"]):
            raise Wrong("client NAME DOMAIN, or client NAME DOMAIN in SERVICE, is expected")
        name, domain, service = q_form(words[1]), q_form(words[2]), words[4] if len(words) == 5 else None
        if name in self.test.clients:
            raise Wrong(f"client {name} is declared in line {self.test.clients[name].line} too")
        if len(self.test.clients) == MOST_CLIENTS:
            raise Wrong(f"at most {MOST_CLIENTS} clients may be declared")
        self.test.clients[name] = Client(line, name, domain, service)

    def act_of(self, line, words):
        first = words[0]
        if first.startswith("@"):
            check_ask(words)
            if first[1:] not in self.test.clients:
                raise Wrong(f"client {first[1:]} is declared nowhere")
            return Act(line, " ".join(words), first[1:])
        if first not in ACTS:
            likely = difflib.get_close_matches(first, FIRST_WORDS, 1)
            raise Wrong(f"a line begins with {', '.join(FIRST_WORDS)} or @, not {first}" + (f" ({likely[0]}?)" if likely else ""))
        ACTS[first](words)
        return Act(line, " ".join(words), None)

    def take_rule(self, line, words):
        condition, rest = condition_of(words)
        if condition.kind in AT_REST:
            raise Wrong(f"a rule can't act when {condition.kind}: that would hold again and again")
        rule = Rule(line, condition, [])
        self.below = ("when", line, rule.acts)
        self.test.parts.append(rule)
        if rest[:1] == ["then"] and len(rest) > 1:
            rule.acts.append(self.act_of(line, rest[1:]))
        elif rest:
            raise Wrong(f"`then` with an act is expected after the condition, not {' '.join(rest)}")

    def take_expectation(self, line, words):
        has_but = words[-1:] == ["but"]
        made = expectation_of(line, words[:-1] if has_but else words)
        if has_but:
            if not any(kind == made.kind and may for _, kind, may in EXPECTATIONS.values()):
                raise Wrong("`but` may follow no service crashed, no command failed and no set refused alone")
            listed = []
            self.below = ("but", line, listed)
            made = made._replace(listed=listed)
        self.test.parts.append(made)


def check_text(words):
    odd = next((char for word in words for char in word if not "!" <= char <= "~"), None)
    if odd is not None:
        raise Wrong(f"the character {ascii(odd)[1:-1]} may not stand in a test; in q form it is {''.join(f'%{it:02X}' for it in odd.encode('utf-8', 'surrogateescape'))}")


def matching(table, words):
    """The entry of a table with whose key the words begin, and the words after it."""
    for key, value in table.items():
        if tuple(words[: len(key)]) == key:
            return key, value, words[len(key) :]
    return None, None, words


def condition_of(words):
    """The condition with which the words begin, and the words after it."""
    key, names, rest = matching(CONDITIONS, words)
    if key is None:
        known = ", ".join(" ".join(it) for it in CONDITIONS)
        raise Wrong(f"a condition begins with {known}, not {' '.join(words) or 'nothing'}")
    if len(rest) < len(names):
        raise Wrong(f"{' '.join([*key, *names])} is expected")
    given = tuple(q_form(it) for it in rest[: len(names)])
    kind = f"waiting {key[2]}" if key[0] == "waiting" else key[0]
    return Condition(kind, given, " ".join([*key, *given])), rest[len(names) :]


def until_of(line, words):
    condition, rest = condition_of(words)
    within, steps = None, MOST_STEPS
    if rest[:1] == ["within"]:
        want_count(rest[1:2], 1, "within TIME")
        within, rest = milliseconds(rest[1]), rest[2:]
    if rest[:2] == ["at", "most"]:
        want_count(rest[2:4], 2, "at most N steps")
        if rest[3] != "steps":
            raise Wrong("at most N steps is expected")
        steps, rest = number(rest[2], 1, MOST_SCRIPT_STEPS), rest[4:]
    if rest:
        raise Wrong(f"within TIME, at most N steps, or nothing is expected after the condition, not {' '.join(rest)}")
    return Until(line, condition, within, steps)


def expectation_of(line, words):
    text = f"expect {' '.join(words)}"
    if "before" in words:
        at = words.index("before")
        sides = side_of(words[:at]), side_of(words[at + 1 :])
        return Expectation(line, text, "before", sides=sides)
    if words[:1] == ["started"] and len(words) in (2, 3) and words[2:] in ([], ["once"]):
        return Expectation(line, text, "once" if words[2:] else "started", words=(q_form(words[1]),))
    key, found, rest = matching(EXPECTATIONS, words)
    if key is not None:
        names, kind, _ = found
        want_count(rest, len(names), " ".join([*key, *names]))
        return Expectation(line, text, kind, words=tuple(q_form(it) for it in rest))
    condition, rest = expected_condition(words)
    if rest:
        raise Wrong(f"nothing is expected after {condition.text}, not {' '.join(rest)}")
    return Expectation(line, text, "holds", condition=condition)


def expected_condition(words):
    try:
        return condition_of(words)
    except Wrong:
        if matching(CONDITIONS, words)[0] is not None:
            raise
    forms = [" ".join(it) for it in (*EXPECTATIONS, ("started",), *CONDITIONS)]
    raise Wrong(f"{', '.join(forms)}, or A before B is expected after expect, not {' '.join(words) or 'nothing'}")


def side_of(words):
    """One side of an expectation of order."""
    kind, rest = (words[0], words[1:]) if words else ("", [])
    forms = {"event": (1,), "spawn": (1,), "set": (1, 2), "action": (3,)}
    if len(rest) not in forms.get(kind, ()) or kind == "action" and rest[1] != "in":
        raise Wrong(f"{SIDES} is expected on each side of `before`, not {' '.join(words) or 'nothing'}")
    if kind == "set":
        legal_name(rest[0])
    given = (rest[0], rest[2]) if kind == "action" else tuple(rest)
    return Event(kind, tuple(q_form(it) for it in given), " ".join(words))
