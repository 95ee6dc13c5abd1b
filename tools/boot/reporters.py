"""What a boot test came to, for people, for services that show test results (JUnit's XML), and for scripts (JSON)."""
import json
from typing import NamedTuple
from xml.sax.saxutils import escape, quoteattr

from product.texts import counted, printable


class Check(NamedTuple):
    """Something that the test asked for, and what is wrong if it doesn't hold."""

    line: int
    text: str
    why: str | None

    @property
    def passed(self):
        return self.why is None


class Result(NamedTuple):
    path: str
    root: str
    checks: list
    notes: list  # (line, text)
    counts: object  # steps, ticks, acts of rules

    @property
    def failures(self):
        return [it for it in self.checks if not it.passed]


def as_text(result):
    lines = [f"{result.path}:{it.line}: failed: {it.why}" for it in result.failures]
    lines += [f"{result.path}:{line}: note: {text}" for line, text in result.notes]
    took = f"{counted(result.counts.steps, 'step', 'steps')}, {counted(result.counts.ticks, 'tick', 'ticks')}, "
    took += counted(result.counts.rule_acts, "act of a rule", "acts of rules")
    checks = counted(len(result.checks), "check", "checks")
    verdict = f"{len(result.failures)} of {checks} failed" if result.failures else f"{checks} passed"
    return "".join(f"{printable(it)}\n" for it in [*lines, f"{result.path}: {verdict} ({took})"])


def as_json(result):
    checks = [{"line": it.line, "text": it.text, "passed": it.passed, **({} if it.passed else {"message": it.why})} for it in result.checks]
    shown = {
        "test": result.path,
        "root": result.root,
        "passed": not result.failures,
        "steps": result.counts.steps,
        "ticks": result.counts.ticks,
        "rule_acts": result.counts.rule_acts,
        "checks": checks,
        "notes": [{"line": line, "text": text} for line, text in result.notes],
    }
    return json.dumps(shown, indent=2) + "\n"


def as_junit(result):
    name = quoteattr(printable(result.path))
    head = f"name={name} tests={quoteattr(str(len(result.checks)))} failures={quoteattr(str(len(result.failures)))}"
    lines = ['<?xml version="1.0" encoding="UTF-8"?>', "<testsuites>", f" <testsuite {head}>"]
    for it in result.checks:
        case = f"  <testcase classname={name} name={quoteattr(printable(f'{it.line}: {it.text}'))} file={name} line={quoteattr(str(it.line))}"
        if it.passed:
            lines.append(f"{case}/>")
            continue
        why = printable(f"{result.path}:{it.line}: {it.why}")
        lines += [f"{case}>", f"   <failure message={quoteattr(why)}>{escape(why)}</failure>", "  </testcase>"]
    if result.notes:
        notes = (printable(f"{result.path}:{line}: note: {text}") for line, text in result.notes)
        lines += ["  <system-out>" + escape("\n".join(notes)) + "</system-out>"]
    return "".join(f"{it}\n" for it in [*lines, " </testsuite>", "</testsuites>"])


FORMATS = {"text": as_text, "junit": as_junit, "json": as_json}
