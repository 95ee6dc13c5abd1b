"""Runs a test: drives the boot, judges what is expected, and gathers what came of it."""
import difflib

from boot_trace.words import text

from boot.causes import Causes
from boot.driver import Driver
from boot.expectations import judge
from boot.language import Expectation, Rule
from boot.reporters import Check, Result


def judge_test(test, runs):
    """What the test came to, and the script that it amounts to."""
    driver, checks, known = Driver(test, runs), [], {}

    def judge_one(expectation, standing):
        if standing.at not in known:
            known.clear()
            known[standing.at] = Causes(standing, runs.tree.copy)
        known[standing.at].is_cut = driver.undone is not None
        checks.append(Check(expectation.line, expectation.text, judge(expectation, known[standing.at])))

    driver.drive(judge_one)
    causes = Causes(driver.now, runs.tree.copy)
    checks += [Check(it.line, it.text, None) for it in driver.reached] + idle_acts(driver, causes)
    checks += [undone(driver, causes)] if driver.undone else idle_plans(driver, causes)
    checks.sort(key=lambda it: it.line)
    notes = sorted(driver.notes + skipped(driver) + silent_rules(driver))
    return Result(test.path, runs.root, checks, notes, driver.counts), driver.script.text()


def undone(driver, causes):
    """The check that ended the driving."""
    it = driver.undone
    service = [causes.service(it.service)] if it.service else []
    return Check(it.line, it.what, f"{it.what}: {'; '.join([it.why, *service, causes.init()])}")


def idle_acts(driver, causes):
    """The acts that did nothing, as they name nothing."""
    found = []
    for it in driver.faults:
        words = it.text.split()
        hint = likely(text(words[1]), causes.sources.services) if words[0] == "exit" else ""
        found.append(Check(it.line, it.text, f"{it.text}: {it.why}{hint}"))
    return found


def idle_plans(driver, causes):
    """The plans of paths of which no process began."""
    begun = {it.path for it in causes.boot.lives}
    plans = [(line, it.split()) for line, it in driver.test.declarations if it.startswith("plan ")]
    odd = [(line, words) for line, words in plans if text(words[1]) not in begun]
    paths = [it.path for it in causes.sources.services.values()] + sorted(begun) if odd else []
    return [Check(line, " ".join(words), f"plan {words[1]}: no process of this path began{likely(text(words[1]), paths)}") for line, words in odd]


def likely(name, known):
    close = [it for it in difflib.get_close_matches(name, known, 1) if it != name]
    return f" ({close[0]}?)" if close else ""


def skipped(driver):
    acts = [it for it in driver.skipped if not isinstance(it, (Rule, Expectation))]
    left = next((it.line for it in driver.skipped if isinstance(it, Expectation)), None)
    notes = [(acts[0].line, "from here on no act was done")] if acts else []
    return notes + ([(left, "from here on nothing was judged")] if left else [])


def silent_rules(driver):
    rules = [it for it in driver.test.parts if isinstance(it, Rule)]
    return [(it.line, f"{it.text}: it never acted") for it in rules if it.line not in driver.acted]
