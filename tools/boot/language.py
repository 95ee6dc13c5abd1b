"""The words of a boot test: what its lines say, without their meaning."""
from typing import NamedTuple

MOST_STEPS = 20_000


class Condition(NamedTuple):
    """Something that holds or not after each entry of a boot."""

    kind: str  # idle, blocked, quiet, running, stopped, restarting, prop, waiting file, waiting prop, waiting exit
    words: tuple  # in q form
    text: str


class Act(NamedTuple):
    """A line of a script."""

    line: int
    text: str
    client: str | None  # who asks


class Until(NamedTuple):
    line: int
    condition: Condition
    within: int | None  # the most milliseconds that may pass
    steps: int  # the most Nexts

    @property
    def text(self):
        return f"until {self.condition.text}"


class Rule(NamedTuple):
    line: int
    condition: Condition
    acts: list

    @property
    def text(self):
        return f"when {self.condition.text}"


class Event(NamedTuple):
    """One side of an expectation of order."""

    kind: str  # event, action, spawn, set
    words: tuple
    text: str


class Expectation(NamedTuple):
    line: int
    text: str
    kind: str  # holds, absent, never started, started, once, no crash, no failure, no refusal, no wait, complete, before
    condition: Condition | None = None
    words: tuple = ()
    sides: tuple = ()
    listed: tuple = ()  # (line, words) of each line below `but`


class Client(NamedTuple):
    line: int
    name: str
    domain: str
    service: str | None  # in which it lives


class Test(NamedTuple):
    path: str
    declarations: list  # (line, text) of `area` and `plan`
    clients: dict  # by name
    parts: list  # acts, untils, rules and expectations, in the order of the file
