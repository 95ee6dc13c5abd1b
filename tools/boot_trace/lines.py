"""The lines of a trace, one class for each form (docs/FORMATS.md, "The trace"). Texts are read: their q form is undone. A line is written
once: nothing here is changed after it was read. (They aren't frozen, which would double the time of the reader.)"""
from dataclasses import dataclass
from enum import Enum


class Mark(Enum):
    """A line of one word."""

    ALL_PROPERTIES = "all-properties"
    NOTED = "noted"
    OK = "ok"
    RELEASED = "released"
    TIMEOUT = "timeout"
    BLOCKED = "blocked"
    IDLE = "idle"
    DOWN = "down"
    TOO_FAR = "too-far"
    NO_PROCESS = "no-process"


@dataclass(slots=True)
class Refusal:
    """Why a set was refused: a name, and what stands after it."""

    name: str
    details: tuple

    def __str__(self):
        return " ".join(map(str, [self.name, *self.details]))


@dataclass(slots=True)
class Cause:
    """Why a command failed; for `Set` the one detail is a Refusal."""

    name: str
    details: tuple

    def __str__(self):
        return " ".join(map(str, [self.name, *self.details]))


@dataclass(slots=True)
class Diagnostic:
    file: str
    line: int
    kind: str


# ---- heads of entries


@dataclass(slots=True)
class Boot:
    pass


@dataclass(slots=True)
class Next:
    pass


@dataclass(slots=True)
class Tick:
    milliseconds: int


@dataclass(slots=True)
class Exit:
    name: str
    status: int


@dataclass(slots=True)
class File:
    path: str
    content: str


@dataclass(slots=True)
class Set:
    client: int
    name: str
    value: str


# ---- what the machine did


@dataclass(slots=True)
class Event:
    name: str


@dataclass(slots=True)
class Change:
    name: str
    value: str


@dataclass(slots=True)
class Action:
    file: str
    line: int


@dataclass(slots=True)
class Command:
    file: str
    line: int
    word: str
    arguments: tuple


@dataclass(slots=True)
class Put:
    number: int
    name: str
    value: str


@dataclass(slots=True)
class Stored:
    name: str


@dataclass(slots=True)
class Unset:
    name: str
    refusal: Refusal


@dataclass(slots=True)
class Spawn:
    pid: int
    name: str
    path: str


@dataclass(slots=True)
class NoPid:
    name: str


@dataclass(slots=True)
class Kill:
    pid: int
    name: str


@dataclass(slots=True)
class Reap:
    pid: int
    name: str
    status: int | None  # None if it ended as killed


@dataclass(slots=True)
class Env:
    name: str
    value: str


@dataclass(slots=True)
class Tree:
    path: str


@dataclass(slots=True)
class Failed:
    cause: Cause


@dataclass(slots=True)
class WaitChild:
    pid: int


@dataclass(slots=True)
class WaitProp:
    name: str
    value: str


@dataclass(slots=True)
class WaitFile:
    path: str
    until: int


@dataclass(slots=True)
class Reboot:
    target: str


@dataclass(slots=True)
class Accepted:
    number: int


@dataclass(slots=True)
class Control:
    number: int


@dataclass(slots=True)
class Refused:
    refusal: Refusal


# ---- what a client learned


@dataclass(slots=True)
class Found:
    name: str
    number: int
    value: str


@dataclass(slots=True)
class Absent:
    name: str
    number: int


@dataclass(slots=True)
class Again:
    name: str
    number: int
    first: int
    second: int


@dataclass(slots=True)
class Synced:
    number: int


@dataclass(slots=True)
class Caught:
    number: int


# ---- the whole


@dataclass(slots=True)
class Client:
    number: int
    name: str
    domain: str
    readings: list


@dataclass(slots=True)
class Moment:
    """A place in a trace: the number of the entry, from 1, the line of the text, and the model's time in milliseconds."""

    entry: int
    line: int
    clock: int


@dataclass(slots=True)
class Entry:
    """An input, and what the machine did. The line is that of the head, and each output has the next one. The clock is that after the input."""

    number: int
    line: int
    clock: int
    head: Boot | Next | Tick | Exit | File | Set
    outputs: list

    def moment(self, place=-1):
        """The place of an output, from 0, or of the head."""
        return Moment(self.number, self.line + 1 + place, self.clock)


@dataclass(slots=True)
class Trace:
    diagnostics: list
    entries: list
    clients: list
