"""What a picture is made of. A class names a style (boot_view.style); a title is shown when one points at it."""
from dataclasses import dataclass, field

FEW = 60
CHARACTER = 6.3  # about the width of one, at the size of the text


@dataclass(slots=True)
class Box:
    x: float
    y: float
    width: float
    height: float
    style: str
    title: str = ""


@dataclass(slots=True)
class Label:
    x: float
    y: float
    text: str
    style: str = ""
    anchor: str = "start"
    title: str = ""


@dataclass(slots=True)
class Line:
    x1: float
    y1: float
    x2: float
    y2: float
    style: str


@dataclass(slots=True)
class Glyph:
    """A small mark around a point, of the form that its kind has."""

    x: float
    y: float
    kind: str
    title: str = ""


@dataclass(slots=True)
class Panel:
    """A part of the picture that isn't broken between pages."""

    name: str
    height: float
    shapes: list = field(default_factory=list)


def width_of(text):
    return len(text) * CHARACTER


def shortened(text, most):
    """The text, or its ends with an ellipsis between."""
    if len(text) <= most:
        return text
    front = (most - 1) // 2
    return f"{text[:front]}…{text[len(text) - (most - 1 - front):]}"


def label_start(x, width, right):
    """Where the label of a point begins: there, or if it has no room on that side, so that it ends there."""
    return x if x + width <= right else x - width - 4


def lanes_for(labels, right, most):
    """Lanes for labels, each by its point and width, from the left: one for each, or None where `most` aren't enough. No label touches
    another one. Those to the left are the lower ones, so that no line from a point down to its label crosses another label; if the labels are
    few, one without room is crossed, and not left out."""
    gap, edges, found = 8, [float("inf")] * most, []
    for x, width in reversed(labels):
        start = label_start(x, width, right)
        free = [it for it in range(most) if start + width + gap <= edges[it]]
        crossed = free[-1] if free and len(labels) <= FEW else None
        lane = next((it for it in free if start + width + gap <= min(edges[it:])), crossed)
        if lane is not None:
            edges[lane] = start
        found.append(lane)
    return found[::-1]
