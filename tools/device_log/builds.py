"""Finds the lines that a log names in ROOT's files, also if these are of another build."""
from bisect import bisect_right
from collections import defaultdict
from dataclasses import dataclass, field

from product.device import normal

from device_log import align
from device_log.rc_tree import triggers_of_text

# So many actions at no `on` of ROOT, and its files are of another build.
MOST_MISPLACED = 2


@dataclass
class Places:
    """Where the lines of a log are in ROOT."""

    keys: dict = field(default_factory=dict)  # by the index of an action's message
    misplaced: list = field(default_factory=list)  # the indexes of those at no `on` of ROOT
    foreign: list = field(default_factory=list)  # those in files that ROOT hasn't
    differing: list = field(default_factory=list)  # (index, file, line in the log, line in ROOT or None)
    offsets: dict = field(default_factory=dict)  # by file: the lines from which offsets hold, with these

    def printed(self, file, number):
        """The number that ROOT's file has for a line of the log."""
        shifts = self.offsets.get(file)
        if not shifts:
            return number
        at = max(0, bisect_right([it[0] for it in shifts], number) - 1)
        return number + shifts[at][1]


def place_actions(log, tree):
    """Finds each action of the log in ROOT."""
    places, misplaced = Places(), []
    for index, message in enumerate(log.messages):
        if message.kind != "action":
            continue
        file = normal(message.found["file"])
        key = file, tree.number_of(file, int(message.found["number"]))
        if file not in tree.numbers:
            places.foreign.append(index)
        elif key in tree.actions and tree.triggers[key] == triggers_of_text(message.found["triggers"]):
            places.keys[index] = key
        else:
            misplaced.append(index)
    if len({spot(log.messages[it]) for it in misplaced}) > MOST_MISPLACED:
        realign(log, tree, places, {normal(log.messages[it].found["file"]) for it in misplaced})
    places.misplaced = [it for it in misplaced if it not in places.keys]
    return places


def spot(message):
    return normal(message.found["file"]), int(message.found["number"])


def realign(log, tree, places, files):
    """Finds the actions of these files by the order of their triggers."""
    shown = defaultdict(dict)
    for index, message in enumerate(log.messages):
        if message.kind == "action" and spot(message)[0] in files:
            shown[spot(message)[0]].setdefault(spot(message)[1], []).append(index)
    for file in sorted(files):
        realign_file(log, tree, places, file, shown[file])


def realign_file(log, tree, places, file, shown):
    numbers = sorted(shown)
    texts = [triggers_of_text(log.messages[shown[it][0]].found["triggers"]).text for it in numbers]
    own = [key for key in tree.actions if key[0] == file]
    found = {numbers[i]: own[j] for i, j in align.pairs(texts, [tree.triggers[it].text for it in own])}
    for number, indexes in shown.items():
        for index in indexes:
            places.keys.pop(index, None)
            if number in found:
                places.keys[index] = found[number]
    places.offsets[file] = [(number, tree.printed[key] - number) for number, key in sorted(found.items())]
    first = next((it for it in numbers if it not in found or tree.printed[found[it]] != it), None)
    if first is not None:
        there = tree.printed[found[first]] if first in found else None
        places.differing.append((shown[first][0], file, first, there))
