"""Which of the things that two boots have in common are in another order."""
from bisect import bisect_left


def in_order(old, new):
    """The largest set of names that are in the same order in both lists; each list has a name at most once."""
    places = {name: at for at, name in enumerate(old)}
    tails, ends, before = [], [], {}
    for name in new:
        if name not in places:
            continue
        at = bisect_left(tails, places[name])
        tails[at : at + 1] = [places[name]]
        ends[at : at + 1] = [name]
        before[name] = ends[at - 1] if at else None
    kept, name = set(), ends[-1] if ends else None
    while name is not None:
        kept.add(name)
        name = before[name]
    return kept


class Orders:
    """The orders of names on both sides. Those in `moved` are known to have moved; of the others the fewest that can have."""

    def __init__(self, old, new, moved=()):
        self.old = {name: at for at, name in enumerate(old)}
        self.new = {name: at for at, name in enumerate(new)}
        still = [it for it in old if it in self.new and it not in moved]
        self.kept = in_order(still, [it for it in new if it in self.old and it not in moved])
        self.moved = [it for it in new if it in self.old and it not in self.kept]

    def passed(self, name):
        """Those that keep their order, and that this one is now before, and after: two lists, in the new order."""
        before = [it for it in self.kept if self.old[it] < self.old[name] and self.new[it] > self.new[name]]
        after = [it for it in self.kept if self.old[it] > self.old[name] and self.new[it] < self.new[name]]
        return sorted(before, key=self.new.get), sorted(after, key=self.new.get, reverse=True)
