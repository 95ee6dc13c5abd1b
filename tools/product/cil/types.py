"""The types of a policy: what aliases and attributes stand for, as whole numbers with one bit for each type."""
import re
from collections import defaultdict

from product.cil.forms import bare
from product.cil.sets import in_order, names_in, union, value_of

ONE = re.compile("1")


class Types:
    """The types by number, in the order of their names, and the set of types for which each name stands."""

    def __init__(self, names, aliases, sets):
        self.names = names
        self.types = sorted(names.live("type"))
        self.every = (1 << len(self.types)) - 1
        self.sets = {name: 1 << number for number, name in enumerate(self.types)}
        self.aliases = self.read_aliases(aliases)
        self.sets.update((alias, self.sets[actual]) for alias, actual in self.aliases.items())
        self.read_attributes(sets)

    def read_aliases(self, statements):
        """The type of each alias."""
        actual, places = {}, {}
        for it in statements:
            self.names.require(it)
            alias, target = map(bare, it.words[1:])
            if self.names.kind("type", alias) != "typealias":
                raise it.fault(f"{alias} is no alias")
            if self.names.kind("type", target) == "typeattribute":
                raise it.fault(f"{target} is an attribute, and {alias} would be its alias")
            if alias in actual:
                raise it.fault(f"{alias} is an alias already, by {places[alias].place()}")
            actual[alias], places[alias] = target, it
        for alias in self.names.live("typealias"):
            if alias not in actual:
                raise self.names.places[("type", alias)][0].fault(f"{alias} is an alias of nothing")
        ordered, circle = in_order({alias: [target] for alias, target in actual.items()})
        if circle:
            raise places[circle[-1]].fault(f"{circle[-1]} is an alias of itself")
        for it in ordered:
            if it in actual:
                actual[it] = actual.get(actual[it], actual[it])
        return actual

    def read_attributes(self, statements):
        """Finds the types of each attribute: the union of its sets."""
        attributes, made = set(self.names.live("typeattribute")), defaultdict(list)
        for it in statements:
            self.names.require(it)
            name = bare(it.words[1])
            if name not in attributes:
                raise it.fault(f"{name} is a {self.names.kind('type', name)}, and no attribute")
            made[name].append(it)
        parts = {name: dict.fromkeys(bare(part) for it in of_it for part in names_in(it.words[2])) for name, of_it in made.items()}
        ordered, circle = in_order({name: [it for it in names if it in attributes] for name, names in parts.items()})
        if circle:
            part, name = circle[-2:]
            guilty = next(it for it in made[name] if part in map(bare, names_in(it.words[2])))
            raise guilty.fault(f"{name} is made of itself")
        self.sets.update(dict.fromkeys(attributes, 0))
        for name in ordered:
            self.sets[name] = union(value_of(it.words[2], self.set_of, self.every) for it in made.get(name, ()))

    def set_of(self, name):
        return self.sets[bare(name)]

    def is_single(self, name):
        """Whether the name is of a type, or an alias."""
        return self.names.kind("type", bare(name)) != "typeattribute"

    def type_of(self, name):
        """The type of a name that is a type's or an alias's."""
        return self.aliases.get(bare(name), bare(name))

    def members(self, value):
        """The names of the types in a set, in their order."""
        return [self.types[it.start()] for it in ONE.finditer(f"{value:b}"[::-1])]
