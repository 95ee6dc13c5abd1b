"""The permissions of classes, class maps and classpermissions: which of them have the one to set a property."""
from product.cil.forms import bare
from product.cil.sets import in_order, value_of

CLASS, SET = "property_service", "set"


class Permissions:
    """What the names of permissions stand for. A node is a classpermission, or a class map with one of its permissions."""

    def __init__(self, names, kept):
        self.names = names
        self.of_class = {it.words[1]: list(it.words[2]) for kind in ("class", "classmap") for it in kept[kind]}
        common = {it.words[1]: it.words[2] for it in kept["common"]}
        for it in kept["classcommon"]:
            names.require(it)
            self.of_class[bare(it.words[1])] += common[bare(it.words[2])]
        names.declare_permissions(self.of_class)

    def read_nodes(self, kept):
        """Finds the nodes that have the permission to set a property."""
        made_of, places, self.setting = {}, {}, {}
        for it in kept["classpermissionset"] + kept["classmapping"]:
            self.names.require(it)
            node = self.node_of(it)
            has_set, nodes = self.parts_of(it.words[-1])
            self.setting[node] = self.setting.get(node, False) or has_set
            made_of.setdefault(node, []).extend(nodes)
            places[node] = it
        ordered, circle = in_order(made_of)
        if circle:
            raise places[circle[-1]].fault(f"{called(circle[-1])} is made of itself")
        for node in ordered:
            self.setting[node] = self.setting.get(node, False) or any(self.setting[it] for it in made_of.get(node, ()))

    def node_of(self, statement):
        """The node to which a statement gives permissions."""
        name = bare(statement.words[1])
        if statement.words[0] == "classpermissionset":
            return name
        if statement.words[2] not in self.of_class[name] or not self.is_map(name):
            raise statement.fault(f"{statement.words[2]} is no permission of a class map {name}")
        return name, statement.words[2]

    def is_map(self, name):
        return self.names.kind("class", name) == "classmap"

    def bears(self, part):
        """Whether permissions may have the one to set a property: what is of another class isn't looked into."""
        return isinstance(part, str) or bare(part[0]) == CLASS or self.is_map(bare(part[0]))

    def parts_of(self, part):
        """Whether permissions have the one to set a property, and the nodes among them."""
        if isinstance(part, str):
            return False, [bare(part)]
        name = bare(part[0])
        bits = {it: 1 << number for number, it in enumerate(self.of_class[name])}
        chosen = value_of(part[1], bits.__getitem__, (1 << len(bits)) - 1)
        nodes = [(name, it) for it, bit in bits.items() if chosen & bit] if self.is_map(name) else []
        return name == CLASS and chosen & bits.get(SET, 0) != 0, nodes

    def allows_set(self, rule):
        """Whether a rule is for the permission to set a property."""
        has_set, nodes = self.parts_of(rule.words[3])
        for it in nodes:
            if it not in self.setting:
                raise rule.fault(f"{called(it)} is given no permission")
        return has_set or any(self.setting[it] for it in nodes)


def called(node):
    return node if isinstance(node, str) else " ".join(node)
