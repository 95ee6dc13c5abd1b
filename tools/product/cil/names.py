"""The names that a policy declares, and the optional blocks that stay."""
from collections import defaultdict

from product.cil.forms import SPACES, needs

# What several files may declare.
REPEATABLE = {"type", "typeattribute"}
# The spaces in which a name has one kind.
STRICT = {"type", "class", "classpermission", "common"}


class Names:
    """Where each name is declared, and the keyword that declares it, by its space and itself."""

    def __init__(self):
        self.places, self.kinds = {}, {}

    def declare(self, statement):
        kind, name = statement.words[:2]
        key = SPACES[kind], name
        before = self.places.setdefault(key, [])
        before.append(statement)
        other = self.kinds.setdefault(key, kind)
        if len(before) > 1 and key[0] in STRICT and (kind != other or kind not in REPEATABLE):
            raise statement.fault(f"{kind} {name} is declared already, as a {other}, at {before[0].place()}")

    def declare_permissions(self, of_class):
        self.kinds.update((("permission", f"{name} {it}"), "permission") for name, permissions in of_class.items() for it in permissions)

    def forget_dropped(self):
        """Forgets what only optional blocks that are dropped declare."""
        for key, places in self.places.items():
            if not any(it.is_live() for it in places):
                del self.kinds[key]

    def kind(self, space, name):
        """The keyword that declares a name; None where none does."""
        return self.kinds.get((space, name))

    def live(self, kind):
        """The names that the keyword declares."""
        return [name for (_, name), it in self.kinds.items() if it == kind]

    def require(self, statement):
        """Stops where a statement uses a name that nothing declares."""
        for space, name in needs(statement):
            if (space, name) not in self.kinds and space == "permission":
                raise statement.fault("{} has no permission {}".format(*name.split(" ", 1)))
            if (space, name) not in self.kinds:
                raise statement.fault(f"{name} is declared nowhere")


def drop_blocks(blocks, names):
    """Drops each optional block in which a name is declared nowhere, and those that need what such a block declares."""
    lives = {key: len(names.places.get(key, ())) for key in names.kinds}
    users, declared, todo = defaultdict(list), defaultdict(list), []
    for key, places in names.places.items():
        for it in places:
            declared[it.block].append(key)
    for block, statements in blocks.items():
        for key in {key for it in statements for key in needs(it)}:
            users[key].append(block)
            if key not in lives:
                todo.append(block)
    while todo:
        for block in todo.pop().whole():
            todo += dropped_with(block, declared, users, lives)
    names.forget_dropped()


def dropped_with(block, declared, users, lives):
    """Drops a block; those that need a name which nothing declares from now on."""
    if block.is_dropped:
        return []
    block.is_dropped = True
    lost = []
    for key in declared[block]:
        lives[key] -= 1
        if not lives[key]:
            lost += users[key]
    return lost
