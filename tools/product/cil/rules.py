"""What a policy's files say together: who may set what, which domains are permissive, and which types have aliases."""
from collections import defaultdict
from itertools import chain
from typing import NamedTuple

from product.cil.forms import READ, SPACES, judge
from product.cil.names import Names, drop_blocks
from product.cil.permissions import CLASS, Permissions
from product.cil.statements import BETWEEN, OTHER_RULES, Source
from product.cil.types import Types
from product.texts import UNREADABLE, Stop

RULES = ("allow", "auditallow", "dontaudit", "neverallow")


class Policy(NamedTuple):
    files: int
    pairs: list
    aliases: dict
    permissive: list  # of domains, each with its place


def read_statements(texts):
    """The statements that bear on the answer, by their keywords; those in each optional block; and where all names are declared."""
    kept, blocks, names = defaultdict(list), defaultdict(list), Names()
    passed = BETWEEN if any("classmap" in it for it in texts.values()) else OTHER_RULES
    for path, text in texts.items():
        for it in Source(path, text).statements(passed):
            judge(it)
            keyword = it.words[0]
            if keyword in SPACES:
                names.declare(it)
            if keyword in READ:
                kept[keyword].append(it)
            if it.block:
                blocks[it.block].append(it)
    return kept, blocks, names


def read_policy(texts):
    """The policy of these files, which are texts by their paths."""
    kept, blocks, names = read_statements(texts)
    if names.kind("class", CLASS) != "class":
        raise Stop(UNREADABLE, f"{next(iter(texts))}:1: class {CLASS} is declared nowhere")
    permissions = Permissions(names, kept)
    drop_blocks(blocks, names)
    live = {keyword: [it for it in statements if it.is_live()] for keyword, statements in kept.items()}
    kept.clear()
    kept.update(live)
    types = Types(names, kept["typealiasactual"], kept["typeattributeset"])
    permissions.read_nodes(kept)
    pairs = pairs_of(kept, names, types, permissions)
    return Policy(len(texts), pairs, types.aliases, permissive_of(kept["typepermissive"], names, types))


def pairs_of(kept, names, types, permissions):
    """The domains, each with a type whose properties it may set, in their order."""
    allowed = defaultdict(int)
    for it in chain.from_iterable(kept[keyword] for keyword in RULES):
        if not permissions.bears(it.words[3]):
            continue
        names.require(it)
        if it.words[0] == "allow" and permissions.allows_set(it):
            add_rule(allowed, it, types)
    return [(domain, label) for domain in sorted(allowed) for label in types.members(allowed[domain])]


def add_rule(allowed, rule, types):
    source, target = rule.words[1:3]
    whole = None if target == "self" else types.set_of(target)
    for domain in types.members(types.set_of(source)):
        allowed[domain] |= types.sets[domain] if whole is None else whole


def permissive_of(statements, names, types):
    """The permissive domains with the places that say so."""
    found = {}
    for it in statements:
        names.require(it)
        if not types.is_single(it.words[1]):
            raise it.fault(f"{it.words[1]} is an attribute, and no domain")
        found.setdefault(types.type_of(it.words[1]), it.place())
    return sorted(found.items())
