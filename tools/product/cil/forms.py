"""The forms of statements: what their parts are, and which names they have."""
from product.cil.sets import OPERANDS, fault_in, names_in
from product.cil.statements import NAME
from product.texts import counted

# What bears on who may set a property; the parts of each are judged wherever it stands.
READ = {
    "type": ("new",),
    "typealias": ("new",),
    "typealiasactual": ("type", "type"),
    "typeattribute": ("new",),
    "typeattributeset": ("type", "types"),
    "typepermissive": ("type",),
    "class": ("new", "list"),
    "common": ("new", "list"),
    "classcommon": ("class", "common"),
    "classmap": ("new", "list"),
    "classmapping": ("class", "word", "permissions"),
    "classpermission": ("new",),
    "classpermissionset": ("classpermission", "permissions"),
    **dict.fromkeys(("allow", "auditallow", "dontaudit", "neverallow"), ("type", "target", "permissions")),
}
# (in no optional block, so that each class has its permissions before it is known which blocks stay)
CLASSES = {"class", "common", "classcommon", "classmap"}
# What else may stand in an optional block, since its names say whether the block stays.
NAMING = {
    "role": ("new",),
    "roleattribute": ("new",),
    "roletype": ("role", "type"),
    "roleattributeset": ("role", "roles"),
    "roleallow": ("role", "role"),
    "roletransition": ("role", "type", "class", "role"),
    "rolebounds": ("role", "role"),
    "expandtypeattribute": ("types", "any"),
    "typebounds": ("type", "type"),
    **dict.fromkeys(("typechange", "typemember"), ("type", "type", "class", "type")),
    "typetransition": ("type", "type", "class", "type"),
    **dict.fromkeys(("allowx", "auditallowx", "dontauditx", "neverallowx"), ("type", "target", "operations")),
    "rangetransition": ("type", "type", "class", "levels"),
    "sidcontext": ("sid", "context"),
    "fsuse": ("any", "any", "context"),
    "genfscon": ("any", "any", "context"),
    "filecon": ("any", "any", "context"),
}
# (with one part more)
LONGER = {
    "typetransition": ("type", "type", "class", "any", "type"),
    "genfscon": ("any", "any", "any", "context"),
}
# What says nothing of who may set a property, outside of optional blocks.
SILENT = set(
    "classorder sensitivity sensitivityalias sensitivityaliasactual sensitivityorder category categoryalias categoryaliasactual "
    "categoryorder categoryset sensitivitycategory level levelrange constrain mlsconstrain validatetrans mlsvalidatetrans "
    "user userrole userattribute userattributeset userlevel userrange userbounds userprefix selinuxuser selinuxuserdefault sid sidorder "
    "context ibpkeycon ibendportcon netifcon nodecon portcon ipaddr pirqcon iomemcon ioportcon pcidevicecon devicetreecon defaultuser "
    "defaultrole defaulttype defaultrange policycap handleunknown mls permissionx boolean tunable typeneveraudit".split()
)
# Declarations, by what they declare. A name of the first three has one kind.
SPACES = {
    **dict.fromkeys(("type", "typealias", "typeattribute"), "type"),
    **dict.fromkeys(("class", "classmap"), "class"),
    "classpermission": "classpermission",
    "common": "common",
    **dict.fromkeys(("role", "roleattribute"), "role"),
    **dict.fromkeys(("user", "userattribute"), "user"),
    **dict.fromkeys(("sensitivity", "sensitivityalias", "category", "categoryalias", "categoryset", "level", "levelrange"), "level"),
    "sid": "sid",
    "context": "context",
    "permissionx": "permissionx",
}
RESERVED = {"self", "all", "and", "or", "not", "xor"}


def bare(name):
    """A name without the dot by which a file names what stands in no block."""
    return name[1:] if name.startswith(".") else name


def judge(statement):
    """Stops at a statement that isn't supported where it stands, or has another form."""
    words = statement.words
    keyword = words[0] if words and isinstance(words[0], str) else None
    if keyword is None:
        raise statement.fault("a statement begins with a word")
    if statement.block and (keyword in CLASSES or keyword in SILENT):
        raise statement.fault(f"{keyword} isn't supported in an optional block")
    if keyword in READ or statement.block and keyword in NAMING:
        why = form_fault(words)
        if why:
            raise statement.fault(f"{keyword}: {why}")
    elif keyword == "optional":
        raise statement.fault("optional: the name of the block is expected")
    elif keyword not in SILENT and keyword not in NAMING:
        raise statement.fault(f"{shown(keyword)} isn't supported")
    elif keyword in SPACES and not all_words(words[1:2] or [[]]):
        raise statement.fault(f"{keyword}: a name is expected")


def form_of(words):
    """The kinds of a statement's parts."""
    longer = LONGER.get(words[0])
    if longer and len(words) - 1 == len(longer):
        return longer
    return READ.get(words[0]) or NAMING[words[0]]


def form_fault(words):
    form = form_of(words)
    if len(words) - 1 != len(form):
        return f"{counted(len(form), 'part is', 'parts are')} expected, {len(words) - 1} given"
    faults = (part_fault(kind, part) for kind, part in zip(form, words[1:]))
    return next((why for why in faults if why), None)


def part_fault(kind, part):
    """Why a part isn't of its kind, if it isn't."""
    is_word = isinstance(part, str)
    if kind == "new":
        return None if is_word and NAME.fullmatch(part) and part not in RESERVED else f"{shown(part)} is no name"
    if kind == "list":
        return None if not is_word and all_words(part) else f"a list of words is expected, {shown(part)} is given"
    if kind in ("types", "roles"):
        return fault_in(part)
    if kind == "permissions" and not is_word:
        is_pair = len(part) == 2 and isinstance(part[0], str) and isinstance(part[1], list)
        return fault_in(part[1]) if is_pair else f"a class and a list of permissions are expected, {shown(part)} is given"
    if kind == "context" and not is_word:
        return None if len(part) == 4 and all_words(part[:3]) else f"a context is expected, {shown(part)} is given"
    if kind == "operations" and not is_word:
        return None if len(part) == 3 and all_words(part[:2]) else f"a kind, a class and a list are expected, {shown(part)} is given"
    return None if is_word or kind in ("any", "levels") else f"a word is expected, {shown(part)} is given"


def all_words(parts):
    return all(isinstance(it, str) for it in parts)


def shown(part):
    """A part as it is written, but for its end where it is long."""
    text = part if isinstance(part, str) else "(" + " ".join(map(shown, part[:4])) + (" .." if len(part) > 4 else "") + ")"
    return text if len(text) <= 60 else f"{text[:60]}.."


def needs(statement):
    """The names that a statement uses, each with its space."""
    words = statement.words
    for kind, part in zip(form_of(words), words[1:]):
        yield from part_needs(kind, part)


def part_needs(kind, part):
    if kind in ("any", "new", "list", "word") or kind == "target" and part == "self":
        return
    if kind in ("types", "roles"):
        yield from ((kind[:-1], bare(it)) for it in names_in(part))
    elif kind == "permissions":
        yield from permission_needs(part)
    elif kind == "context":
        yield from context_needs(part)
    elif kind == "levels":
        yield from level_needs(part)
    elif kind == "operations":
        yield ("permissionx", bare(part)) if isinstance(part, str) else ("class", bare(part[1]))
    else:
        yield "type" if kind == "target" else kind, bare(part)


def permission_needs(part):
    if isinstance(part, str):
        yield "classpermission", bare(part)
        return
    name = bare(part[0])
    yield "class", name
    yield from (("permission", f"{name} {it}") for it in names_in(part[1]))


def context_needs(part):
    if isinstance(part, str):
        yield "context", bare(part)
        return
    yield from zip(("user", "role", "type"), map(bare, part[:3]))
    yield from level_needs(part[3])


def level_needs(part):
    yield from (("level", bare(it)) for it in words_in(part) if it not in OPERANDS and it != "range")


def words_in(part):
    if isinstance(part, str):
        yield part
        return
    for it in part:
        yield from words_in(it)
