"""Planted faults, each of which a compiler refuses, and spoiled bytes."""
from policies import MAPPING, PLATFORM, VENDOR

LINES = {
    "a name of a set": "(typeattributeset {attribute} (init nothing))",
    "a name of a set, deep": "(typeattributeset {attribute} (and (init) (not (or (file0) (nothing)))))",
    "the attribute of a set": "(typeattributeset nothing (init))",
    "a domain": "(allow nothing file0 (property_service (set)))",
    "a label": "(allow init nothing (property_service (set)))",
    "a permission": "(allow init file0 (property_service (set nothing)))",
    "a named permission": "(allow init file0 nothing)",
    "a type that is an attribute": "(type {attribute})",
    "an attribute that is a type": "(typeattribute file0)",
    "an alias that is a type": "(typealias init)",
    "a set of a type": "(typeattributeset init (file0))",
    "an attribute made of itself": "(typeattributeset {attribute} (init (not ({attribute}))))",
    "two made of each other": "(typeattribute x1)(typeattribute x2)(typeattributeset x1 (x2))(typeattributeset x2 (and (all) x1))",
    "an alias of itself": "(typealias x1)(typealias x2)(typealiasactual x1 x2)(typealiasactual x2 x1)",
    "an alias of two": "(typealias x1)(typealiasactual x1 init)(typealiasactual x1 file0)",
    "an alias of nothing": "(typealias x1)(allow x1 file0 (property_service (set)))",
    "an alias of an attribute": "(typealias x1)(typealiasactual x1 {attribute})",
    "an alias twice": "(typealias x1)(typealias x1)(typealiasactual x1 init)",
    "three operands": "(typeattributeset {attribute} (and (init) (file0) (init)))",
    "an operator among names": "(typeattributeset {attribute} (init not file0))",
    "an empty set": "(typeattributeset {attribute} ())",
    "a rule of two parts": "(allow init (property_service (set)))",
    "a keyword": "(alow init file0 (property_service (set)))",
    "a byte": "(type x\x011)",
    "a quote": '(genfscon proc "/x (u object_r file0 ((s0) (s0))))',
    "one ) too many": "(type x1))",
    "one ) too few": "(allow init file0 (property_service (set))",
    "a name of a digit": "(type 1x)",
    "a permissive attribute": "(typepermissive {attribute})",
    "a word alone": "init",
}
INSERTED = ["(", ")", ";", '"', "\0", "\xff\xfe", "\n", " ", "and", "not", "optional", "(()", "self", "." * 3, "(" * 300]


def planted(policy, texts, number):
    """The texts with a fault, and its name."""
    names = [*LINES, "cut off", "a needed declaration"]
    name = names[number % len(names)]
    path = policy.chosen(list(texts))
    if name == "cut off":
        return {**texts, VENDOR: texts[VENDOR] + "\n(allow init file0 (property_"}, name
    if name == "a needed declaration":
        return {**texts, MAPPING: texts[MAPPING] + f"(typeattributeset {policy.versioned[0]}_x (init))\n"}, name
    line = LINES[name].format(attribute=policy.attributes[0])
    whole = texts[path]
    lines = whole.split("\n") if policy.kind == "plain" and path != PLATFORM else [whole]
    lines.insert(policy.random.randrange(len(lines)) + 1 if len(lines) > 1 else 1, line)
    return {**texts, path: "\n".join(lines) + "\n"}, name


def spoiled(policy, texts):
    """The texts with one of them changed at random."""
    own, path = policy.random, policy.chosen(list(texts))
    text = texts[path]
    for _ in range(own.randrange(1, 4)):
        first, second = sorted(own.randrange(len(text) + 1) for _ in range(2))
        part = text[first : min(second, first + own.choice([1, 3, 40]))]
        change = own.randrange(8)
        inserted = own.choice(INSERTED)
        if change < 3:
            text = text[:first] + inserted + text[first:]
        elif change < 5:
            text = text[:first] + text[first + len(part) :]
        elif change == 5:
            text = text[:second] + part + text[second:]
        elif change == 6:
            text = text[:first]
        else:
            text = text[:first] + "".join(chr(own.randrange(256)) for _ in range(own.randrange(40))) + text[second:]
    if own.random() < 0.02:
        text = text.encode("utf-16").decode("latin-1")
    return {**texts, path: text}
