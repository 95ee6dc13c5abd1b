"""The differences as lines."""
from boot_diff.difference import Names

MOST_LINES = 5
# What is said not to have changed, by the group.
ALIKE = {"service": "service", "wait": "wait", "failure": "failure", "refusal": "refused set", "property": "property"}


def lines_of(old, new, groups, most=MOST_LINES):
    """The differences, a line each, and what is alike; of a group the first ones, and how many more there are."""
    names = Names(old, new)
    lines = [line for group in groups.values() for line in group_lines(names, group, most)]
    alike = [f"no {name}" for group, name in ALIKE.items() if is_alike(groups, group)]
    if lines and alike:
        said = f"{', '.join(alike[:-1])} and {alike[-1]} changed" if len(alike) > 1 else f"{alike[0]} changed"
        lines = [f"{lines[0]}; {said}"] if len(lines) == 1 else [*lines, f"= {said}"]
    return lines


def group_lines(names, group, most):
    shown = group if len(group) <= most + 1 else group[:most]
    lines = [names.line(it) for it in shown]
    rest = group[len(shown) :]
    if rest:
        signs = ", ".join(f"{count} {sign}" for sign in "!~+-" if (count := sum(it.sign == sign for it in rest)))
        lines.append(f"  and {len(rest)} more of this kind ({signs})")
    return lines


def is_alike(groups, group):
    """Whether nothing of this kind differs: not by itself, and not as what followed from a command."""
    if group == "wait" and any(it.kind == "wait" for it in groups["stop"]):
        return False
    return not groups[group] and not any(group in it.noted for it in groups["command"])
