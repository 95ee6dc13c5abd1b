"""Expressions of names: their form, their names, and their values as whole numbers with one bit for each member."""
from graphlib import CycleError, TopologicalSorter

from product.texts import counted

# The operators, with their numbers of operands.
OPERANDS = {"and": 2, "or": 2, "xor": 2, "not": 1, "all": 0}
# Those of other expressions, which a set can't have.
FOREIGN = {"eq", "neq", "range"}


def operator_of(expression):
    """The operator of a list; None where it is a list of members."""
    first = expression[0]
    return first if isinstance(first, str) and (first in OPERANDS or first in FOREIGN) else None


def fault_in(expression):
    """Why an expression has no value, if it has none."""
    if isinstance(expression, str):
        return f"{expression} stands for no name there" if expression in OPERANDS or expression in FOREIGN else None
    if not expression:
        return "() is no set"
    operator = operator_of(expression)
    if operator in FOREIGN:
        return f"{operator} isn't for a set of names"
    operands = expression[1:] if operator else expression
    if operator and len(operands) != OPERANDS[operator]:
        return f"{operator} has {counted(len(operands), 'operand', 'operands')}, not {OPERANDS[operator]}"
    return next((why for why in map(fault_in, operands) if why), None)


def names_in(expression):
    """The names in an expression."""
    if isinstance(expression, str):
        yield expression
        return
    for it in expression:
        if isinstance(it, list):
            yield from names_in(it)
        elif it not in OPERANDS:
            yield it


def value_of(expression, value_of_name, every):
    """The members of an expression, if `every` is the set of all."""
    if isinstance(expression, str):
        return value_of_name(expression)
    operator = operator_of(expression)
    values = [value_of(it, value_of_name, every) for it in (expression[1:] if operator else expression)]
    if operator == "all":
        return every
    if operator == "not":
        return every & ~values[0]
    if operator == "and":
        return values[0] & values[1]
    if operator == "xor":
        return values[0] ^ values[1]
    return union(values)


def union(values):
    made = 0
    for it in values:
        made |= it
    return made


def in_order(made_of):
    """The names, each behind those of which it is made, and no way round; else no names, and a way round."""
    try:
        return list(TopologicalSorter(made_of).static_order()), None
    except CycleError as why:
        return None, why.args[1]
