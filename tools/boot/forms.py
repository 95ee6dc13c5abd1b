"""The forms of a boot test's words: texts in q form, numbers, times, names; and the acts of a script."""
import re

from product.texts import is_legal_name

Q_FORM = re.compile(r"%|(?:[!-$&-~]|%(?:[01][0-9A-F]|2[05]|7F|[89A-F][0-9A-F]))+")
NUMBER = re.compile(r"0|[1-9][0-9]*")
TIME = re.compile(r"(0|[1-9][0-9]*)(ms|s|min)")
UNITS = {"ms": 1, "s": 1_000, "min": 60_000}
MOST_MILLISECONDS = 9_007_199_254_740_992
MOST_STEPS = 1_000_000
MOST_WITHIN = 86_400_000


class Wrong(Exception):
    """What is wrong with a line."""


def want_count(words, count, usage):
    if len(words) != count:
        raise Wrong(f"{usage} is expected, not {' '.join(words) or 'nothing'}")


def q_form(word):
    if not Q_FORM.fullmatch(word):
        raise Wrong(f"a text in q form is expected, not {word}")
    return word


def number(word, least, most):
    if not NUMBER.fullmatch(word) or not least <= int(word) <= most:
        raise Wrong(f"a number from {least} to {most} without leading zeros is expected, not {word}")
    return int(word)


def milliseconds(word):
    found = TIME.fullmatch(word)
    if not found:
        raise Wrong(f"a time such as 60s, 500ms or 2min is expected, not {word}")
    if len(found[1]) > 9 or int(found[1]) * UNITS[found[2]] > MOST_WITHIN:
        raise Wrong(f"{word} is more than a day")
    return int(found[1]) * UNITS[found[2]]


def legal_name(word):
    if not is_legal_name(word):
        raise Wrong(f"{word} is no legal property name")
    return word


def check_step(words):
    want_count(words, 2, "step N")
    number(words[1], 1, MOST_STEPS)


def check_tick(words):
    want_count(words, 2, "tick MS")
    number(words[1], 0, MOST_MILLISECONDS)


def check_exit(words):
    want_count(words, 3, "exit NAME STATUS")
    q_form(words[1])
    number(words[2], 0, 255)


def check_file(words):
    want_count(words, 3, "file PATH CONTENT")
    q_form(words[1])
    q_form(words[2])


def check_area(words):
    want_count(words, 2, "area N")
    number(words[1], 64, 1_048_576)


def check_plan(words):
    want_count(words, 4, "plan PATH MS STATUS")
    q_form(words[1])
    number(words[2], 0, MOST_MILLISECONDS)
    number(words[3], 0, 255)


def check_ask(words):
    """What a client asks: the words after its name."""
    asked = words[1] if len(words) > 1 else ""
    if asked == "set":
        want_count(words, 4, "@NAME set NAME VALUE")
        q_form(words[2])
        q_form(words[3])
    elif asked == "read":
        want_count(words, 3, "@NAME read NAME")
        legal_name(words[2])
    elif asked in ("sync", "catch"):
        want_count(words, 2, f"@NAME {asked}")
    else:
        raise Wrong("set, read, sync or catch is expected after the client" + (f", not {asked}" if asked else ""))


ACTS = {"step": check_step, "tick": check_tick, "exit": check_exit, "file": check_file}
DECLARATIONS = {"area": check_area, "plan": check_plan}
