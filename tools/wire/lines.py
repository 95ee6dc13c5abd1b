"""Lines `set NAME VALUE`, of which messages are made."""
from boot.forms import Q_FORM
from boot_trace.words import text
from product.texts import bytes_of, text_of

from wire.format import DoesNotFit, message_of


MOST_SHOWN = 62


class BadLine(Exception):
    """What is wrong with a line."""


def message_in(line, form):
    """The message that a line says, or None if it says nothing."""
    words = text_of(line).replace("\t", " ").split(" ")
    words = [it for it in words if it]
    if not words or words[0].startswith("#"):
        return None
    if words[0] != "set":
        raise BadLine(f'set is expected, not "{front(words[0])}"')
    if len(words) != 3:
        given = {1: "none is given", 2: "1 is given"}.get(len(words), f"{len(words) - 1} are given")
        raise BadLine(f'"set" takes 2 words, and {given}')
    name, value = (text_in(it) for it in words[1:])
    try:
        return message_of(form, name, value)
    except DoesNotFit as why:
        raise BadLine(str(why)) from None


def text_in(word):
    """The bytes of a text in q form."""
    if not Q_FORM.fullmatch(word):
        raise BadLine(f'a text in q form is expected, not "{front(word)}"')
    return bytes_of(text(word))


def front(word):
    """A word as it is printed: of a long one the front."""
    return word if len(word) <= MOST_SHOWN else f"{word[:MOST_SHOWN]}.."
