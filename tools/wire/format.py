"""How messages are spelled, where one ends, and what a reply says. A word has 32 bits, lowest byte first."""
import struct

FORM_ONE, FORM_TWO = 1, 0x00020001
WORD_BYTES = 4
NAME_FIELD, VALUE_FIELD = 32, 92
FORM_ONE_BYTES = WORD_BYTES + NAME_FIELD + VALUE_FIELD
MOST_NAME, MOST_VALUE = 1024, 8192
MOST_STREAM = 16_777_216
BAD_COMMAND, BAD_LENGTH = 0x1B, 0x08
REPLIES = {
    0: "accepted",
    0x0B: "ReadOnly",
    0x10: "InvalidName",
    0x14: "InvalidType, ValueTooLong or NotUtf8",
    0x18: "Denied",
    0x20: "UnknownControl or NoSuchService",
    0x24: "Down, AreaFull or NumberSpent",
    BAD_COMMAND: "bad command",
    BAD_LENGTH: "bad length",
}


class DoesNotFit(Exception):
    """Why a text doesn't fit the form of a message."""


class BadFrame(Exception):
    """No message begins like this. `reply` is the word that a client gets."""

    def __init__(self, reply):
        super().__init__(REPLIES[reply])
        self.reply = reply


def word_bytes(number):
    return struct.pack("<I", number)


def word_at(stream, at):
    return struct.unpack_from("<I", stream, at)[0]


# ---- messages


def message_of(form, name, value):
    """The bytes of a message. Those of form one are filled up with zeros."""
    if form == FORM_ONE:
        return word_bytes(FORM_ONE) + field_of("name", name, NAME_FIELD) + field_of("value", value, VALUE_FIELD)
    return word_bytes(FORM_TWO) + after_length("name", name, MOST_NAME) + after_length("value", value, MOST_VALUE)


def field_of(what, text, size):
    if 0 in text:
        raise DoesNotFit(f"the {what} has a zero byte, which ends a text of form one")
    if len(text) >= size:
        raise DoesNotFit(f"a {what} of form one has at most {size - 1} bytes, and {len(text)} are given")
    return text.ljust(size, b"\0")


def after_length(what, text, most):
    if len(text) > most:
        raise DoesNotFit(f"a {what} of form two has at most {most} bytes, and {len(text)} are given")
    return word_bytes(len(text)) + text


def has_reply(message):
    """Whether a whole message gets a reply: those of form two do."""
    return word_at(message, 0) == FORM_TWO


# ---- where a message ends


def message_end(stream, start):
    """Where the message that begins at `start` ends, or None if it isn't whole yet. Each word is judged as soon as it is there."""
    if len(stream) < start + WORD_BYTES:
        return None
    command = word_at(stream, start)
    if command == FORM_ONE:
        end = start + FORM_ONE_BYTES
    elif command == FORM_TWO:
        end = text_end(stream, text_end(stream, start + WORD_BYTES, MOST_NAME), MOST_VALUE)
    else:
        raise BadFrame(BAD_COMMAND)
    return end if end is not None and end <= len(stream) else None


def text_end(stream, start, most):
    """Where the text ends whose length is at `start`, or None if the length isn't there yet."""
    if start is None or len(stream) < start + WORD_BYTES:
        return None
    length = word_at(stream, start)
    if length > most:
        raise BadFrame(BAD_LENGTH)
    return start + WORD_BYTES + length


# ---- replies


def reply_text(word):
    """A reply as `tools/messages --replies` writes it."""
    if word not in REPLIES:
        return f"{word:08x} unknown"
    return f"{word:02x} {REPLIES[word]}" if word else f"0 {REPLIES[word]}"
