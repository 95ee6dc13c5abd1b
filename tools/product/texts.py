"""What all parts of take-product share: statuses, the report, texts, names, and the expansion of properties."""
import os
import re

USAGE, NO_OUT, NO_PRODUCT, UNREADABLE, ROOT_THERE, UNWRITABLE, BAD_GIVEN, TRIPS = range(1, 9)

MOST_NAME_BYTES = 255
MOST_VALUE_BYTES = 91
MOST_READ_ONLY_VALUE_BYTES = 8191


class Stop(Exception):
    """Why ROOT isn't made: the status, and the line that says it."""

    def __init__(self, status, line):
        super().__init__(line)
        self.status = status


class Report:
    """What was taken, left and found lacking, a line each; and those of these lines over which a device would trip, since its init refuses
    what they name, or fails at it."""

    def __init__(self):
        self.lines, self.trips = [], []

    def took(self, what):
        self.lines.append(f"took: {what}")

    def left(self, what, trips=False):
        self.add(f"left: {what}", trips)

    def lacks(self, what, trips=False):
        self.add(f"lacks: {what}", trips)

    def add(self, line, trips):
        self.lines.append(line)
        if trips:
            self.trips.append(line)

    def assumed(self, what):
        self.lines.append(f"assumed: {what}")


def text_of(content):
    """A file's bytes as text, which encodes to the same bytes."""
    return content.decode("utf-8", "surrogateescape")


def bytes_of(text):
    return text.encode("utf-8", "surrogateescape")


def printable(text):
    """The text in one line, with control characters, and bytes that aren't UTF-8, written as \\x0a."""
    shown = bytes_of(text).decode("utf-8", "backslashreplace")
    return "".join(it if it.isprintable() else it.encode("unicode_escape").decode() for it in shown)


def quoted(text):
    """The q form of a text."""
    spelled = [chr(it) if 0x21 <= it <= 0x7E and it != 0x25 else f"%{it:02X}" for it in bytes_of(text)]
    return "".join(spelled) or "%"


def is_legal_name(name):
    if not 1 <= len(name) <= MOST_NAME_BYTES or name[0] == "." or name[-1] == "." or ".." in name:
        return False
    return re.fullmatch(r"[A-Za-z0-9.\-_@:]+", name) is not None


def most_value_bytes(name):
    """The most bytes of a value under the name."""
    return MOST_READ_ONLY_VALUE_BYTES if name.startswith("ro.") else MOST_VALUE_BYTES


def line_fault(value):
    """Why no line of a build file can have the value, if none can. Blanks at its ends would be dropped."""
    if "\n" in value or "\r" in value:
        return "has a line feed or a carriage return"
    return None if value == value.strip(" \t") else "has blanks at its ends"


def is_utf8(text):
    try:
        text.encode("utf-8")
        return True
    except UnicodeEncodeError:
        return False


def counted(number, one, many):
    return f"{number} {one if number == 1 else many}"


def expand(text, held):
    """The text with its properties put in, and the failure: None, the name that has no value, or the empty text for a bad form."""
    made, rest = "", text
    while "$" in rest:
        front, _, rest = rest.partition("$")
        made += front
        if rest.startswith("$"):
            made, rest = made + "$", rest[1:]
            continue
        inside, brace, rest = rest[1:].partition("}") if rest.startswith("{") else ("", "", "")
        name, has_default, default = inside.partition(":-")
        if not brace or not is_legal_name(name):
            return None, ""
        value = held.get(name) or (default if has_default else "")
        if not value and not has_default:
            return None, name
        made += value
    return made + rest, None


def write_out(text):
    """Writes to standard output, and says where that can't be."""
    rest = text.encode()
    try:
        while rest:
            rest = rest[os.write(1, rest) :]
    except OSError as why:
        raise Stop(UNWRITABLE, f"standard output: {why.strerror}") from None


def tell(line):
    """Writes a line to standard error, where somebody listens there."""
    try:
        os.write(2, f"{printable(line)}\n".encode())
    except OSError:
        pass


def mask():
    """The bits of a mode that this process takes away."""
    bits = os.umask(0)
    os.umask(bits)
    return bits
