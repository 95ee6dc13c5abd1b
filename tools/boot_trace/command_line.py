"""What the tools that read traces share at the command line: trouble is one line on standard error and the status 2."""
import gc
import os

from boot_trace.boot import read_boot
from boot_trace.reader import NotATrace
from product.texts import Stop, printable, tell

TROUBLE = 2


class Trouble(Exception):
    """Why a tool can't do what it was asked, in one line."""


def boot_at(path):
    """The boot whose trace is in a file."""
    try:
        return read_boot(path)
    except NotATrace as why:
        raise Trouble(f"{path}:{why.line}: {why.why}") from None
    except (OSError, ValueError) as why:
        raise Trouble(f"{path}: {reason(why)}") from None


def reason(why):
    return why.strerror if isinstance(why, OSError) and why.strerror else str(why)


def write_text(text):
    """Writes to standard output, whole or not at all as far as that can be known."""
    rest = text.encode("utf-8", "surrogateescape")
    try:
        while rest:
            rest = rest[os.write(1, rest) :]
    except OSError as why:
        raise Trouble(f"standard output: {why.strerror}") from None


def run_tool(name, main):
    """The status of a tool's `main`, which raises Trouble, or Stop for a fault of ROOT."""
    # (all of a long trace is needed to the end, and looking for what isn't takes most of the time)
    gc.disable()
    try:
        return main()
    except (Trouble, Stop) as why:
        tell(f"{name}: {printable(str(why))}")
    except KeyboardInterrupt:
        tell(f"{name}: interrupted")
    except MemoryError:
        tell(f"{name}: out of memory")
    return TROUBLE
