"""The bytes of a crash-safe store: a gate byte at 0, seven zero bytes, and two slots. The even gate chooses slot 0, the odd one slot
1. A slot is the length of its text in eight bytes, lowest first, and the text."""
import os
import shutil

SLOT, LENGTH, FIRST = 33_554_440, 8, 8
LEAST = 16
IMAGE = "persist.img"
MOST_TEXT = SLOT - LENGTH
PIECE = 1 << 20


class BadImage(Exception):
    """Why a file is no store."""


def place_of(slot):
    return FIRST + slot * SLOT


def slot_bytes(text):
    return len(text).to_bytes(LENGTH, "little") + text


def formatted(text):
    """A new store with this text."""
    return bytes(FIRST) + slot_bytes(text)


def read_at(file, at, count):
    """So many bytes from a place on; fewer at the end."""
    parts = []
    while count:
        part = os.pread(file, min(count, PIECE), at)
        if not part:
            break
        parts.append(part)
        at, count = at + len(part), count - len(part)
    return b"".join(parts)


def chosen_of(file):
    """The chosen slot, and the length of its text."""
    front = read_at(file, 0, LEAST)
    if len(front) < LEAST:
        raise BadImage(f"it has fewer than {LEAST} bytes, so a run would make it anew of persist.txt")
    slot = front[0] % 2
    length = int.from_bytes(read_at(file, place_of(slot), LENGTH).ljust(LENGTH, b"\xff"), "little")
    if length > MOST_TEXT:
        raise BadImage(f"the length in slot {slot} is {length}, and a slot holds {MOST_TEXT} bytes")
    if place_of(slot) + LENGTH + length > os.fstat(file).st_size:
        raise BadImage(f"the text in slot {slot} has {length} bytes by its length, and the file ends before")
    return slot, length


def text_of(file):
    """The text in the chosen slot."""
    slot, length = chosen_of(file)
    text = read_at(file, place_of(slot) + LENGTH, length)
    if len(text) < length:
        raise BadImage("it was cut while it was read")
    return text


def copy_file(source, target):
    """Copies a file for `shutil.copytree`; of a store it leaves the holes."""
    if os.path.basename(source) != IMAGE or not os.path.isfile(source):
        shutil.copy2(source, target)
        return
    with open(source, "rb") as old, open(target, "xb") as new:
        size = os.fstat(old.fileno()).st_size
        at = 0
        while at < size:
            try:
                at = os.lseek(old.fileno(), at, os.SEEK_DATA)
            except OSError:
                # (no data follows)
                break
            end = os.lseek(old.fileno(), at, os.SEEK_HOLE)
            os.pwrite(new.fileno(), read_at(old.fileno(), at, min(end - at, PIECE)), at)
            at = min(end, at + PIECE)
        os.ftruncate(new.fileno(), size)
    shutil.copymode(source, target)
