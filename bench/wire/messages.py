#!/usr/bin/env python3
"""Makes what the benchmark reads: messages.py FOLDER makes FOLDER/tree, whose machine lets `shell` set each property, and beside it streams of
messages of form two. The same is made each time."""
import os
import random
import struct
import sys

SECOND = 0x0002_0001
MOST_BYTES = 16_777_216

# so many messages, and names of so many bytes, with values of so many
MESSAGES = 400_000
NAMES = 1_000
NAME_BYTES = (20, 26)
VALUE_BYTES = (3, 9)
AREAS = ("vendor.audio", "sys.camera", "debug.hwui", "dalvik.vm", "bluetooth")
LETTERS = "abcdefghijklmnopqrstuvwxyz_"
DIGITS = "0123456789"


def spelled(name, value):
    return struct.pack("<II", SECOND, len(name)) + name + struct.pack("<I", len(value)) + value


def text(own, letters, count):
    return "".join(own.choices(letters, k=count))


def name_of(own, number):
    front = f"{own.choice(AREAS)}.{number:03}."
    return (front + text(own, LETTERS, own.randint(*NAME_BYTES) - len(front))).encode()


def many_sets():
    """Sets of 1,000 names in no order, to ever other values."""
    own = random.Random(57)
    names = [name_of(own, number) for number in range(NAMES)]
    for _ in range(MESSAGES):
        yield spelled(own.choice(names), text(own, DIGITS, own.randint(*VALUE_BYTES)).encode())


def shortest():
    """As many of the shortest messages that are accepted as fit into a stream."""
    message = spelled(b"a", b"")
    return (message for _ in range(MOST_BYTES // len(message)))


STREAMS = {"sets": many_sets, "shortest": shortest, "empty": lambda: ()}


def make(folder):
    """Gives how many messages each stream has."""
    tree = os.path.join(folder, "tree")
    os.makedirs(os.path.join(tree, "system/etc/init/hw"))
    with open(os.path.join(tree, "system/etc/init/hw/init.rc"), "w") as file:
        file.write("on boot\n")
    with open(os.path.join(tree, "property_allow"), "w") as file:
        file.write("allow shell default_prop\n")
    counts = {}
    for name, messages in STREAMS.items():
        stream = list(messages())
        counts[name] = len(stream)
        with open(os.path.join(folder, name), "wb") as file:
            file.write(b"".join(stream))
    return counts


def main():
    if len(sys.argv) != 2:
        sys.exit("messages.py FOLDER")
    for name, count in make(sys.argv[1]).items():
        print(f"{name}: {count:,} messages, {os.path.getsize(os.path.join(sys.argv[1], name)):,} bytes")


if __name__ == "__main__":
    main()
