"""Messages and replies as docs/WIRE.md spells them, and the tree of the rows. The rows use this, and not the
tools' own code."""
import os


def word(number):
    return number.to_bytes(4, "little")


def words(*numbers):
    return b"".join(map(word, numbers))


def one(name, value):
    return b"\1\0\0\0" + name.ljust(32, b"\0") + value.ljust(92, b"\0")


def two(name, value=b"1"):
    return b"\1\0\2\0" + word(len(name)) + name + word(len(value)) + value


# What a reply says, by its name in this check.
ACCEPTED, READ_ONLY, BAD_NAME, BAD_VALUE, DENIED, NO_CONTROL, FULL, BAD_COMMAND, BAD_LENGTH = 0, 0x0B, 0x10, 0x14, 0x18, 0x20, 0x24, 0x1B, 0x08

# The policy of the rows: shell may set what is of default_prop, adbd what is of other_prop.
TREE = {
    "system/etc/init/hw/init.rc": "",
    "property_contexts": "* default_prop\ndenied. other_prop\nint. default_prop prefix int\n",
    "property_allow": "# who may set what\nallow shell default_prop\nallow adbd other_prop\n",
}


def put_tree(root, **changed):
    """Makes a tree with the files of the rows; a file that is None isn't there."""
    for path, content in {**TREE, **changed}.items():
        place = os.path.join(root, path)
        os.makedirs(os.path.dirname(place), exist_ok=True)
        if content is not None:
            with open(place, "w") as file:
                file.write(content)
    return root
