"""A copy of ROOT in which `shell` may set what another domain may set, since `initsim wire` judges its one client as `shell`."""
import os
import re

from boot.tree import MOST_BYTES, Tree
from product.texts import Stop

UNREADABLE = 2
CLIENT = b"shell"
ALLOW_FILE = "/property_allow"
# (blanks are those of docs/FORMATS.md)
WORD = re.compile(rb"[^ \t\r]+")


def copy_judged_as(domain, root, room):
    """Makes the copy in `room`. Returns its place, and the number of labels that the domain may set."""
    tree = Tree(root, room)
    place = tree.mirror.take(ALLOW_FILE)
    if place is None or not os.path.isfile(place):
        return tree.copy, 0
    try:
        with open(place, "rb") as file:
            text = file.read()
        # (a text that is too large stays so, and is refused)
        text, labels = given_to_client(domain, text) if len(text) <= MOST_BYTES else (text, set())
        with open(place, "wb") as file:
            file.write(text)
    except OSError as why:
        raise Stop(UNREADABLE, f"{place}: {why.strerror}") from None
    return tree.copy, len(labels)


def given_to_client(domain, text):
    """The allow text in which the client has the domain's pairs, and no domain has another. A line that is no pair stays, and so does the
    number of each line. The second part is the domain's labels."""
    lines, labels = [], set()
    for line in text.split(b"\n"):
        words = WORD.findall(line)
        if len(words) == 3 and words[0] == b"allow":
            is_new = words[1] == domain and words[2] not in labels
            line = b"allow %s %s" % (CLIENT, words[2]) if is_new else b""
            labels |= {words[2]} if is_new else set()
        lines.append(line)
    return b"\n".join(lines), labels
