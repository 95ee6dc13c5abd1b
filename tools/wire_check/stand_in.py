#!/usr/bin/env python3
"""A small model of `initsim wire ROOT MESSAGES`, by which the tools are tried as long as the program has no such form: the replies over a
dictionary, the policy of ROOT, and how a stream ends. It shares no code with the tools, so that a mistake of theirs isn't its own. Of ROOT
it wants a root file and a line for `*` in the contexts, if there are any; other mistakes in ROOT it takes no notice of, and neither of
services and build files."""
import os
import re
import sys

MOST_STREAM = 16_777_216
AREA, HEAD = 65_536, 16
PIECE = 4_096
LEGAL_NAME = re.compile(rb"(?=.{1,255}$)[A-Za-z0-9\-_@:]+(\.[A-Za-z0-9\-_@:]+)*", re.DOTALL)
INTEGER = re.compile(rb"-?[0-9]{1,19}")
ACCEPTED, READ_ONLY, BAD_NAME, BAD_VALUE, DENIED, NO_CONTROL, FULL = 0, 0x0B, 0x10, 0x14, 0x18, 0x20, 0x24


class End(Exception):
    """The status, the line of it, and what is said beside it."""

    def __init__(self, status, *lines):
        super().__init__(status)
        self.status, self.lines = status, lines


# ---- the properties


def lines_of(root, name):
    try:
        with open(os.path.join(root, name), "rb") as file:
            text = file.read()
    except FileNotFoundError:
        return []
    return [it.split() for it in text.splitlines() if it.split() and not it.split()[0].startswith(b"#")]


class Properties:
    """What is set, and by whom it may be."""

    def __init__(self, root):
        contexts = lines_of(root, "property_contexts")
        if contexts and all(words[0] != b"*" for words in contexts):
            raise End(8, f"bad contexts line {len(contexts) + 1}", f"{root}/property_contexts: no line for *")
        self.exact = {words[0]: words for words in contexts if words[2:3] == [b"exact"]}
        self.prefixes = {b"" if words[0] == b"*" else words[0]: words for words in contexts if words[2:3] != [b"exact"]}
        self.prefixes.setdefault(b"", [b"*", b"default_prop"])
        self.allowed = {words[2] for words in lines_of(root, "property_allow") if words[:2] == [b"allow", b"shell"]}
        self.values, self.nodes, self.used = {}, set(), HEAD

    def context(self, name):
        if name in self.exact:
            return self.exact[name]
        return self.prefixes[max((it for it in self.prefixes if name.startswith(it)), key=len)]

    def set(self, name, value):
        """The reply to a set."""
        if not LEGAL_NAME.fullmatch(name):
            return BAD_NAME
        is_control = name.startswith(b"ctl.")
        if is_control and name not in (b"ctl.start", b"ctl.stop", b"ctl.restart"):
            return NO_CONTROL
        context = self.context(name)
        if context[1] not in self.allowed:
            return DENIED
        if is_control:
            return NO_CONTROL
        if self.is_bad(name, value, context[3:4]):
            return BAD_VALUE
        if name.startswith(b"ro.") and name in self.values:
            return READ_ONLY
        if name not in self.values and not self.has_room(name, value):
            return FULL
        self.values[name] = value
        return ACCEPTED

    def is_bad(self, name, value, kind):
        if kind == [b"int"] and value and not (INTEGER.fullmatch(value) and -(2**63) <= int(value) < 2**63):
            return True
        if len(value) > (8191 if name.startswith(b"ro.") else 91):
            return True
        try:
            value.decode("utf-8")
        except UnicodeDecodeError:
            return True
        return False

    def has_room(self, name, value):
        """Takes the words of a new name, if the area has so many."""
        parts = name.split(b".")
        new = [it for it in range(1, len(parts) + 1) if b".".join(parts[:it]) not in self.nodes]
        cell = 13 if len(value) <= 91 else 2 + -(-len(value) // 8)
        need = sum(5 + -(-len(parts[it - 1]) // 8) for it in new) + cell
        if self.used + need > AREA:
            return False
        self.used += need
        self.nodes |= {b".".join(parts[:it]) for it in new}
        return True


# ---- the stream


class Stream:
    """The bytes that are read, and how many came before them."""

    def __init__(self, path):
        try:
            self.file = os.open(path, os.O_RDONLY)
        except OSError as why:
            raise End(2, "read fault", f"{path}: {why.strerror}") from None
        self.path, self.taken, self.left = path, 0, b""

    def read(self, most):
        """Reads a piece; whether there was one."""
        try:
            piece = os.read(self.file, most)
        except OSError as why:
            raise End(2, "read fault", f"{self.path}: {why.strerror}") from None
        self.taken += len(piece)
        self.left += piece
        return bool(piece)

    def take(self, size):
        """The next bytes, for which more is read; None if they don't all come, and the limit is kept."""
        while len(self.left) < size:
            most = min(PIECE, MOST_STREAM - self.taken)
            if most == 0 and self.read(1):
                raise End(7, f"too large {MOST_STREAM + 1}", f"{self.path} has more than {MOST_STREAM} bytes")
            if most == 0 or not self.read(most):
                return None
        taken, self.left = self.left[:size], self.left[size:]
        return taken


def number(word):
    return int.from_bytes(word, "little")


def reply(word):
    try:
        os.write(1, word.to_bytes(4, "little"))
    except OSError as why:
        raise End(3, "write fault", f"standard output: {why.strerror}") from None


class Messages:
    """Takes the messages of a stream one by one."""

    def __init__(self, stream):
        self.stream, self.start = stream, 0

    def bad(self, why):
        return End(11, f"bad message at {self.start}", f"{self.stream.path}: {why}")

    def part(self, size):
        part = self.stream.take(size)
        if part is None:
            raise self.bad("ends within a message")
        return part

    def text(self, what, most):
        size = number(self.part(4))
        if size > most:
            reply(8)
            raise self.bad(f"{what} of {size} bytes")
        return self.part(size)

    def next(self):
        """Whether the next message is of form two, its name and its value; None at the end of the stream."""
        self.start = self.stream.taken - len(self.stream.left)
        command = self.stream.take(4)
        if command is None and not self.stream.left:
            return None
        command = self.part(4) if command is None else command
        if number(command) == 1:
            fields = self.part(32), self.part(92)
            return (False, *(it[:-1].split(b"\0")[0] for it in fields))
        if number(command) != 0x20001:
            reply(0x1B)
            raise self.bad(f"command {number(command):08x}")
        return True, self.text("name", 1024), self.text("value", 8192)


def serve(root, path):
    if not os.path.isfile(f"{root}/system/etc/init/hw/init.rc"):
        raise End(6, "no init.rc", f"{root}/system/etc/init/hw/init.rc: No such file or directory")
    properties = Properties(root)
    messages = Messages(Stream(path))
    while message := messages.next():
        answer = properties.set(*message[1:])
        if message[0]:
            reply(answer)


def main():
    if sys.argv[1:2] != ["wire"] or len(sys.argv) != 4:
        print("initsim: usage: wire ROOT MESSAGES", file=sys.stderr)
        return 1
    try:
        serve(*sys.argv[2:])
    except End as end:
        for line in end.lines:
            print(f"initsim: {line}", file=sys.stderr)
        return end.status
    return 0


if __name__ == "__main__":
    sys.exit(main())
