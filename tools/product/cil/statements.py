"""The statements of a file of CIL, with the lines where they begin."""
import re
from typing import NamedTuple

from product.texts import UNREADABLE, Stop, text_of

MOST_NESTED = 200
# The bytes of a word, as secilc has them.
BYTES = r"A-Za-z0-9\[\].@=/*\-_$%+!|&^:~`#{}'<>?,"
BLANKS = r"[ \t\r\n]+|;[^\r\n]*"
GAP = r"(?:[ \t\r\n]|;[^\r\n]*(?:[\r\n]|\Z))"
# (a list of words alone is one token)
FLAT, WORD, OPEN, CLOSE, QUOTE, BAD = range(1, 7)
TOKEN = re.compile(rf'\(([{BYTES} \t\r\n]*)\)|([{BYTES}]+)|(\()|(\))|"([^"\n\0]*)"|{BLANKS}|(.)', re.DOTALL)
OPTIONAL = re.compile(rf"\({GAP}*optional{GAP}+([{BYTES}]+)")
HEAD = re.compile(rf"\([{BYTES} \t]*")
# What may be passed over: blanks, and rules in one line for another class. A class map may stand for any class.
BETWEEN = re.compile(BLANKS)
OTHER_RULES = re.compile(
    rf"{BLANKS}|\((?:allow|auditallow|dontaudit|neverallow) [{BYTES}]+ [{BYTES}]+ \((?!\.?property_service )[{BYTES}]+ \([{BYTES} ]+\)\)\)"
)
NAME = re.compile(r"[A-Za-z][A-Za-z0-9_-]{0,2046}")


class Block:
    """An optional block, and those in it."""

    def __init__(self, name, statement, outer):
        self.name, self.statement, self.outer = name, statement, outer
        self.inner, self.is_dropped = [], False
        self.depth = 1 + (outer.depth if outer else 0)
        if outer:
            outer.inner.append(self)

    def whole(self):
        """The block with all blocks in it."""
        todo = [self]
        while todo:
            block = todo.pop()
            todo += block.inner
            yield block


class Statement(NamedTuple):
    words: list
    path: str
    line: int
    block: Block  # the innermost optional block around it, or None

    def place(self):
        return f"{self.path}:{self.line}"

    def fault(self, why):
        # (a text has a character for each byte)
        return Stop(UNREADABLE, f"{self.place()}: {text_of(why.encode('latin-1'))}")

    def is_live(self):
        return self.block is None or not self.block.is_dropped


class Source:
    """A file's text, and how far it is read."""

    def __init__(self, path, text):
        self.path, self.text, self.at, self.line = path, text, 0, 1

    def move_to(self, at):
        self.line += self.text.count("\n", self.at, at)
        self.at = at

    def here(self, block, words=()):
        return Statement(words, self.path, self.line, block)

    def fault(self, why):
        return self.here(None).fault(why)

    def pass_over(self, pattern):
        at, match = self.at, pattern.match
        while found := match(self.text, at):
            at = found.end()
        self.move_to(at)

    def statements(self, passed):
        """The statements but for what may be passed over; those of an optional block one by one."""
        block = None
        while True:
            self.pass_over(BETWEEN if block else passed)
            opened = OPTIONAL.match(self.text, self.at)
            if self.at == len(self.text):
                break
            if opened:
                block = self.open_block(opened, block)
            elif self.text[self.at] == ")":
                block = self.close_block(block)
            else:
                yield self.statement(block)
        if block:
            outermost = block
            while outermost.outer:
                outermost = outermost.outer
            raise outermost.statement.fault(f"the parenthesis of (optional {outermost.name} isn't closed")

    def open_block(self, opened, outer):
        made = Block(opened[1], self.here(outer), outer)
        if not NAME.fullmatch(made.name):
            raise self.fault(f"{made.name} is no name")
        self.judge_depth(made.depth)
        self.move_to(opened.end())
        return made

    def close_block(self, block):
        if not block:
            raise self.fault("there is one ) too many")
        self.move_to(self.at + 1)
        return block.outer

    def judge_depth(self, depth):
        if depth > MOST_NESTED:
            raise self.fault(f"more than {MOST_NESTED} parentheses are nested")

    def statement(self, block):
        """The statement that begins here, as nested lists of words."""
        items, around, depth = None, [], block.depth if block else 0
        for found in TOKEN.finditer(self.text, self.at):
            kind = found.lastindex
            if kind in (WORD, QUOTE) and items is not None:
                items.append(found[kind])
            elif kind in (FLAT, OPEN):
                self.judge_depth(depth + len(around) + 1)
                inner = found[FLAT].split() if kind == FLAT else []
                if items is not None:
                    items.append(inner)
                if kind == OPEN:
                    around.append(items)
                    items = inner
                elif items is None:
                    return self.ended(inner, found.end(), block)
            elif kind == CLOSE:
                inner, items = items, around.pop()
                if items is None:
                    return self.ended(inner, found.end(), block)
            elif kind:
                raise self.misplaced(found)
        raise self.fault(f"the parenthesis of {self.head()} isn't closed")

    def ended(self, words, at, block):
        made = self.here(block, words)
        self.move_to(at)
        return made

    def head(self):
        """The first words of the statement that begins here."""
        return "(" + " ".join(HEAD.match(self.text, self.at)[0][1:].split()[:3])

    def misplaced(self, found):
        self.move_to(found.start())
        if found.lastindex != BAD:
            return self.fault(f"{found[found.lastindex][:60]} stands in no parentheses")
        if found[BAD] == '"':
            return self.fault("the quote isn't closed in its line")
        return self.fault(f"the byte 0x{ord(found[BAD]):02x} stands outside of comments and quotes")
