"""The lines of an rc file as AOSP's init counts and prints them: a tokenizer of its own, after init's tokenizer.cpp and parser.cpp."""
from typing import NamedTuple


class RcLine(NamedTuple):
    printed: int  # the number that init prints
    first: int  # the physical line of the first word
    words: list


def skip_blanks(text, at):
    while at < len(text) and text[at] in " \t\r":
        at += 1
    return at


def quoted(text, at):
    """The text in quotes, and where it ends."""
    end = text.find('"', at)
    return (text[at:], len(text)) if end < 0 else (text[at:end], end + 1)


def escaped(text, at):
    """What a backslash makes, where it ends, and the line ends that it drops."""
    here = text[at : at + 1]
    if here == "\r" and text[at + 1 : at + 2] == "\n":
        at, here = at + 1, "\n"
    if here == "\n":
        at += 1
        while text[at : at + 1] in (" ", "\t"):
            at += 1
        return "", at, 1
    return {"n": "\n", "r": "\r", "t": "\t"}.get(here, here), at + 1, 0


class RcLines:
    def __init__(self, text):
        self.text, self.at = text, 0
        self.counted, self.physical = 0, 1

    def word(self):
        made = ""
        while self.at < len(self.text) and self.text[self.at] not in " \t\r\n":
            here, self.at = self.text[self.at], self.at + 1
            if here == '"':
                piece, self.at = quoted(self.text, self.at)
                self.physical += piece.count("\n")
            elif here == "\\":
                piece, self.at, folds = escaped(self.text, self.at)
                self.counted, self.physical = self.counted + folds, self.physical + folds
            else:
                piece = here
            made += piece
        return made

    def __iter__(self):
        words, first = [], 0
        while True:
            self.at = skip_blanks(self.text, self.at)
            if self.text[self.at : self.at + 1] == "#":
                end = self.text.find("\n", self.at)
                self.at = len(self.text) if end < 0 else end
            if self.at >= len(self.text) or self.text[self.at] == "\n":
                self.counted += 1
                if words:
                    yield RcLine(self.counted, first, words)
                words, self.at, self.physical = [], self.at + 1, self.physical + 1
                if self.at > len(self.text):
                    return
                continue
            first = first if words else self.physical
            words.append(self.word())
