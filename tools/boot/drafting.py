"""The words and statuses that draft-script and draft-test have in common."""
import argparse
import os
import sys

from product.texts import USAGE, Stop, bytes_of, printable, tell, write_out

from boot.draft import Draft
from boot.files import write_whole
from boot.runs import interrupt_on_signals, program_of, runs_of

DOUBTFUL, IS_THERE, UNWRITABLE = 4, 5, 6


class Words(argparse.ArgumentParser):
    def __init__(self, name, target):
        super().__init__(prog=name, add_help=False, allow_abbrev=False)
        self.form = f"usage: {name} ROOT {target} [--program PATH]"
        self.add_argument("root", metavar="ROOT")
        self.add_argument("target", metavar=target)
        self.add_argument("--program", metavar="PATH")

    def error(self, message):
        raise Stop(USAGE, f"{message}; {self.form}")

    def given(self, words, target):
        given = self.parse_args(words)
        for name, value in (("ROOT", given.root), (target, given.target)):
            if not value:
                self.error(f"{name} is empty")
        return given


def see_to_target(path):
    if os.path.lexists(path):
        raise Stop(IS_THERE, f"{path}: it is there already")
    if not os.path.isdir(os.path.dirname(os.path.abspath(path))):
        raise Stop(UNWRITABLE, f"{path}: there is no such folder")


def draft(given, text_of):
    """Drafts, says what is assumed, and writes the target; the status."""
    with runs_of(given.root, lambda: see_to_target(given.target) or program_of(given.program)) as runs:
        made = Draft(runs)
        made.write()
    write_out("".join(f"{printable(it)}\n" for it in made.lines))
    write_whole(given.target, bytes_of(text_of(made)), UNWRITABLE)
    return DOUBTFUL if made.is_doubtful else 0


def main(name, target, help_text, text_of):
    interrupt_on_signals()
    words = sys.argv[1:]
    try:
        if {"-h", "--help"} & set(words):
            write_out(help_text)
            return 0
        return draft(Words(name, target).given(words, target), text_of)
    except Stop as stop:
        tell(f"{name}: {stop}")
        return stop.status
    except KeyboardInterrupt:
        return 130
