"""The program over which all rows are tried. This is the one place that knows of the stand-in: it takes the program's place as long as that
has no form `wire`."""
import os
import subprocess

STAND_IN = os.path.join(os.path.dirname(os.path.abspath(__file__)), "stand_in.py")
SECONDS = 60
USAGE, NO_FORM = 1, b"initsim: no form is named wire"


def has_form(program):
    """Whether the program knows the word `wire`. It says of words alone whether they are a form, and so reads nothing here."""
    ran = subprocess.run([program, "wire"], stdin=subprocess.DEVNULL, capture_output=True, timeout=SECONDS)
    return ran.returncode != USAGE or NO_FORM not in ran.stderr.splitlines()


def judge_of(program):
    """The program that judges messages, and a line if it is the stand-in."""
    if has_form(program):
        return program, None
    return STAND_IN, f"wire: {program} has no form wire yet, so its rows are skipped, and all are tried over a stand-in"


def check_choice(check):
    """The stand-in is taken for the one answer that says that there is no such form; a program that does anything else is tried."""
    for what, text, wanted in (
        ("without the form", "echo 'initsim: usage: ..' >&2\necho 'initsim: no form is named wire' >&2\nexit 1", STAND_IN),
        ("with the form", "echo 'initsim: usage: ..' >&2\necho 'initsim: wire takes 2 words, and none is given' >&2\nexit 1", None),
        ("that fails", "echo 'initsim: no form is named wire' >&2\nexit 4", None),
        ("that ends well", "exit 0", None),
    ):
        program = check.script(text)
        check.expect(f"a program {what}", wanted or program, judge_of(program)[0])
