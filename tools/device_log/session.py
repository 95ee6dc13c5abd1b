"""One log and one ROOT: reads, follows and compares them."""
import json
import os
import subprocess
from contextlib import contextmanager

import programs
from boot.runs import runs_of
from product.texts import Stop

from device_log.builds import place_actions
from device_log.comparing import compare
from device_log.follow import Follower
from device_log.known import known_before, root_with
from device_log.loss import Losses
from device_log.policy import TypedPolicy
from device_log.rc_tree import RcTree
from device_log.reading import Unusable, judge, read_log
from device_log.script import Script

FAILED = 2
SECONDS = 120


class NotModelled:
    """Which lines have words of AOSP's that the model doesn't have, as rc-lint knows. It is run when somebody asks first."""

    def __init__(self, root):
        self.root, self.lines = root, None

    def __call__(self, key):
        if self.lines is None:
            self.lines = self.ask()
        return key in self.lines

    def ask(self):
        try:
            words = [programs.path_of("rc_lint"), "--format", "json", self.root]
            ran = subprocess.run(words, stdin=subprocess.DEVNULL, capture_output=True, timeout=SECONDS)
            found = json.loads(ran.stdout)
        except (programs.NotBuilt, OSError, subprocess.TimeoutExpired, ValueError) as why:
            raise Stop(FAILED, f"rc-lint can't be run: {why}") from None
        return {(it["file"], it["line"]) for it in found["findings"] if it["kind"] == "NotModelled"}


def usable_log(path):
    """The log in a file, if a boot can be followed in it."""
    try:
        log = read_log(path)
        judge(log)
    except IsADirectoryError:
        raise Stop(FAILED, f"{path}: it is a folder") from None
    except OSError as why:
        raise Stop(FAILED, f"{path}: {why.strerror}") from None
    except Unusable as why:
        raise Stop(FAILED, f"{path}: {why}") from None
    return log


class Session:
    """What came of following a log: the script, its runs, and the comparison."""

    def __init__(self, log, tree, known, runs, not_modelled):
        self.log, self.known, self.runs = log, known, runs
        root = tree.root
        policy, places = TypedPolicy(root, tree.services), place_actions(log, tree)
        self.script = Script(runs)
        notes = Follower(log, tree, policy, self.script, places.keys).follow()
        losses = Losses(log, tree, places, notes)
        self.compared = compare(log, tree, policy, places, self.script, notes, losses, not_modelled or NotModelled(root))
        # (what follows the last act doesn't belong to the comparison)
        self.count = self.script.count
        self.script.finish(self.compared.reach)

    @property
    def actions(self):
        """How many actions of the log could be followed."""
        return sum(1 for it in self.compared.messages if it.kind == "action")


@contextmanager
def session_of(root, log_path, program, not_modelled=None):
    """Follows the log with ROOT. The runs last as long as the session."""
    log = usable_log(log_path)
    if not os.path.isdir(root):
        raise Stop(FAILED, f"{root}: {'it is no folder' if os.path.lexists(root) else 'there is no such folder'}")
    tree = RcTree(root)
    known = known_before(log, tree)
    with root_with(root, known) as complete, runs_of(complete, lambda: program) as runs:
        yield Session(log, RcTree(complete) if known else tree, known, runs, not_modelled)
