"""Compares a log with the boot of the model that follows it."""
from device_log.compare_actions import Actions
from device_log.compare_lines import Commands, Files, Refusals
from device_log.compare_services import Ends, Starts, Waits
from device_log.findings import Compared
from device_log.rc_tree import OWN_FILES


def compare(log, tree, policy, places, script, notes, losses, not_modelled):
    """All findings and known differences."""
    compared = Compared(log, tree, policy, places, script.view, notes, losses, script.position)
    waits = Waits(compared)
    waits.find_hang()
    actions = Actions(compared)
    actions.note_lost()
    waits.compare()
    Ends(compared).compare()
    Files(compared, not_modelled).compare()
    actions.compare()
    Starts(compared, actions).compare()
    Commands(compared, actions).compare()
    Refusals(compared).compare()
    count_known(compared)
    compared.findings.sort()
    return compared


def count_known(compared):
    """What is folded into one line of each kind."""
    known = compared.known
    known["actions and waits of init's own"] += sum(1 for it in compared.messages if it.kind == "builtin")
    known["programs of exec_background"] += len(compared.notes.background)
    known["actions of the model's own rc files"] += sum(1 for it in compared.view.boot.actions if it.commands and it.file in OWN_FILES)
