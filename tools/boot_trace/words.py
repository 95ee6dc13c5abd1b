"""The words of a trace's lines, and how the fields after them are read. A field that has another form is a ValueError."""
import re

from boot_trace import lines as form

MOST_32, MOST_64 = 2**32 - 1, 2**64 - 1
LONGEST_NUMBER = 20
KINDS = frozenset(
    "Cut Orphan NoTrigger BadTrigger TwiceProp BadWord BadArity BadOption BadService ServiceAgain BadImport NoFile Loop TooDeep BadExpand BadProp".split()
)
COMMANDS = frozenset(
    """class_start class_stop class_reset class_restart start stop enable restart exec_start exec setprop trigger wait_for_prop wait
    load_persist_props export write copy rm rmdir symlink chmod mkdir mount umount restorecon restorecon_recursive chown insmod ifup sysclktz
    setrlimit swapon_all verity_update_state installkey init_user0 mark_post_data exec_background loglevel hostname domainname bootchart""".split()
)
TREE_REFUSALS = frozenset("BadPath Absent IsDir NotDir Exists NotEmpty Insecure".split())
ESCAPED = re.compile("(?:%[0-9A-F]{2})+")
SERIAL = re.compile("[0-9a-f]{16}")


def unescaped(found):
    """The bytes of escapes; those that aren't UTF-8 encode to themselves again (surrogateescape)."""
    return bytes.fromhex(found.group().replace("%", "")).decode("utf-8", "surrogateescape")


def text(field):
    """The text of a q form, whose escapes were looked at with the whole trace."""
    if "%" not in field:
        return field
    return "" if field == "%" else ESCAPED.sub(unescaped, field)


def quoted(made):
    """The q form of a text."""
    plain = (chr(it) if 33 <= it <= 126 and it != 37 else f"%{it:02X}" for it in made.encode("utf-8", "surrogateescape"))
    return "".join(plain) or "%"


def number(field, most):
    if not field.isdigit() or len(field) > LONGEST_NUMBER or field[0] == "0" and field != "0":
        raise ValueError(field)
    value = int(field)
    if value > most:
        raise ValueError(field)
    return value


def small(field):
    return number(field, MOST_32)


def large(field):
    return number(field, MOST_64)


def status(field):
    return number(field, 255)


def serial(field):
    if not SERIAL.fullmatch(field):
        raise ValueError(field)
    return int(field, 16)


def one_of(words):
    def read(field):
        if field not in words:
            raise ValueError(field)
        return field

    return read


# ---- so many fields, the first of which is at `first`


def lone(value, first):
    def read(fields):
        if len(fields) != first:
            raise ValueError(fields)
        return value

    return read


def only(make, first, a):
    def read(fields):
        if len(fields) != first + 1:
            raise ValueError(fields)
        return make(a(fields[first]))

    return read


def two(make, first, a, b):
    def read(fields):
        if len(fields) != first + 2:
            raise ValueError(fields)
        return make(a(fields[first]), b(fields[first + 1]))

    return read


def three(make, first, a, b, c):
    def read(fields):
        if len(fields) != first + 3:
            raise ValueError(fields)
        return make(a(fields[first]), b(fields[first + 1]), c(fields[first + 2]))

    return read


# ---- refusals and causes, by the fields from their name on

REFUSALS = {
    "Down": (text,),
    "InvalidName": (),
    "UnknownControl": (),
    "Denied": (text,),
    "NoSuchService": (),
    "InvalidType": (),
    "ValueTooLong": (large,),
    "NotUtf8": (),
    "ReadOnly": (large,),
    "AreaFull": (large, large),
    "NumberSpent": (large,),
}
CAUSES = {
    "Absent": (text,),
    "BadForm": (large,),
    "TooLong": (),
    "NoSuchService": (text,),
    "AlreadyRunning": (text,),
    "NoPid": (),
    "BadArgument": (large,),
    "Tree": (one_of(TREE_REFUSALS),),
}


def detailed(make, table, fields):
    """A name of the table, and what stands after it."""
    readers = table.get(fields[0]) if fields else None
    if readers is None or len(fields) != len(readers) + 1:
        raise ValueError(fields)
    return make(fields[0], tuple(read(it) for read, it in zip(readers, fields[1:])))


def refusal(fields):
    return detailed(form.Refusal, REFUSALS, fields)


def cause(fields):
    if fields[0] == "Set":
        return form.Cause("Set", (refusal(fields[1:]),))
    return detailed(form.Cause, CAUSES, fields)


# ---- lines that a space begins: their fields are "", the word, and what stands after it


def command(fields):
    file, line, word, *arguments = fields[2:]
    if word not in COMMANDS:
        raise ValueError(word)
    return form.Command(text(file), small(line), word, tuple(map(text, arguments)))


def unset(fields):
    return form.Unset(text(fields[2]), refusal(fields[3:]))


def reap(fields):
    _, _, pid, name, how, *rest = fields
    if how == "exit" and len(rest) == 1:
        return form.Reap(small(pid), text(name), status(rest[0]))
    if how != "killed" or rest:
        raise ValueError(fields)
    return form.Reap(small(pid), text(name), None)


WAITS = {
    "child": only(form.WaitChild, 3, small),
    "prop": two(form.WaitProp, 3, text, text),
    "file": two(form.WaitFile, 3, text, large),
}
OUTPUTS = {it.value: lone(it, 2) for it in form.Mark} | {
    "event": only(form.Event, 2, text),
    "change": two(form.Change, 2, text, text),
    "action": two(form.Action, 2, text, small),
    "command": command,
    "put": three(form.Put, 2, large, text, text),
    "stored": only(form.Stored, 2, text),
    "unset": unset,
    "spawn": three(form.Spawn, 2, small, text, text),
    "no-pid": only(form.NoPid, 2, text),
    "kill": two(form.Kill, 2, small, text),
    "reap": reap,
    "env": two(form.Env, 2, text, text),
    "tree": only(form.Tree, 2, text),
    "failed": lambda fields: form.Failed(cause(fields[2:])),
    "wait": lambda fields: WAITS[fields[2]](fields),
    "reboot": only(form.Reboot, 2, text),
    "accepted": only(form.Accepted, 2, large),
    "control": only(form.Control, 2, large),
    "refused": lambda fields: form.Refused(refusal(fields[2:])),
}
READINGS = {
    "found": three(form.Found, 2, text, large, text),
    "absent": two(form.Absent, 2, text, large),
    "again": lambda fields: again(*fields[2:]),
    "synced": only(form.Synced, 2, large),
    "caught": only(form.Caught, 2, large),
}
# ---- lines that none begins: their fields are the word, and what stands after it
HEADS = {
    "boot": lone(form.Boot(), 1),
    "next": lone(form.Next(), 1),
    "tick": only(form.Tick, 1, large),
    "exit": two(form.Exit, 1, text, status),
    "file": two(form.File, 1, text, text),
    "set": three(form.Set, 1, small, text, text),
}
diagnostic = three(form.Diagnostic, 1, text, small, one_of(KINDS))
client = three(lambda number, name, domain: form.Client(number, name, domain, []), 1, large, text, text)


def again(name, count, first, second):
    return form.Again(text(name), large(count), serial(first), serial(second))


def output(fields):
    """What the machine did, by a line that a space begins."""
    return OUTPUTS[fields[1]](fields)


def head(fields):
    """The head of an entry; None if the line is none."""
    return HEADS[fields[0]](fields) if fields[0] in HEADS else None
