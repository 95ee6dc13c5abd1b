"""Whether a trace of a race or of a dispatch is one that the sequential machine can have written, for tools/race-check and
tools/faults-check: by the program's own `run` and `audit`, and by what is looked up in the trace itself."""
import collections
import itertools
import os
import shutil
import subprocess

from product.disk import text_of

SECONDS = 60
STORE, IMAGE = "data/property/persist.txt", "data/property/persist.img"
# (what somebody's run left in the repository)
LEFT_OVER = shutil.ignore_patterns("persist.img")
DECLARATIONS = ("area", "plan", "client")
FORMS = ("race", "dispatch")
# the bits of a serial: the length of the value, or LONG, the number of the set, and whether the cell is dirty
LONG, NUMBER_BITS = 255, 55


class Bad(Exception):
    """What is wrong."""


# ---- scripts and traces


class Script:
    """What a script declares, the main actor's inputs, and each client's requests, in order."""

    def __init__(self, text):
        lines = [words for words in map(str.split, text.splitlines()) if words and not words[0].startswith("#")]
        self.declared = [words for words in lines if words[0] in DECLARATIONS]
        self.clients = [words[1] for words in self.declared if words[0] == "client"]
        self.requests = {name: [] for name in self.clients}
        self.main = []
        for words in lines:
            if words[0].startswith("@"):
                self.requests[words[0][1:]].append(words[1:])
            elif words[0] == "step":
                self.main += [["next"]] * int(words[1])
            elif words[0] not in DECLARATIONS:
                self.main.append(words)


class Trace:
    """A trace in its parts: the lines up to the clients, the entries, each a head and its outputs, and each client's readings."""

    def __init__(self, text):
        lines = text.decode("ascii").split("\n")
        if lines[:1] != ["initsim 1"] or lines[-2:] != ["end", ""]:
            raise Bad("the trace is cut")
        clients = next(place for place, line in enumerate(lines) if line == "end" or line.startswith("client "))
        self.machine, self.entries, self.readings = lines[:clients], [], []
        for line in lines[1:clients]:
            if line.startswith(" "):
                self.entries[-1][1].append(line.split())
            elif not line.startswith("diag "):
                self.entries.append((line.split(), []))
        for line in lines[clients:-2]:
            if line.startswith("client "):
                self.readings.append([])
            else:
                self.readings[-1].append(line.split())


def sequential(script, heads):
    """The script whose only order is that of these heads of entries."""
    lines = [" ".join(words) for words in script.declared]
    for head in heads:
        if head[0] == "next":
            lines.append("step 1")
        elif head[0] == "set":
            lines.append(f"@{script.clients[int(head[1]) - 1]} set {head[2]} {head[3]}")
        else:
            lines.append(" ".join(head))
    return "".join(f"{line}\n" for line in lines)


# ---- a text that is cut off


def heads_in(text):
    """The heads of the entries in the front of a trace, of which the last line may be cut off."""
    lines = text.decode("ascii").split("\n")[1:-1]
    machine = itertools.takewhile(lambda line: line != "end" and not line.startswith("client "), lines)
    return [line.split() for line in machine if not line.startswith((" ", "diag "))]


def begins_a_trace(program, script, text, room):
    """Whether a trace begins with the text: one with the same inputs, and then those that are left, of some actor first."""
    left = {0: list(script.main)}
    for who, name in enumerate(script.clients, 1):
        left[who] = [["set", str(who), *words[1:]] for words in script.requests[name] if words[0] == "set"]
    heads = heads_in(text)[1:]
    for head in heads:
        who = int(head[1]) if head[0] == "set" else 0
        if left[who][:1] != [head]:
            return False
        del left[who][0]
    return any(writes_first(program, script, heads, [left[who], *(left[it] for it in left if it != who)], text, room) for who in left)


def writes_first(program, script, heads, parts, text, room):
    """Whether a run of these inputs, and then of the parts, writes the text first."""
    shutil.rmtree(os.path.join(room, "begun"), ignore_errors=True)
    shutil.copytree(os.path.join(room, "alone"), os.path.join(room, "begun"), symlinks=True)
    with open(os.path.join(room, "sequential"), "w") as file:
        file.write(sequential(script, heads + [head for part in parts for head in part]))
    return run(program, ["run", "begun", "sequential"], room).startswith(text)


# ---- the order of the inputs


def check_parts(script, trace):
    """Whether the inputs are a boot and then those of the script, each actor's in their order."""
    heads = [head for head, _ in trace.entries]
    if heads[:1] != [["boot"]]:
        raise Bad("the trace begins with no boot")
    parts = {}
    for head in heads[1:]:
        is_set = head[0] == "set"
        parts.setdefault(int(head[1]) if is_set else 0, []).append(["set", *head[2:]] if is_set else head)
    wanted = {0: script.main}
    for who, name in enumerate(script.clients, 1):
        wanted[who] = [words for words in script.requests[name] if words[0] == "set"]
    for who in {*parts, *wanted}:
        if parts.get(who, []) != wanted.get(who, []):
            raise Bad(f"the inputs of actor {who} aren't its lines, in their order")


def check_dispatched(trace):
    """Whether all inputs of the main actor come before the first set, and no client has a reading."""
    kinds = [head[0] for head, _ in trace.entries]
    first = kinds.index("set") if "set" in kinds else len(kinds)
    if any(kind != "set" for kind in kinds[first:]):
        raise Bad("an input of the main actor comes after a set")
    if any(trace.readings):
        raise Bad("a client has a reading")


# ---- readings


class Sets:
    """The accepted sets of a trace, and how many there are after each of its entries."""

    def __init__(self, trace):
        self.all, self.after, self.of_client = [], [0], {}
        for head, outputs in trace.entries:
            puts = [words for words in outputs if words[0] == "put"]
            self.all += [(words[2], words[3]) for words in puts]
            if head[0] == "set":
                self.of_client.setdefault(int(head[1]), []).append((self.after[-1], len(self.all)))
            self.after.append(len(self.all))

    def value(self, name, count):
        return next((value for other, value in reversed(self.all[:count]) if other == name), None)

    def is_set_between(self, name, low, high):
        return any(other == name for other, _ in self.all[low:high])


def bytes_in(text):
    """How many bytes a text in q form has."""
    return 0 if text == "%" else len(text) - 2 * text.count("%")


def serial(sets, name, word):
    """The number in a serial of the name, and whether it is dirty."""
    number, dirty = (word >> 1) & ((1 << NUMBER_BITS) - 1), word & 1 == 1
    if not 1 <= number <= len(sets.all) or sets.all[number - 1][0] != name:
        raise Bad(f"{word:016x} is no serial of {name}")
    size = bytes_in(sets.all[number - 1][1])
    if word >> 56 != (size if size <= 91 else LONG):
        raise Bad(f"{word:016x} has another length than its value")
    if dirty and not sets.is_set_between(name, number, len(sets.all)):
        raise Bad(f"{word:016x} is dirty, and no later set of {name} came")
    return number, dirty


def met_write(sets, words):
    """How many sets a client knows of behind a read that met a write."""
    name, count, first, second = words[1], int(words[2]), int(words[3], 16), int(words[4], 16)
    serial(sets, name, first)
    number, dirty = serial(sets, name, second)
    if first % (1 << 56) >= second % (1 << 56):
        raise Bad("the second serial isn't later than the first")
    if dirty and sets.is_set_between(name, number, count):
        raise Bad("the dirty serial is older than what the client knew")
    if not dirty and number <= count:
        raise Bad("the clean serial isn't newer than what the client knew")
    return count if dirty else number


def told(sets, request, words):
    """How many sets a reading counts, and how many the client knows of behind it."""
    kinds = {"read": ("found", "absent", "again"), "sync": ("synced",), "catch": ("caught",)}[request[0]]
    if words[0] not in kinds or (request[0] == "read" and words[1] != request[1]):
        raise Bad("it answers another request")
    count = int(words[2] if request[0] == "read" else words[1])
    if count > len(sets.all):
        raise Bad("it counts more sets than there are")
    if words[0] == "synced" and count not in sets.after:
        raise Bad("it counts a part of an entry")
    if words[0] == "again":
        return count, met_write(sets, words)
    if words[0] in ("found", "absent"):
        value = sets.value(words[1], count)
        if value != (words[3] if words[0] == "found" else None):
            raise Bad(f"after so many sets the value is {value}")
    return count, count


def check_client(sets, who, requests, readings):
    """Whether each reading of a client is one that its place allows."""
    own, left, known = list(sets.of_client.get(who, [])), list(readings), 0
    for request in requests:
        if request[0] == "set":
            known = own.pop(0)[1]
            continue
        words = left.pop(0)
        try:
            count, behind = told(sets, request, words)
            most = own[0][0] if own else len(sets.all)
            if not known <= count <= behind <= most:
                raise Bad(f"the client knew of {known} sets, and of at most {most}")
        except Bad as why:
            raise Bad(f"client {who}: {' '.join(words)}: {why}") from None
        known = behind
    if own or left:
        raise Bad(f"client {who} has more sets or readings than requests")


# ---- lines that each trace has


def fits(pattern, line):
    wanted, found = pattern.split(" "), line.split(" ")
    return len(wanted) == len(found) and all(one in ("*", other) for one, other in zip(wanted, found))


def check_lines(lines, text):
    """Whether the trace has each of these lines so often."""
    found = text.decode("ascii").split("\n")
    for pattern, times in collections.Counter(lines).items():
        number = sum(fits(pattern, line) for line in found)
        if number < times:
            raise Bad(f"{number} lines are {pattern!r}, and not {times}")


# ---- races


def run(program, words, folder):
    """What the program writes."""
    ran = subprocess.run([program, *words], cwd=folder, stdout=subprocess.PIPE, stderr=subprocess.PIPE, timeout=SECONDS)
    if ran.returncode or ran.stderr:
        raise Bad(f"{words[0]} ends with {ran.returncode}: {ran.stderr.decode(errors='replace').strip()}")
    return ran.stdout


def files_below(top):
    """The files of a tree with their bytes; of a store's image the text in it."""
    found = {}
    for at, _, names in os.walk(top):
        for name in names:
            path = os.path.relpath(os.path.join(at, name), top)
            with open(os.path.join(at, name), "rb") as file:
                if path == IMAGE:
                    found[STORE] = text_of(file.fileno())
                elif path != STORE or not os.path.exists(os.path.join(top, IMAGE)):
                    found[path] = file.read()
    return found


def first_difference(one, other):
    pairs = enumerate(zip([*one, None], [*other, None]), 1)
    number, (left, right) = next((number, pair) for number, pair in pairs if pair[0] != pair[1])
    return f"line {number} is {left!r}, and of a run {right!r}"


class Example:
    """A folder with what is raced or dispatched."""

    def __init__(self, folder, form):
        self.folder = os.path.abspath(folder)
        self.form = form or form_of(self.folder)
        with open(os.path.join(self.folder, "script")) as file:
            self.script = Script(file.read())
        self.lines = lines_of(self.folder)

    def copy_to(self, room):
        for tree in ("tree", "audited", "alone"):
            shutil.copytree(os.path.join(self.folder, "tree"), os.path.join(room, tree), symlinks=True, ignore=LEFT_OVER)
        shutil.copy(os.path.join(self.folder, "script"), room)


def lines_of(folder, name="lines"):
    path = os.path.join(folder, name)
    if not os.path.exists(path):
        return []
    with open(path) as file:
        return file.read().splitlines()


def form_of(folder):
    form = [*lines_of(folder, "words"), "race"][0]
    if form not in FORMS:
        raise Bad(f"{folder}: {form} is neither race nor dispatch")
    return form


def check_trace(program, example, text, room):
    """Holds the trace of a race or a dispatch in tree/ against the machine, in the trees beside it."""
    script, trace = example.script, Trace(text)
    check_parts(script, trace)
    if example.form == "dispatch":
        check_dispatched(trace)
    answer = run(program, ["audit", "audited", "script", "trace"], room)
    if answer != b"yes\n":
        raise Bad(f"the audit says {answer.decode().strip()}")
    with open(os.path.join(room, "sequential"), "w") as file:
        file.write(sequential(script, [head for head, _ in trace.entries[1:]]))
    alone = Trace(run(program, ["run", "alone", "sequential"], room))
    if trace.machine != alone.machine:
        raise Bad(first_difference(trace.machine, alone.machine))
    left = files_below(os.path.join(room, "tree"))
    if left != files_below(os.path.join(room, "alone")):
        raise Bad(f"the {example.form} leaves other files than the run")
    if not files_below(os.path.join(example.folder, "after")).items() <= left.items():
        raise Bad(f"the {example.form} leaves other files than `after` has")
    sets = Sets(trace)
    for who, name in enumerate(script.clients, 1):
        check_client(sets, who, script.requests[name], trace.readings[who - 1])
    check_lines(example.lines, text)
