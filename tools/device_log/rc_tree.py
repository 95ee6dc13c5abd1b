"""The rc files of ROOT: their actions and lines, by the numbers of the model and by those that init prints.

The model numbers a line by the physical line of its first word. Init counts the line ends that its tokenizer meets: so it prints the last
physical line of a fold, and doesn't count a line feed in quotes.
"""
from typing import NamedTuple

from boot_trace.sources import Sources
from product.apex import APEX_RC
from product.mounts import MOUNTED_RC
from product.rc import Scanner
from product.texts import text_of

# The model's own files, which no device has.
OWN_FILES = {APEX_RC, MOUNTED_RC}
PROPERTY = "property:"
PERIOD = 5
STARTS = ("start", "restart", "exec_start")


class Triggers(NamedTuple):
    """What an `on` line waits for."""

    event: str
    properties: dict

    @property
    def text(self):
        """As init prints it: the properties by name, then the event."""
        shown = [f"{name}={self.properties[name]}" for name in sorted(self.properties)]
        return " && ".join([*shown, *([self.event] if self.event else [])])


def triggers_of(words):
    """The triggers of a header's words after `on`."""
    event, properties = "", {}
    for word in words:
        if word.startswith(PROPERTY):
            name, _, value = word.removeprefix(PROPERTY).partition("=")
            properties[name] = value
        elif word != "&&":
            event = word
    return Triggers(event, properties)


def triggers_of_text(text):
    """The triggers that a line of a log shows."""
    event, properties = "", {}
    for part in text.split(" && ") if text else []:
        name, equals, value = part.partition("=")
        if equals:
            properties[name] = value
        else:
            event = part
    return Triggers(event, properties)


def printed_lines(text):
    """By the number that init prints for a line: the model's number of it."""
    scanner = Scanner(text)
    return {scanner.line - scanner.quoted_feeds: number for number, _ in scanner.lines()}


class RcTree:
    """What ROOT's rc files say."""

    def __init__(self, root):
        self.root, self.sources = root, Sources(root)
        self.files = self.sources.files
        self.services = self.sources.services
        self.sections = [it for file in self.files for it in self.sources.sections(file)]
        self.actions = {(it.file, it.line): it for it in self.sections if it.words[0] == "on"}
        self.triggers = {key: triggers_of(it.words[1:]) for key, it in self.actions.items()}
        self.order = {key: place for place, key in enumerate(self.actions)}
        self.words = {(it.file, number): words for it in self.sections for number, words in [(it.line, it.words), *it.lines]}
        self.numbers = {file: printed_lines(text_of(self.sources.root.read(file) or b"")) for file in self.files}
        self.printed = {(file, number): printed for file, found in self.numbers.items() for printed, number in found.items()}

    def number_of(self, file, printed):
        """The model's number of the line that init prints, if ROOT has that line."""
        return self.numbers.get(file, {}).get(printed)

    def place(self, key):
        """A line as people read it, by the number that their editor shows."""
        return f"{key[0]}:{key[1]}"

    def short(self, key):
        return f"{key[0].rsplit('/', 1)[-1]}:{key[1]}"

    def classes(self, service):
        return self.services[service].classes if service in self.services else []

    def restart_period(self, service):
        """In seconds."""
        found = self.services.get(service)
        given = [words[1] for _, words in found.section.lines if words[0] == "restart_period" and len(words) == 2 and words[1].isdigit()] if found else []
        return int(given[-1]) if given else PERIOD

    def interfaces(self, service):
        """The names by which control messages for an interface start a service."""
        found = self.services.get(service)
        return {"/".join(words[1:]) for _, words in found.section.lines if words[0] == "interface"} if found else set()

    def starters(self, service):
        """The actions that start a service, by its name or by a class that it has."""
        wanted = [[it, service] for it in STARTS] + [["class_start", it] for it in self.classes(service)]
        return [key for key, it in self.actions.items() if any(words[:2] in wanted for _, words in it.lines)]

    def askers(self, event):
        """The actions that trigger an event."""
        return [key for key, it in self.actions.items() if any(words == ["trigger", event] for _, words in it.lines)]
