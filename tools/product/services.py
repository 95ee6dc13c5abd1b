"""The services of the rc files, as far as it matters which program each has and whether a file starts it."""
from typing import NamedTuple

from product.texts import is_legal_name

HEADERS = ("on", "service", "import")
# So long a name, as init.svc.NAME is a property.
MOST_SERVICE_NAME_BYTES = 246
STARTING = {"start", "exec_start", "restart", "enable"}


class Service(NamedTuple):
    name: str
    path: str
    place: str  # FILE:LINE
    marks: set  # its options of one word


class Services:
    """The services, in the order in which init reads them, and the names that rc files start."""

    def __init__(self):
        self.all, self.here, self.started = [], None, set()

    def add(self, words, place):
        """Takes a line of an rc file."""
        if words[0] in HEADERS:
            self.here = None
        if words[0] == "service" and is_service(words):
            self.here = Service(words[1], words[2], place, set())
            self.all.append(self.here)
        elif self.here and len(words) == 1:
            self.here.marks.add(words[0])
        command = words[1:] if words[0] == "onrestart" else words
        if len(command) == 2 and command[0] in STARTING:
            self.started.add(command[1])

    def kept(self):
        """The services that init has: of several of one name the last with override, or else the first."""
        kept = {}
        for it in self.all:
            if it.name not in kept or "override" in it.marks:
                kept[it.name] = it
        return kept.values()

    def may_start(self, service):
        """Whether a class or a line of an rc file starts the service. What else does, a client, can't be known."""
        return "disabled" not in service.marks or service.name in self.started


def is_service(words):
    return len(words) > 2 and bool(words[2]) and is_legal_name(words[1]) and len(words[1]) <= MOST_SERVICE_NAME_BYTES
