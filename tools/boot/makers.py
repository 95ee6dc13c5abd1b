"""Who plausibly ends a wait of init: the daemon that sets a property, or what makes a file, if it runs by then."""
from typing import NamedTuple

from boot_trace.words import quoted

from boot.causes import ends
from boot.policy import INIT_DOMAINS, Policy, homes_of

# By these paths, what makes a file below them; the kernel always runs.
KERNEL_FOLDERS = ("/sys", "/proc", "/config", "/acct")
DEVICES, SOCKETS, APEXES = "/dev", "/dev/socket", "/apex"
DEVICES_BY, APEXES_BY = "ueventd", "apexd"
OWN_SOCKET = "property_service"


class Verdict(NamedTuple):
    """How plausible it is that something ends a wait: assumed, doubtful, missing or deadlock; why; and of a set the domain."""

    kind: str
    why: str
    domain: str | None = None


class Makers:
    """What is known of who ends waits in a tree."""

    def __init__(self, root, sources):
        self.policy, self.sources = Policy(root), sources

    def of_property(self, name, value, causes, wait=None):
        """Who sets the property, when the boot stands so."""
        domains = self.policy.setters(name)
        homes = {it: homes_of(it, self.sources.services) for it in domains}
        running = [it for it in domains if any(causes.now.is_running(home) for home in homes[it])]
        if running:
            others = f"; {', '.join(running[1:])} may too" if running[1:] else ""
            return Verdict("assumed", others, running[0])
        circle = self.circle(wait, causes)
        if circle:
            return circle
        unknown = [it for it in domains if not homes[it]]
        if unknown:
            return Verdict("doubtful", f", and which service is of the domain {unknown[0]} isn't known", unknown[0])
        if domains:
            return Verdict("missing", "; ".join(f"{it} may set it, and {causes.service(homes[it][0])}" for it in domains))
        return Verdict("missing", self.nobody(name))

    def nobody(self, name):
        label = self.policy.label(name)
        of_init = [it for it in self.policy.domains.get(label, ()) if it in INIT_DOMAINS]
        return f"no {'daemon' if of_init else 'domain'} may set properties of {label} (property_allow)"

    def of_file(self, path, causes, wait):
        """What makes the file, when the boot stands so."""
        if is_below(path, SOCKETS):
            return self.of_socket(path, causes)
        for folder, name in ((DEVICES, DEVICES_BY), (APEXES, APEXES_BY)):
            if is_below(path, folder):
                return self.of_daemon(name, causes)
        if any(is_below(path, it) for it in KERNEL_FOLDERS):
            return Verdict("assumed", "")
        return self.circle(wait, causes) or Verdict("doubtful", ", and what makes it isn't known")

    def of_daemon(self, name, causes):
        """Of a file that a daemon makes; in a tree without this daemon nothing is held against it."""
        if name in self.sources.services and not causes.now.is_running(name):
            return Verdict("missing", f"{name} makes it, and {causes.service(name)}")
        return Verdict("assumed", "")

    def of_socket(self, path, causes):
        """Of a socket, which init makes for a service that it starts."""
        socket = path[len(SOCKETS) + 1 :]
        owners = [it.name for it in self.sources.services.values() if has_socket(it, socket)]
        if socket == OWN_SOCKET or any(causes.now.is_running(it) for it in owners):
            return Verdict("assumed", "")
        if owners:
            return Verdict("missing", f"it is a socket of {owners[0]}, and {causes.service(owners[0])}")
        return Verdict("doubtful", ", and no service has this socket")

    def circle(self, wait, causes):
        """Whether only a line that init runs after the wait would end it."""
        lines = [it for it in causes.lines if wait and ends(it[1], wait) and it[0] not in causes.ran]
        if not lines:
            return None
        place, words, _ = lines[0]
        return Verdict("deadlock", f"only {place} ({' '.join(map(quoted, words))}) ends this, and init runs nothing while it waits")


def is_below(path, folder):
    return path.startswith(f"{folder}/")


def has_socket(service, name):
    return any(words[0] == "socket" and words[1:2] == [name] for _, words in service.section.lines)
