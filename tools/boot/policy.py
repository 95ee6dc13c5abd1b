"""Who may set which property, by ROOT's own files, and in which service a domain lives."""
import os
import re

from product.device import read_plain
from product.texts import text_of

from boot.tree import UNREADABLE

# What is init itself: it sets nothing while it waits.
INIT_DOMAINS = ("init", "vendor_init", "kernel")
# Domains of processes that zygote forks.
FORKED = frozenset(
    """system_server system_app platform_app priv_app untrusted_app isolated_app radio bluetooth nfc secure_element network_stack
    mediaprovider mediaprovider_app permissioncontroller_app shared_relro traceur_app""".split()
)
ZYGOTE = "zygote"
# Parts of names that say nothing of what a daemon is for.
COMMON_PARTS = frozenset(["", "vendor", "hal", "default", "service", "android", "hardware", "daemon", "app"])


class Policy:
    """Who may set which property."""

    def __init__(self, root):
        self.exact, self.prefix, self.domains = {}, {"": "default_prop"}, {}
        for name, label, *rest in lines_of(root, "property_contexts"):
            if name == "*":
                self.prefix[""] = label
            else:
                (self.exact if rest[:1] == ["exact"] else self.prefix)[name] = label
        for words in lines_of(root, "property_allow"):
            if len(words) == 3:
                self.domains.setdefault(words[2], []).append(words[1])

    def label(self, name):
        """The label of a property."""
        exact = self.exact.get(name)
        return exact or self.prefix[max((it for it in self.prefix if name.startswith(it)), key=len)]

    def setters(self, name):
        """The domains that may set a property, but for those of init."""
        return sorted(it for it in self.domains.get(self.label(name), []) if it not in INIT_DOMAINS)


def lines_of(root, name):
    """The words of each line of a file of the policy."""
    path = os.path.join(root, name)
    lines = text_of(read_plain(path, UNREADABLE)).split("\n") if os.path.lexists(path) else []
    return [it.split() for it in lines if len(it.split()) > 1 and not it.lstrip().startswith("#")]


def homes_of(domain, services):
    """The services in which a process of the domain lives, as far as their names tell."""
    if domain in FORKED:
        return [it for it in services if it == ZYGOTE]
    for test in (has_seclabel, has_name, has_parts):
        found = [it.name for it in services.values() if test(it, domain)]
        if found:
            return found
    return []


def has_seclabel(service, domain):
    labels = [words[1].split(":") for _, words in service.section.lines if words[0] == "seclabel" and len(words) == 2]
    return any(it[2:3] == [domain] for it in labels)


def has_name(service, domain):
    return domain in (service.name, os.path.basename(service.path))


def has_parts(service, domain):
    """Whether the parts of the domain's name that say something are parts of the service's name or path."""
    wanted = parts_of(domain)
    return bool(wanted) and wanted <= parts_of(service.name) | parts_of(os.path.basename(service.path))


def parts_of(name):
    return {it for it in re.split(r"[^a-z]+", name.lower()) if it not in COMMON_PARTS}
