"""Who may set which property by ROOT's policy, and which values it takes."""
from boot.policy import Policy, homes_of, lines_of

STRING = "string", ()
# The rc files of vendors set properties by this domain: it is asked last.
VENDOR_INIT = "vendor_init"


class TypedPolicy(Policy):
    """A policy with the types of its contexts, and with the domains of services as far as names tell them."""

    def __init__(self, root, services):
        super().__init__(root)
        self.services = services
        self.exact_types, self.prefix_types = {}, {"": STRING}
        for name, _, *rest in lines_of(root, "property_contexts"):
            kind = (rest[1], rest[2:]) if len(rest) > 1 else STRING
            if name == "*":
                self.prefix_types[""] = kind
            else:
                (self.exact_types if rest[:1] == ["exact"] else self.prefix_types)[name] = kind

    def type_of(self, name):
        """The type of a property's values, and of an enum these."""
        exact = self.exact_types.get(name)
        return exact or self.prefix_types[max((it for it in self.prefix_types if name.startswith(it)), key=len)]

    def setters(self, name):
        found = super().setters(name)
        return found or [it for it in self.domains.get(self.label(name), []) if it == VENDOR_INIT]

    def any_value(self, name):
        """A value that the property can have."""
        kind, values = self.type_of(name)
        return values[0] if kind == "enum" and values else "1"

    def homes(self, domain):
        return homes_of(domain, self.services)

    def of_service(self, domains, service):
        """Those of the domains in which a service may be: not those that live in others."""
        homes = {it: self.homes(it) for it in domains}
        return [it for it in domains if not homes[it] or service in homes[it]]
