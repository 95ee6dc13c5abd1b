"""Random split policies of CIL: plain ones, as AOSP's compiler writes them, and ones with everything that the reader knows."""
import random

ETC = "etc/selinux"
PLATFORM = f"/system/{ETC}/plat_sepolicy.cil"
MAPPING = f"/system/{ETC}/mapping/33.0.cil"
VERSIONED = f"/vendor/{ETC}/plat_pub_versioned.cil"
VENDOR = f"/vendor/{ETC}/vendor_sepolicy.cil"
EXTRA = {
    "plain": [f"/odm/{ETC}/odm_sepolicy.cil", f"/product/{ETC}/product_sepolicy.cil"],
    "full": [f"/system_ext/{ETC}/system_ext_sepolicy.cil", f"/system_ext/{ETC}/mapping/33.0.cil", f"/odm/{ETC}/odm_sepolicy.cil"],
}
PREAMBLE = """(handleunknown allow)
(mls true)
(policycap open_perms)
(sid kernel)
(sidorder (kernel))
(class property_service (set))
(class file (read write set))
(class process (fork))
(classorder (property_service file process))
(sensitivity s0)
(sensitivityorder (s0))
(category c0)
(categoryorder (c0))
(sensitivitycategory s0 (c0))
(mlsconstrain (file (read)) (or (eq l1 l2) (eq t1 init)))
(user u)
(userrole u r)
(userrole u object_r)
(userlevel u (s0))
(userrange u ((s0) (s0 (c0))))
(role object_r)
(role r)
(sidcontext kernel (u r init ((s0) (s0 (c0)))))
(type init)
(roletype r init)
(typetransition init file0 process init)
(type file0)
(roletype object_r file0)
(genfscon proc "/a (allow init file0 (property_service (set))) ;" (u object_r file0 ((s0) (s0))))"""

# What may stand between statements.
BETWEEN = ["", "", "", "; (allow init file0 (property_service (set)))\n", "\n;;* lmx 7 some.te\n\n;;* lme\n", "\t \r\n"]


class Policy:
    """A policy in the making: the lines of each file, and the names that it declares."""

    def __init__(self, seed, kind):
        self.random, self.kind = random.Random(f"{kind} {seed}"), kind
        self.lines = {it: [] for it in (PLATFORM, MAPPING, VERSIONED, VENDOR, *EXTRA[kind])}
        self.lines[PLATFORM].append(PREAMBLE)
        self.types, self.attributes, self.aliases, self.versioned = ["init", "file0"], [], [], []
        self.permissions = ["(property_service (set))"]
        self.make()

    def texts(self):
        return {path: self.dressed(lines) for path, lines in self.lines.items()}

    def dressed(self, lines):
        """The text of these lines; of a full policy with comments, line marks and blanks between."""
        if self.kind == "plain":
            return "".join(f"{it}\n" for it in lines)
        made = []
        for it in lines:
            made.append(self.chosen(BETWEEN))
            made.append(it if '"' in it or self.chance(0.7) else it.replace(" ", self.chosen(["\n", "  ", " ;(\n", "\r\n\t"])))
            made.append(self.chosen(["\n", "\n", " ", "; \xff)\n"]))
        return "".join(made)

    def chosen(self, parts):
        return self.random.choice(parts)

    def chance(self, part):
        return self.random.random() < part

    def add(self, line, *paths):
        self.lines[self.chosen(paths or list(self.lines))].append(line)

    def make(self):
        own = self.random
        for number in range(own.randrange(4, 14)):
            self.declare("type", f"t{number}", self.types)
        for number in range(own.randrange(2, 9)):
            self.declare("typeattribute", f"a{number}", self.attributes)
        for name in own.sample(self.types, own.randrange(1, len(self.types))):
            self.versioned.append(f"{name}_33_0")
            self.add(f"(typeattribute {name}_33_0)", VERSIONED)
            self.add(f"(typeattributeset {name}_33_0 ({name}))", MAPPING)
            self.add(f"(expandtypeattribute ({name}_33_0) true)", MAPPING)
        if self.kind == "full":
            self.make_aliases()
            self.make_permissions()
        self.make_sets()
        for _ in range(own.randrange(3, 14)):
            self.add(self.rule())
        for _ in range(own.randrange(4) if self.kind == "full" else 0):
            self.add(self.block(0))

    def declare(self, keyword, name, into):
        into.append(name)
        place = self.chosen(list(self.lines))
        for path in {place, self.chosen(list(self.lines))} if self.kind == "full" and self.chance(0.3) else {place}:
            self.lines[path].append(f"({keyword} {name})")
        if keyword == "type":
            self.lines[place].append(f"(roletype {self.chosen(['r', 'object_r'])} {name})")

    def make_aliases(self):
        for number in range(self.random.randrange(5)):
            self.add(f"(typealias l{number})")
            self.add(f"(typealiasactual l{number} {self.chosen(self.types + self.aliases)})")
            self.aliases.append(f"l{number}")

    def make_permissions(self):
        self.permissions += ["(property_service (all))", "(property_service (not (set)))", "(property_service (or (set) (all)))"]
        self.permissions += ["(property_service ((xor (set) (all))))", "(file (set read))", "(file (not (read)))"]
        if self.chance(0.5):
            self.add("(classpermission cp)")
            self.add(f"(classpermissionset cp {self.chosen(self.permissions)})")
            self.permissions.append("cp")
        if self.chance(0.5):
            self.add("(classmap m (x y))")
            for it in "xyy":
                self.add(f"(classmapping m {it} {self.chosen(self.permissions)})")
            self.permissions += ["(m (x))", "(m (not (x)))", "(m (x y))", "(m (all))"]

    def make_sets(self):
        """Sets of the attributes, each made of types and of attributes before it."""
        for number, name in enumerate(self.attributes):
            before = self.attributes[:number] + self.versioned
            for _ in range(self.random.randrange(3 if self.kind == "full" else 2) + (self.kind == "plain")):
                self.add(f"(typeattributeset {name} {self.expression(before)})")

    def name(self, before):
        name = self.chosen(self.types + self.aliases + before)
        if self.kind == "plain":
            return name
        return self.chosen([name] * 8 + [f'"{name}"', f".{name}"])

    def names(self, before):
        return "(" + " ".join(self.name(before) for _ in range(self.random.randrange(1, 5))) + ")"

    def expression(self, before, depth=0):
        if self.kind == "plain":
            return self.chosen([self.names(before), self.names(before), f"(and {self.names(before)} (not {self.names(before)}))"])
        if depth > 4 or self.chance(0.3):
            return self.chosen([self.names(before), self.names(before), self.name(before), "(all)"])
        inner = [self.expression(before, depth + 1) for _ in range(2)]
        forms = [f"({it} {inner[0]} {inner[1]})" for it in ("and", "or", "xor")]
        return self.chosen([*forms, f"(not {inner[0]})", f"({inner[0]})", f"({inner[0]} {self.name(before)} {inner[1]})"])

    def rule(self, names=None):
        names = names or self.attributes + self.versioned
        target = "self" if self.chance(0.15) else self.name(names)
        keyword = self.chosen(["allow"] * 8 + ["auditallow", "dontaudit", "neverallow"])
        permissions = self.chosen(["(property_service (set))"] * 3 + ["(file (read))", "(file (set))"] + self.permissions)
        return f"({keyword} {self.name(names)} {target} {permissions})"

    def block(self, depth):
        """An optional block: some have a name that nothing declares, or that another block declares."""
        number = self.random.randrange(10**6)
        names = self.attributes + self.versioned
        parts = [self.rule() for _ in range(self.random.randrange(1, 4))]
        if self.chance(0.4):
            parts.append(f"(type o{number % 3})")
        if self.chance(0.3):
            parts.append(self.rule([f"o{self.random.randrange(3)}", *names]))
        if self.attributes and self.chance(0.5):
            parts.append(f"(typeattributeset {self.attributes[-1]} {self.names(self.attributes[:-1] + self.versioned)})")
        lost = ["(allow init nothing (file (read)))", "(allow init init (file (nothing)))", "(allow init init (nothing (read)))"]
        lost += ["(roletype nothing init)", '(genfscon proc "/)" (u object_r nothing ((s0) (s0))))', "(typepermissive nothing)"]
        lost += [f"(allow o{self.random.randrange(3)} file0 (property_service (set)))"]
        if self.chance(0.4):
            parts.append(self.chosen(lost))
        if depth < 3 and self.chance(0.4):
            parts.append(self.block(depth + 1))
        self.random.shuffle(parts)
        return f"(optional o_{number} {' '.join(parts)})"
