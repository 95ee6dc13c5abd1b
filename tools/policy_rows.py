"""The rows of tools/policy-check, each with what must come of it, worked out by hand. SET stands for the permission to set a property."""

ETC = "etc/selinux"
PLATFORM, MAPPING = f"/system/{ETC}/plat_sepolicy.cil", f"/system/{ETC}/mapping/33.0.cil"
VERSION, VERSIONED = f"/vendor/{ETC}/plat_sepolicy_vers.txt", f"/vendor/{ETC}/plat_pub_versioned.cil"
VENDOR, NONPLAT, ODM = f"/vendor/{ETC}/vendor_sepolicy.cil", f"/vendor/{ETC}/nonplat_sepolicy.cil", f"/odm/{ETC}/odm_sepolicy.cil"
CONTEXTS = f"/system/{ETC}/plat_property_contexts"

# Three domains and two properties; `both` is a and b, and `some` is for the rows to make.
PLAT = """(class property_service (set))
(class file (read set))
(role r)
(user u)
(sensitivity s0)
(type a) (type b) (type c) (type p) (type q)
(typeattribute both) (typeattribute some)
(typeattributeset both (a b))
"""


def of(expression):
    """A policy whose one rule is for the set of this expression."""
    return f"(typeattributeset some {expression}) (allow some p SET)"


def block(inner):
    """An optional block with a rule, and what may drop it."""
    return f"(optional o (allow a p SET) {inner})"


# What is told, the vendor's policy, and its pairs.
PAIRS = [
    ("a rule", "(allow a p SET)", "a p"),
    ("rules in their order", "(allow b q SET) (allow b p SET) (allow a q SET)", "a q,b p,b q"),
    ("an attribute on both sides", "(typeattributeset some (p q)) (allow both some SET)", "a p,a q,b p,b q"),
    ("a set of one name", of("both"), "a p,b p"),
    ("a list of names", of("(c both)"), "a p,b p,c p"),
    ("and", of("(and (a b) (b c))"), "b p"),
    ("or", of("(or (a b) c)"), "a p,b p,c p"),
    ("xor", of("(xor (a b) (b c))"), "a p,c p"),
    ("not", of("(not (a p q))"), "b p,c p"),
    ("all", of("(all)"), "a p,b p,c p,p p,q p"),
    ("nested, in lists of one", of("((and (both) ((not (xor (a) (c))))))"), "b p"),
    ("expressions beside names", of("(c (and both (not b)))"), "a p,c p"),
    ("no set at all", "(allow some p SET)", ""),
    ("two sets", "(typeattributeset some (a)) (typeattributeset some (c)) (allow some p SET)", "a p,c p"),
    ("sets of two files", {VENDOR: "(typeattributeset some (a)) (allow some p SET)", ODM: "(typeattributeset some (c))"}, "a p,c p"),
    ("an attribute of an attribute that is made later", "(typeattribute x) (typeattributeset x some) (typeattributeset some c) (allow x p SET)", "c p"),
    ("one type in two files", {VENDOR: "(allow d p SET) (type d)", ODM: "(type d) (typeattribute both)"}, "d p"),
    ("an alias", "(allow x y SET) (typealias x) (typealiasactual x a) (typealias y) (typealiasactual y p)", "a p"),
    ("an alias of an alias", "(typealias x) (typealias y) (typealiasactual x y) (typealiasactual y a) (allow x p SET)", "a p"),
    ("an alias in a set", "(typealias x) (typealiasactual x a) " + of("(and both (not x))"), "b p"),
    ("a versioned attribute", {VERSIONED: "(typeattribute p_33_0)", MAPPING: "(typeattributeset p_33_0 (p q))", VENDOR: "(allow a p_33_0 SET)"}, "a p,a q"),
    ("self", "(allow both self SET)", "a a,b b"),
    ("self of an alias", "(typealias x) (typealiasactual x a) (allow x self SET)", "a a"),
    ("all permissions", "(allow a p (property_service (all)))", "a p"),
    ("but for this one", "(allow a p (property_service (not (set))))", ""),
    ("this one and itself", "(allow a p (property_service (and (set) ((set)))))", "a p"),
    ("this one and not itself", "(allow a p (property_service (xor (set) (all))))", ""),
    ("set of another class", "(allow a p (file (set)))", ""),
    ("rules of other kinds", "(auditallow a p SET) (dontaudit a q SET) (neverallow b p SET)", ""),
    ("a permission of a common", "(common k (get)) (classcommon property_service k) (allow a p (property_service (get))) (allow b p (property_service (not (get))))", "b p"),
    ("a classpermission", "(classpermission k) (classpermissionset k (file (set))) (classpermissionset k SET) (allow a p k)", "a p"),
    ("one of another class", "(classpermission k) (classpermissionset k (file (set))) (allow a p k)", ""),
    ("a classpermission of one", "(classpermission k) (classpermission l) (classpermissionset k l) (classpermissionset l SET) (allow a p k)", "a p"),
    ("a class map, in a line of a rule", "(classmap m (x y))\n(classmapping m x SET)\n(classmapping m y (file (set)))\n(allow a p (m (x)))\n(allow b p (m (y)))", "a p"),
    ("a class map but for one", "(classmap m (x y)) (classmapping m x SET) (classmapping m y (file (set))) (allow a p (m (not (x)))) (allow b p (m (not (y))))", "b p"),
    ("a block that stays", block(""), "a p"),
    ("a type that nothing declares", block("(allow none p (file (read)))"), ""),
    ("a target that nothing declares", block("(allow a none (file (read)))"), ""),
    ("a name in a set", block("(typeattributeset some (not (none)))"), ""),
    ("the attribute of a set", block("(typeattributeset none (a))"), ""),
    ("a class", block("(allow a p (none (read)))"), ""),
    ("a permission", block("(allow a p (file (none)))"), ""),
    ("a permission in an expression", block("(dontaudit a p (file (not (none))))"), ""),
    ("a classpermission that nothing declares", block("(allow a p none)"), ""),
    ("an alias of what nothing declares", block("(typealias x) (typealiasactual x none)"), ""),
    ("a role", block("(roletype none a)"), ""),
    ("the type of a role", block("(roletype r none)"), ""),
    ("a transition", block('(typetransition a p file "none" none)'), ""),
    ("a name in quotes there", block('(typetransition a p file "none" q)'), "a p"),
    ("an extended rule", block("(allowx a none (ioctl file (0x1)))"), ""),
    ("a permissive domain", block("(typepermissive none)"), ""),
    ("a context", block('(genfscon proc "/)" (u r none ((s0) (s0))))'), ""),
    ("a level of a context", block('(genfscon proc "/;" (u r p ((s0) (s1))))'), ""),
    ("a context that stays", block('(genfscon proc "/(;" (u r p ((s0) (s0))))'), "a p"),
    ("in an inner block", block("(optional i (allow none p (file (read)))) (optional k (allow b p SET))"), "a p,b p"),
    ("an inner block goes too", block("(allow none p (file (read))) (optional i (allow b p SET))"), ""),
    ("what a block declares", "(optional o (type d)) (optional k (allow d p SET))", "d p"),
    ("outside of it, too", "(optional o (type d)) (allow d p SET)", "d p"),
    ("what a block declares that is dropped", "(optional k (allow a p SET) (allow d p SET)) (optional o (type d) (roletype none d))", ""),
    ("what an inner block declares", "(optional k (allow a p SET) (allow d p SET)) (optional o (optional i (type d)) (roletype none a))", ""),
    ("declared by a second block", "(optional o (type d) (roletype none d)) (optional k (type d)) (optional l (allow d p SET))", "d p"),
    ("two that need each other", "(optional o (type d) (allow d e SET)) (optional k (type e) (allow e d SET))", "d e,e d"),
    ("a set of a block that is dropped", "(typeattributeset some (a)) (allow some p SET) (optional o (typeattributeset some (b)) (roletype none b))", "a p"),
    ("a type of a block that is dropped", "(optional o (type d) (roletype none d)) " + of("(not (both))"), "c p,p p,q p"),
    ("an attribute of a block that is dropped", "(optional o (typeattribute x) (roletype none a)) (allow a p SET)", "a p"),
    ("a comment", "; (allow a p SET)\n(allow b p SET) ;(allow c p SET)", "b p"),
    ("a comment in a rule", "(allow b ; c\n p SET)", "b p"),
    ("a bracket in a comment", "(allow b p SET) ; )\n;\"\n(allow c p SET)", "b p,c p"),
    ("a quote", '(genfscon proc "/(allow a p SET);" (u r p ((s0) (s0))))\n(allow b p SET)', "b p"),
    ("a quote with a bracket", '(genfscon proc "/)(" (u r p ((s0) (s0))))(allow b p SET)', "b p"),
    ("a word in quotes", '(allow "a" p SET)', "a p"),
    ("line marks", ";;* lmx 7 (allow a p SET)\n(allow b p SET)\n;;* lme\n;;* lms 1 x", "b p"),
    ("a rule over lines, with CR", "(allow\r\n\ta\r\n p(property_service\n(set)))", "a p"),
    ("rules in one line", "(allow a p (file (read)))(allow b p SET)(allow c p (file (read)))", "b p"),
    ("a name with a dot before it", "(allow .a .p (.property_service (set)))", "a p"),
    ("a rule of another class, over names that nothing declares", "(allow none no (file (read)))", ""),
    ("statements that say nothing of it", "(typebounds a b) (roletransition r p file r) (mlsconstrain (file (read)) (eq l1 l2)) (policycap x)", ""),
    ("bytes that are no UTF-8, in comments and quotes", {VENDOR: b'; \xff\xfe\n(genfscon proc "/\xff" (u r p ((s0) (s0))))\n(allow a p (property_service (set)))'}, "a p"),
    ("200 parentheses", of("(" * 199 + "a" + ")" * 199), "a p"),
    ("200, with blocks", "(optional o " * 197 + "(allow a p SET)" + ")" * 197, "a p"),
]

LONG = [
    ("aliases of aliases", "(typealias x0)(typealiasactual x0 a)" + "".join(f"(typealias x{it})(typealiasactual x{it} x{it - 1})" for it in range(1, 5000)) + "(allow x4999 p SET)", "a p"),
    ("attributes of attributes", "(typeattribute x0)(typeattributeset x0 a)" + "".join(f"(typeattribute x{it})(typeattributeset x{it} (x{it - 1}))" for it in range(1, 5000)) + "(allow x4999 p SET)", "a p"),
    ("blocks that need each other, the last one none", "".join(f"(optional o{it} (type x{it}) (allow x{it + 1} p SET))" for it in range(5000)), ""),
    ("classpermissions of classpermissions", "(classpermission x0)(classpermissionset x0 SET)" + "".join(f"(classpermission x{it})(classpermissionset x{it} x{it - 1})" for it in range(1, 5000)) + "(allow a p x4999)", "a p"),
]

# One pair of each file, by a domain that is called as the file.
NAMES = {
    "plat": PLATFORM,
    "map": MAPPING,
    "compat": f"/system/{ETC}/mapping/33.0.compat.cil",
    "ext": f"/system_ext/{ETC}/system_ext_sepolicy.cil",
    "extmap": f"/system_ext/{ETC}/mapping/33.0.cil",
    "extcompat": f"/system_ext/{ETC}/mapping/33.0.compat.cil",
    "product": f"/product/{ETC}/product_sepolicy.cil",
    "productmap": f"/product/{ETC}/mapping/33.0.cil",
    "pub": VERSIONED,
    "vendor": VENDOR,
    "odm": ODM,
}
ALL_FILES = {path: (PLAT if name == "plat" else "") + f"(type {name}) (allow {name} p SET)\n" for name, path in NAMES.items()}
OTHERS = {it.replace("33.0", "32.0"): "(type other) (allow other p SET)" for it in NAMES.values() if "33.0" in it}

FILES = [
    ("each file", ALL_FILES, ",".join(f"{it} p" for it in sorted(NAMES))),
    ("mappings of another version", {**OTHERS, VENDOR: "(allow a p SET)"}, "a p"),
    ("the file of Android 8", {VENDOR: None, VERSIONED: "(allow b p SET)", NONPLAT: "(allow a p SET)"}, "a p"),
    ("that file beside the two", {VENDOR: "(allow b p SET)", NONPLAT: "(allow a p SET)"}, "b p"),
    ("the first line of the version", {VERSION: "33.0\r\n32.0\n", MAPPING: "(allow a p SET)"}, "a p"),
    ("a link, as on the device", {MAPPING: ("/system_ext/map.cil",), "/system_ext/map.cil": "(allow a p SET)"}, "a p"),
    ("a product without CIL", {PLATFORM: None}, "no policy"),
]

SUM, PRECOMPILED = f"/system/{ETC}/plat_sepolicy_and_mapping.sha256", f"/vendor/{ETC}/precompiled_sepolicy"
ITS_SUM = f"{PRECOMPILED}.plat_sepolicy_and_mapping.sha256"
EXT_SUM, ITS_EXT_SUM = (it.replace("/system/", "/system_ext/").replace("plat_", "system_ext_") for it in (SUM, ITS_SUM))
OLD_SUM, ITS_OLD_SUM = f"/system/{ETC}/plat_and_mapping_sepolicy.cil.sha256", f"{PRECOMPILED}.plat_and_mapping.sha256"
ODM_PRECOMPILED = PRECOMPILED.replace("/vendor/", "/odm/")
NOTHING = "took: 4 files of CIL: 0 allowed pairs"
MANY = [f"{kind}{number:03}" for kind in "dp" for number in range(300)]


def differ(path, own, its):
    return f"left: {path}: {own} and {its} differ, so a device compiles the CIL"


# What is told, the files, the words of the call, and the lines of standard output on the policy.
TOLD = [
    ("no rule", {}, (), [NOTHING]),
    (
        "permissive domains",
        {VENDOR: "(typealias x) (typealiasactual x b)\n(typepermissive x)\n(typepermissive a)\n(allow a p SET)"},
        (),
        ["took: 4 files of CIL: 1 allowed pair"]
        + [f"left: {VENDOR}:{line}: {it} is permissive, so a device lets it set anything; here it may set what its rules allow" for it, line in (("a", 3), ("b", 2))],
    ),
    (
        "an alias in the contexts",
        {CONTEXTS: "x. u:object_r:old:s0\ny. u:object_r:q:s0\n", VENDOR: "(typealias old) (typealiasactual old p)"},
        (),
        [f"left: {CONTEXTS}:1: old is an alias in the policy, and its type p is taken", NOTHING],
    ),
    (
        "a property_allow that is too large",
        {VENDOR: "\n".join(f"(type {it})" for it in MANY) + f"(typeattributeset some ({' '.join(MANY[300:])})) (typeattribute ds) (typeattributeset ds ({' '.join(MANY[:300])})) (allow ds some SET)"},
        (),
        # (90,000 lines of 16 bytes, and the first one of 68)
        ["took: 4 files of CIL: 90000 allowed pairs", "lacks: property_allow: it has 1440068 bytes, and initsim refuses more than 1048576"],
    ),
    ("sums that are the same", {PRECOMPILED: "x", SUM: "12\n", ITS_SUM: "12\n"}, (), [NOTHING]),
    ("no sums", {PRECOMPILED: "x"}, (), [NOTHING]),
    ("sums that differ", {PRECOMPILED: "x", SUM: "12\n", ITS_SUM: "13\n"}, (), [NOTHING, differ(PRECOMPILED, SUM, ITS_SUM)]),
    ("empty sums", {PRECOMPILED: "x", SUM: "", ITS_SUM: ""}, (), [NOTHING, differ(PRECOMPILED, SUM, ITS_SUM)]),
    ("a sum that isn't there", {PRECOMPILED: "x", SUM: "12\n"}, (), [NOTHING, differ(PRECOMPILED, SUM, ITS_SUM)]),
    (
        "sums of another partition",
        {PRECOMPILED: "x", SUM: "12\n", ITS_SUM: "12\n", EXT_SUM: "1\n", ITS_EXT_SUM: "2\n"},
        (),
        [NOTHING, differ(PRECOMPILED, EXT_SUM, ITS_EXT_SUM)],
    ),
    ("sums of Android 8", {PRECOMPILED: "x", OLD_SUM: "1\n", ITS_OLD_SUM: "2\n"}, (), [NOTHING, differ(PRECOMPILED, OLD_SUM, ITS_OLD_SUM)]),
    (
        "the policy of odm comes first",
        {PRECOMPILED: "x", SUM: "12\n", ITS_SUM: "12\n", ODM_PRECOMPILED: "x"},
        (),
        [NOTHING, differ(ODM_PRECOMPILED, SUM, ITS_SUM.replace("/vendor/", "/odm/"))],
    ),
    ("CIL before the compiled policy", {PRECOMPILED: "x", VENDOR: "(allow a p SET)"}, (), ["took: 4 files of CIL: 1 allowed pair"]),
    ("the compiled policy, without CIL", {PRECOMPILED: "x", PLATFORM: None}, (), [f"took: {PRECOMPILED}: 1 allowed pair"]),
    ("a file that is given before CIL", {VENDOR: ")", "/asked": "allow a p:property_service set;\n"}, ("--sesearch", "out/asked"), ["took: out/asked: 1 allowed pair"]),
    (
        "no policy",
        {PLATFORM: None},
        (),
        ["lacks: property_allow: OUT has no policy, as CIL or compiled. No client may set anything; give the rules by --sesearch FILE"],
    ),
]

# What is told, the vendor's policy, and the line that refuses it.
BAD_LINES = [
    ("a parenthesis that isn't closed", "(type d)\n\n(allow d p (property_service (set))\n(type e)\n", "3: the parenthesis of (allow d p isn't closed"),
    ("an attribute's", "(typeattributeset some\n(a", "1: the parenthesis of (typeattributeset some isn't closed"),
    ("a file that is cut off", "(type d)\n(allow d", "2: the parenthesis of (allow d isn't closed"),
    ("a block that isn't closed", "(type d)\n(optional o\n(allow d p SET)\n(optional i\n(type e)", "2: the parenthesis of (optional o isn't closed"),
    ("one missing in a block", "(optional o\n(allow a p SET\n(allow b p SET))\n", "2: allow: 3 parts are expected, 4 given"),
    ("one too many", "(type d)\n(allow d p SET))\n(type e)", "2: there is one ) too many"),
    ("a word alone", "(type d)\ntype e", "2: type stands in no parentheses"),
    ("a quote alone", '"type"', "1: type stands in no parentheses"),
    ("a domain that nothing declares", "(type d)\n(allow none p SET)", "2: none is declared nowhere"),
    ("a label", "(allow a\nnone SET)", "1: none is declared nowhere"),
    ("a rule of another kind", "\n(neverallow a none SET)", "2: none is declared nowhere"),
    ("a name of a set", "\n(typeattributeset some (a (not (none))))", "2: none is declared nowhere"),
    ("an attribute of a set", "\n(typeattributeset none (a))", "2: none is declared nowhere"),
    ("a permission", "(allow a p (property_service (get)))", "1: property_service has no permission get"),
    ("a classpermission", "(allow a p none)", "1: none is declared nowhere"),
    ("a classpermission of nothing", "(classpermission k)\n(allow a p k)", "2: k is given no permission"),
    ("a class map of nothing", "(classmap m (x))\n(allow a p (m (x)))", "2: m x is given no permission"),
    ("a mapping to no class map", "(classmapping file read SET)", "1: read is no permission of a class map file"),
    ("permissions of themselves", "(classpermission k)\n(classmap m (x)) (classmapping m x k)\n(classpermissionset k (m (x)))\n(allow a p k)", "3: k is made of itself"),
    ("a name of a block that is dropped", "(optional o (type d) (roletype none d))\n(allow d p SET)", "2: d is declared nowhere"),
    ("a type that is an attribute", "(type some)", f"1: type some is declared already, as a typeattribute, at {PLATFORM}:7"),
    ("an attribute that is a type", "(typeattribute a)", f"1: typeattribute a is declared already, as a type, at {PLATFORM}:6"),
    ("an alias that is a type", "\n(typealias a)", f"2: typealias a is declared already, as a type, at {PLATFORM}:6"),
    ("an alias twice", "(typealias x)\n(typealias x)\n(typealiasactual x a)", f"2: typealias x is declared already, as a typealias, at {VENDOR}:1"),
    ("a class twice", "(class file (read))", f"1: class file is declared already, as a class, at {PLATFORM}:2"),
    ("a set of a type", "(typeattributeset a (b))", "1: a is a type, and no attribute"),
    ("a permissive attribute", "(typepermissive both)", "1: both is an attribute, and no domain"),
    ("an attribute made of itself", "(typeattributeset some (a))\n(typeattributeset some (not (some)))\n(typeattributeset some (b))", "2: some is made of itself"),
    ("one by another", "(typeattribute x)\n(typeattributeset some (x))\n(typeattributeset x (and (all) some))", "2: some is made of itself"),
    ("an alias of itself", "(typealias x)\n(typealiasactual x x)", "2: x is an alias of itself"),
    ("an alias of nothing", "(typealias x)", "1: x is an alias of nothing"),
    ("an alias of two", "(typealias x)\n(typealiasactual x a)\n(typealiasactual x b)", f"3: x is an alias already, by {VENDOR}:2"),
    ("an alias of an attribute", "(typealias x)\n(typealiasactual x both)", "2: both is an attribute, and x would be its alias"),
    ("no alias", "(typealiasactual a b)", "1: a is no alias"),
    ("three operands", of("(and a b c)"), "1: typeattributeset: and has 3 operands, not 2"),
    ("one operand", of("(xor a)"), "1: typeattributeset: xor has 1 operand, not 2"),
    ("an operator among names", of("(a not b)"), "1: typeattributeset: not stands for no name there"),
    ("another operator", of("(eq a b)"), "1: typeattributeset: eq isn't for a set of names"),
    ("no members", of("(a ())"), "1: typeattributeset: () is no set"),
    ("two sets in one", "(typeattributeset some (a) (b))", "1: typeattributeset: 2 parts are expected, 3 given"),
    ("permissions without parentheses", "(allow a p (property_service set))", "1: allow: a class and a list of permissions are expected, (property_service set) is given"),
    ("a domain in parentheses", "(allow (a) p SET)", "1: allow: a word is expected, (a) is given"),
    ("a type without a name", "(type)", "1: type: 1 part is expected, 0 given"),
    ("a name with a digit before it", "(type 1d)", "1: type: 1d is no name"),
    ("a name that is an operator", "(type all)", "1: type: all is no name"),
    ("a name with another sign", "(type d$)", "1: type: d$ is no name"),
    ("permissions that are no list", "(class d (a (b)))", "1: class: a list of words is expected, (a (b)) is given"),
    ("a role without a name", "(role)", "1: role: a name is expected"),
    ("a sid without a name", "(sid (x))", "1: sid: a name is expected"),
    ("a block without a name", "(optional)", "1: optional: the name of the block is expected"),
    ("a block of another name", "(optional 1 (type d))", "1: 1 is no name"),
    ("no keyword", "\n((type d))", "2: a statement begins with a word"),
    ("nothing", "()", "1: a statement begins with a word"),
    *((it, f"\n({it} x (type d))", f"2: {it} isn't supported") for it in ("block", "in", "macro", "call", "tunableif", "booleanif", "deny", "blockinherit", "alow")),
    ("a macro in a block", "(optional o\n(macro m ()))", "2: macro isn't supported"),
    ("a class in a block", "(optional o (class k (x)))", "1: class isn't supported in an optional block"),
    ("a constraint in a block", "(optional o (mlsconstrain (file (read)) (eq l1 l2)))", "1: mlsconstrain isn't supported in an optional block"),
    ("201 parentheses", "\n" + of("(" * 200 + "a" + ")" * 200), "2: more than 200 parentheses are nested"),
    ("201, with blocks", "(optional o " * 198 + "(allow a p SET)" + ")" * 198, "1: more than 200 parentheses are nested"),
]

BAD_BYTES = [
    ("a byte in a name", b"(type d)\n(type e\x01)", "2: the byte 0x01 stands outside of comments and quotes"),
    ("a byte in a rule of another class", b"(allow a\x0b p (file (read)))", "1: the byte 0x0b stands outside of comments and quotes"),
    ("a letter that isn't ASCII", "(type d)\n(type \u00e9)".encode(), "2: the byte 0xc3 stands outside of comments and quotes"),
    ("a zero byte", b"(type d)\0", "1: the byte 0x00 stands outside of comments and quotes"),
    ("UTF-16", "(type d)\n".encode("utf-16"), "1: the byte 0xff stands outside of comments and quotes"),
    ("UTF-16 without a mark", "(type d)\n".encode("utf-16-le"), "1: the byte 0x00 stands outside of comments and quotes"),
    ("random bytes", bytes.fromhex("8f3a90c2 0a28 77"), "1: the byte 0x8f stands outside of comments and quotes"),
    ("a quote that isn't closed", b'(type d)\n(genfscon proc "/x\n(u r p))', "2: the quote isn't closed in its line"),
    ("a name of bytes in quotes", b'(type "d\xff")', "1: type: d\\xff is no name"),
]

BAD_FILES = [
    ("no mapping", {MAPPING: None}, f"{VERSION}:1: a policy of version 33.0 needs {MAPPING}, which isn't there"),
    ("no mapping of that version", {VERSION: "34.0"}, f"{VERSION}:1: a policy of version 34.0 needs {MAPPING.replace('33', '34')}, which isn't there"),
    ("no file of the vendor", {VENDOR: None}, f"{VERSION}:1: a policy of version 33.0 needs {VENDOR} or {NONPLAT}, and neither is there"),
    ("no versioned file", {VERSIONED: None}, f"{VERSION}:1: a policy of version 33.0 needs {VERSIONED}, which isn't there"),
    ("no version", {VERSION: None}, f"{PLATFORM}:1: it needs {VERSION}, which isn't there"),
    ("an empty version", {VERSION: "\n33.0"}, f'{VERSION}:1: a version as 33.0 is expected, "" is given'),
    ("a version that is a path", {VERSION: "../33.0\n"}, f'{VERSION}:1: a version as 33.0 is expected, "../33.0" is given'),
    ("an empty platform", {PLATFORM: ""}, f"{PLATFORM}:1: class property_service is declared nowhere"),
    ("a folder for a file", {ODM: ()}, f"out{ODM}: it is no plain file"),
    ("a fault in another file", {MAPPING: "\n\n(type d", VENDOR: ")"}, f"{MAPPING}:3: the parenthesis of (type d isn't closed"),
]
