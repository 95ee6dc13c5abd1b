"""Who may set what, by the product's policy."""
import itertools
import re
import shutil
import subprocess

from product.cil.files import differing_sum
from product.device import read_plain
from product.texts import BAD_GIVEN, Stop, bytes_of, counted, text_of

# The compiled policy, in the order in which init looks for it.
POLICIES = ("/odm/etc/selinux/precompiled_sepolicy", "/vendor/etc/selinux/precompiled_sepolicy", "/sepolicy")
POLICY_SECONDS = 600
# The most bytes of property_allow that initsim reads.
MOST_ALLOW_BYTES = 1_048_576



RULE = re.compile(r"allow\s+(\S+)\s+([^\s:]+):property_service\s+(?:set|\{[^}]*\bset\b[^}]*\})\s*;.*")
OWN_RULE = re.compile(r"allow\s+(\S+)\s+([^\s:;]+)")
NO_TYPES = "<empty attribute>"
ATTRIBUTE = re.compile(r"\s*attribute\s+([^\s;]+);")


def rules_in(text):
    """The pairs of domains and labels that sesearch wrote, and the types of each attribute that seinfo wrote."""
    rules, attributes, members = [], {}, None
    for line in text.splitlines():
        named, rule = ATTRIBUTE.fullmatch(line), RULE.fullmatch(line.strip()) or OWN_RULE.fullmatch(line.strip())
        if named:
            members = attributes.setdefault(named[1], [])
        elif rule:
            rules.append((rule[1], rule[2]))
        elif line.startswith("\t") and members is not None:
            members += [line.strip()] if line.strip() != NO_TYPES else []
        else:
            members = None
    return rules, attributes


def pairs_in(text):
    """The pairs of domains and labels that sesearch wrote, with a pair for each type of an attribute."""
    rules, attributes = rules_in(text)
    pairs = set()
    for domain, label in rules:
        pairs.update(itertools.product(attributes.get(domain, [domain]), attributes.get(label, [label])))
    return sorted(pairs)


def ask_policy(policy):
    """What the setools write of a compiled policy, and why they don't."""
    written = ""
    for words in (["sesearch", "--allow", "-c", "property_service", "-p", "set", policy], ["seinfo", "-a", "-x", policy]):
        try:
            ran = subprocess.run(words, stdin=subprocess.DEVNULL, capture_output=True, timeout=POLICY_SECONDS)
        except (OSError, subprocess.SubprocessError) as why:
            return None, f"{words[0]} can't be run: {why}"
        if ran.returncode:
            said = ran.stderr.decode("utf-8", "replace").strip().splitlines()
            return None, f"{words[0]} ended with status {ran.returncode}: {said[-1] if said else 'it said nothing'}"
        written += text_of(ran.stdout)
    return written, None


def find_rules(device, given, report):
    """What sesearch and seinfo wrote, and its name; None where nobody asked them."""
    if given:
        return text_of(read_plain(given, BAD_GIVEN)), given
    path = next((it for it in POLICIES if device.follow(it)), None)
    if path is None:
        why = "OUT has no policy, as CIL or compiled. No client may set anything; give the rules by --sesearch FILE"
        report.lacks(f"property_allow: {why}", trips=True)
        return None, None
    if shutil.which("sesearch") is None:
        report.lacks(
            "property_allow: sesearch isn't installed (setools has it). No client may set anything; "
            f"ask it about {path} elsewhere, and give what it writes by --sesearch FILE"
        )
        return None, None
    text, why = ask_policy(device.follow(path))
    if why:
        report.lacks(f"property_allow: {why}. No client may set anything")
    return text, path


def tell_split(device, policy, report):
    """Says where a device does something else than its policy's rules say."""
    for domain, place in policy.permissive:
        report.left(f"{place}: {domain} is permissive, so a device lets it set anything; here it may set what its rules allow")
    differing = differing_sum(device)
    if differing:
        path, own, its = differing
        report.left(f"{path}: {own} and {its} differ, so a device compiles the CIL")


def allow_text(pairs, report):
    """The text of property_allow."""
    lines = ["# Made by take-product from the product's policy: who may set what.", *(f"allow {domain} {label}" for domain, label in pairs)]
    text = "".join(f"{it}\n" for it in lines)
    size = len(bytes_of(text))
    if size > MOST_ALLOW_BYTES:
        report.lacks(f"property_allow: it has {size} bytes, and initsim refuses more than {MOST_ALLOW_BYTES}")
    return text


def take_rules(device, given, policy, report):
    """The text of property_allow, of the file that is given, else of the policy that was read as text, else of the compiled one; None where
    nothing is known."""
    if policy:
        pairs, source = policy.pairs, f"{counted(policy.files, 'file', 'files')} of CIL"
    else:
        text, source = find_rules(device, given, report)
        if text is None:
            return None
        pairs = pairs_in(text)
    if given and not pairs:
        raise Stop(BAD_GIVEN, f"{given}: it has no line of sesearch's, as in: allow shell shell_prop:property_service set;")
    report.took(f"{source}: {counted(len(pairs), 'allowed pair', 'allowed pairs')}")
    if policy:
        tell_split(device, policy, report)
    return allow_text(pairs, report)
