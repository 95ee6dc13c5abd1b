"""The tests that the pages show, and what they say comes of them."""
import os

from boot_check.edits import Edit, apply, copy, pecan, without_notes

DELETED = Edit("a start is deleted", "/system/etc/init/odsign.rc", "    start odsign\n", "")


def blocks_of(check, page, head):
    """The blocks of code after a heading of a page, up to the next one."""
    with open(os.path.join(check.top, page), encoding="utf-8") as file:
        section = file.read().split(f"\n{head}\n", 1)[1].split("\n## ", 1)[0]
    blocks = [[]]
    for line in section.split("\n"):
        if line.startswith("    ") or line == "" and blocks[-1]:
            blocks[-1].append(line[4:])
        elif blocks[-1]:
            blocks.append([])
    return ["\n".join(it).strip("\n") for it in blocks if it]


def check_pages(check):
    """Each test passes for the product, and says what its page shows if a start is deleted."""
    root = pecan(check)
    broken = copy(check, root, "edited")
    apply(broken, DELETED)
    for page, head in (("README.md", "## A boot test"), ("docs/BOOT-TESTS.md", "## A first test")):
        test, wanted = blocks_of(check, page, head)
        check.expect(f"the test of {page}", [], check.said(root, test))
        line = next(iter(check.said(broken, test)), "").replace("t:", "boot.test:", 1)
        check.expect(f"what {page} shows", wanted.replace("\n", " "), line)
    (crash,) = blocks_of(check, "docs/BOOT-TESTS.md", "## A crash")
    check.expect("the crash of docs/BOOT-TESTS.md", [], without_notes(check.said(root, crash)))
    check.expect("the README's test has six lines", 6, len(blocks_of(check, "README.md", "## A boot test")[0].split("\n")))
