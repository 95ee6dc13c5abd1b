"""docs/WIRE.md: its table of replies, and what it says that the tools print."""
import os
import re
import subprocess

from wire_check.messages_rows import REPLIES, TOOL
from wire_check.served import SECONDS, SHELL_LINE
from wire_check.socket_rows import LIMIT

PAGE = os.path.join(os.path.dirname(TOOL), "../docs/WIRE.md")
MOST_WORDS = 400
REPLY = re.compile(r"\| `([0-9a-f]+)` \| ([^|:]*)(?:: [^|]*)? \|")
EXAMPLE = "$ printf 'set ro.x 1\\nset ro.x 2\\n' | tools/messages | ./initsim wire root /dev/stdin | tools/messages --replies"
PRINTED = (SHELL_LINE, f"property-socket: {LIMIT}", 'messages: standard input:2: "set" takes 2 words, and 1 is given')


def check_page(check):
    with open(PAGE) as file:
        lines = file.read().splitlines()
    prose = [it for it in lines if not it.startswith(("    ", "|"))]
    check.expect("WIRE.md: few enough words", True, sum(len(it.split()) for it in prose) <= MOST_WORDS)
    wanted = sorted(line for number, line in REPLIES if "unknown" not in line)
    check.expect("WIRE.md: its replies", wanted, sorted(" ".join(it.groups()) for it in map(REPLY.match, lines) if it))
    blocks = [it[4:] for it in lines if it.startswith("    ")]
    check.expect("WIRE.md: what is printed", [], [it for it in PRINTED if it not in blocks])
    at = blocks.index(f"{EXAMPLE}")
    check.expect("WIRE.md: its example", blocks[at + 1 : at + 3], run(check, EXAMPLE[2:]))


def run(check, line):
    """What the line of a shell writes, over the tree of the rows."""
    line = line.replace("tools/messages", TOOL).replace("./initsim", check.judge).replace(" root ", f" {check.tree()} ")
    return subprocess.run(line, shell=True, capture_output=True, text=True, timeout=SECONDS).stdout.splitlines()
