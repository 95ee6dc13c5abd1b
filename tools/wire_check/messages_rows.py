"""tools/messages: its bytes by the table of docs/WIRE.md, and each refusal."""
import os
import subprocess

from wire_check.spelling import word

TOOL = os.path.join(os.path.dirname(os.path.dirname(os.path.abspath(__file__))), "messages")
SECONDS = 60
USAGE = "usage: messages [--form one|two] [FILE] | --replies [FILE]"
ONE = ("--form", "one")
# (what, the words, the lines, the bytes)
SPELLED = [
    ("form two", (), b"set a 1\n", b"\1\0\2\0" b"\1\0\0\0a" b"\1\0\0\x001"),
    ("form two by its name", ("--form", "two"), b"set ab \n".replace(b" \n", b" 123\n"), b"\1\0\2\0" b"\2\0\0\0ab" b"\3\0\0\x00123"),
    ("form one", ONE, b"set a 2\n", b"\1\0\0\0a" + 31 * b"\0" + b"2" + 91 * b"\0"),
    ("a last line without LF", (), b"set a 1", b"\1\0\2\0\1\0\0\0a\1\0\0\x001"),
    ("lines that say nothing", (), b"\n# set b 2\n \t\n  #x\n\tset  a\t1 \n", b"\1\0\2\0\1\0\0\0a\1\0\0\x001"),
    ("two lines", (), b"set a 1\nset b 2\n", b"\1\0\2\0\1\0\0\0a\1\0\0\x001" b"\1\0\2\0\1\0\0\0b\1\0\0\x002"),
    ("empty texts", (), b"set % %\n", b"\1\0\2\0" b"\0\0\0\0" b"\0\0\0\0"),
    ("empty texts in form one", ONE, b"set % %\n", b"\1\0\0\0" + 124 * b"\0"),
    ("bytes in q form", (), b"set a%00%20%FF %25%0A\n", b"\1\0\2\0" b"\4\0\0\0a\0 \xff" b"\2\0\0\0%\n"),
    ("a length of two bytes", (), b"set a " + 300 * b"x" + b"\n", b"\1\0\2\0\1\0\0\0a\x2c\1\0\0" + 300 * b"x"),
    ("the longest texts", (), b"set %s %s\n" % (1024 * b"n", 8192 * b"v"), b"\1\0\2\0\0\4\0\0" + 1024 * b"n" + b"\0\x20\0\0" + 8192 * b"v"),
    ("the longest texts in form one", ONE, b"set %s %s\n" % (31 * b"n", 91 * b"v"), b"\1\0\0\0" + 31 * b"n" + b"\0" + 91 * b"v" + b"\0"),
    ("nothing", (), b"", b""),
]
# (what, the words, the lines, what is written, what is said)
BAD = [
    ("another word", (), b"set a 1\nget a\n", b"\1\0\2\0\1\0\0\0a\1\0\0\x001", 'f:2: set is expected, not "get"'),
    ("one word less", (), b"set a\n", b"", 'f:1: "set" takes 2 words, and 1 is given'),
    ("no word", (), b"\nset\n", b"", 'f:2: "set" takes 2 words, and none is given'),
    ("a word more", (), b"set a 1 2\n", b"", 'f:1: "set" takes 2 words, and 3 are given'),
    ("a byte that isn't spelled", (), b"set a \xff\n", b"", 'f:1: a text in q form is expected, not "\\xff"'),
    ("a carriage return", (), b"set a 1\r\n", b"", 'f:1: a text in q form is expected, not "1\\r"'),
    ("a letter that is spelled", (), b"set %61 1\n", b"", 'f:1: a text in q form is expected, not "%61"'),
    ("lower-case digits", (), b"set a%0a 1\n", b"", 'f:1: a text in q form is expected, not "a%0a"'),
    ("a lone %", (), b"set a%b 1\n", b"", 'f:1: a text in q form is expected, not "a%b"'),
    ("a long word", (), b"set a %" + 100 * b"x", b"", f'f:1: a text in q form is expected, not "%{61 * "x"}.."'),
    ("too long a name", (), b"set %s 1\n" % (1025 * b"n"), b"", "f:1: a name of form two has at most 1024 bytes, and 1025 are given"),
    ("too long a value", (), b"set a %s\n" % (8193 * b"v"), b"", "f:1: a value of form two has at most 8192 bytes, and 8193 are given"),
    ("a name that fills its field", ONE, b"set %s 1\n" % (32 * b"n"), b"", "f:1: a name of form one has at most 31 bytes, and 32 are given"),
    ("a value that fills its field", ONE, b"set a %s\n" % (92 * b"v"), b"", "f:1: a value of form one has at most 91 bytes, and 92 are given"),
    ("a zero byte in form one", ONE, b"set a%00b 1\n", b"", "f:1: the name has a zero byte, which ends a text of form one"),
    ("and in its value", ONE, b"set a 1%00\n", b"", "f:1: the value has a zero byte, which ends a text of form one"),
]
REPLIES = [
    (0x00, "0 accepted"),
    (0x0B, "0b ReadOnly"),
    (0x10, "10 InvalidName"),
    (0x14, "14 InvalidType, ValueTooLong or NotUtf8"),
    (0x18, "18 Denied"),
    (0x20, "20 UnknownControl or NoSuchService"),
    (0x24, "24 Down, AreaFull or NumberSpent"),
    (0x1B, "1b bad command"),
    (0x08, "08 bad length"),
    (0x01, "00000001 unknown"),
    (0x0B000000, "0b000000 unknown"),
]
# (what, the words, what is said)
USAGES = [
    ("another option", ("--form", "three"), f"argument --form: invalid choice: 'three' (choose from 'one', 'two'); {USAGE}"),
    ("a word more", ("f", "g"), f"unrecognized arguments: g; {USAGE}"),
    ("an empty word", ("",), f"FILE is empty; {USAGE}"),
    ("a form of replies", ("--replies", "--form", "one"), f"--form goes without --replies; {USAGE}"),
    ("a file that isn't there", ("absent",), "absent: No such file or directory"),
    ("a folder", ("/",), "/: Is a directory"),
]


def called(check, *words, given=b"", out=subprocess.PIPE):
    """What the tool writes, its status, and what it says."""
    ran = subprocess.run([TOOL, *words], cwd=check.room, input=given, stdout=out, stderr=subprocess.PIPE, timeout=SECONDS)
    return ran.stdout, ran.returncode, ran.stderr.decode()


def put(check, content):
    with open(os.path.join(check.room, "f"), "wb") as file:
        file.write(content)


def check_messages(check):
    for what, words, lines, wanted in SPELLED:
        put(check, lines)
        check.expect(f"messages: {what}", (wanted, 0, ""), called(check, *words, "f"))
    for what, words, lines, wanted, said in BAD:
        put(check, lines)
        check.expect(f"messages: {what}", (wanted, 1, f"messages: {said}\n"), called(check, *words, "f"))
    for what, words, said in USAGES:
        check.expect(f"messages: {what}", (b"", 2, f"messages: {said}\n"), called(check, *words))
    check.expect("messages: of standard input", (b"\1\0\2\0\1\0\0\0a\1\0\0\x001", 0, ""), called(check, given=b"set a 1\n"))
    said = 'messages: standard input:1: set is expected, not "x"\n'
    check.expect("messages: a bad line of standard input", (b"", 1, said), called(check, given=b"x\n"))
    with open("/dev/full", "wb") as full:
        said = "messages: standard output: No space left on device\n"
        check.expect("messages: output that is full", (None, 2, said), called(check, given=b"set a 1\n", out=full))
    check.expect("messages: its help", 0, called(check, "--help")[1])


def check_replies(check):
    given = b"".join(word(it) for it, _ in REPLIES)
    wanted = "".join(f"{line}\n" for _, line in REPLIES).encode()
    check.expect("replies: each", (wanted, 0, ""), called(check, "--replies", given=given))
    put(check, given)
    check.expect("replies: of a file", (wanted, 0, ""), called(check, "--replies", "f"))
    check.expect("replies: none", (b"", 0, ""), called(check, "--replies"))
    said = "messages: standard input: the last reply is cut: it has 3 of 4 bytes\n"
    check.expect("replies: a cut one", (b"0 accepted\n", 1, said), called(check, "--replies", given=b"\0\0\0\0\x0b\0\0"))


def check_pipe(check):
    """What has come is written before more is read, whatever pieces it comes in."""
    for what, words, steps in (
        ("messages", (), ((b"se", b""), (b"t a 1\n", b"\1\0\2\0\1\0\0\0a\1\0\0\x001"), (b"set b 2\ns", b"\1\0\2\0\1\0\0\0b\1\0\0\x002"))),
        ("replies", ("--replies",), ((b"\x0b\0", b""), (b"\0\0\0\0\0", b"0b ReadOnly\n"), (b"\0", b"0 accepted\n"))),
    ):
        how = {"stdin": subprocess.PIPE, "stdout": subprocess.PIPE, "stderr": subprocess.DEVNULL, "bufsize": 0}
        with subprocess.Popen([TOOL, *words], **how) as tool:
            for given, wanted in steps:
                tool.stdin.write(given)
                got = b""
                while len(got) < len(wanted):
                    got += tool.stdout.read(len(wanted) - len(got)) or b"(the end)"
                check.expect(f"{what}: in a pipe", wanted, got)
            tool.stdin.close()
