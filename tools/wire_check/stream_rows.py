"""The form itself, as a client of a pipe meets it: what needs pieces, time or more bytes than a row of examples/rows can store."""
import array
import fcntl
import os
import subprocess
import termios

from wire_check.served import SECONDS, is_silent, wait_for
from wire_check.spelling import ACCEPTED, BAD_COMMAND, BAD_LENGTH, BAD_NAME, BAD_VALUE, READ_ONLY, one, two, word, words

MOST_STREAM = 16_777_216
OK, READ_FAULT, WRITE_FAULT, NO_INIT, TOO_LARGE, BAD_POLICY, BAD_WIRE = 0, 2, 3, 6, 7, 8, 11
# 14 and 17 bytes
TWO_MESSAGES = two(b"a") + two(b"a..b")
# (what, the stream, what is written, the status, the line of it, what stands at the end of the second line)
STREAMS = [
    ("no message", b"", b"", OK, None, None),
    ("form two", TWO_MESSAGES, words(ACCEPTED, BAD_NAME), OK, None, None),
    ("a bad command", TWO_MESSAGES + word(5), words(ACCEPTED, BAD_NAME, BAD_COMMAND), BAD_WIRE, "bad message at 31", "command 00000005"),
    ("what follows it", two(b"a") + word(0) + two(b"b"), words(ACCEPTED, BAD_COMMAND), BAD_WIRE, "bad message at 14", "command 00000000"),
    ("a bad length of a name", two(b"a") + b"\1\0\2\0\1\4\0\0", words(ACCEPTED, BAD_LENGTH), BAD_WIRE, "bad message at 14", "name of 1025 bytes"),
    ("a bad length of a value", b"\1\0\2\0\1\0\0\0a\1\x20\0\0", word(BAD_LENGTH), BAD_WIRE, "bad message at 0", "value of 8193 bytes"),
    ("the longest length", b"\1\0\2\0\xff\xff\xff\xff", word(BAD_LENGTH), BAD_WIRE, "bad message at 0", "name of 4294967295 bytes"),
    ("form one", one(b"a", b"2"), b"", OK, None, None),
    ("form one, cut", one(b"a", b"2")[:127], b"", BAD_WIRE, "bad message at 0", "ends within a message"),
    ("form one sets", one(b"ro.a", b"2") + two(b"ro.a"), word(READ_ONLY), OK, None, None),
    ("three bytes of a bad command", two(b"a") + b"\5\0\0", word(ACCEPTED), BAD_WIRE, "bad message at 14", "ends within a message"),
    ("three bytes of a bad length", two(b"a") + b"\1\0\2\0\xff\xff\xff", word(ACCEPTED), BAD_WIRE, "bad message at 14", "ends within a message"),
    ("a cut value", two(b"a") + two(b"b")[:-1], word(ACCEPTED), BAD_WIRE, "bad message at 14", "ends within a message"),
]


def put(check, content):
    path = os.path.join(check.room, "messages")
    with open(path, "wb") as file:
        file.write(content)
    return path


def ran(check, root, messages, given=None, stdout=subprocess.PIPE):
    """What the program writes, its status, and the lines on standard error. What is given comes through a pipe."""
    how = {"stdin": subprocess.DEVNULL} if given is None else {"input": given}
    ended = subprocess.run([check.judge, "wire", root, messages], stdout=stdout, stderr=subprocess.PIPE, timeout=SECONDS, **how)
    return ended.stdout, ended.returncode, ended.stderr.decode().splitlines()


def expect(check, what, got, written, status, line, end):
    """Holds what came of a stream. Of the second line only the end is asked, since its front is a path."""
    out, ended, lines = got
    check.expect(f"{what}: what is written", written, out)
    check.expect(f"{what}: the status", status, ended)
    check.expect(f"{what}: the line", [f"initsim: {line}"] if line else [], lines[:1])
    if end:
        check.expect(f"{what}: the second line", (True, end), (len(lines) == 2, lines[-1][-len(end) :]))


def check_stream(check):
    root = check.tree()
    for what, stream, *wanted in STREAMS:
        expect(check, f"{what}, by a file", ran(check, root, put(check, stream)), *wanted)
        expect(check, f"{what}, by a pipe", ran(check, root, "/dev/stdin", given=stream), *wanted)
    absent = os.path.join(check.room, "absent")
    expect(check, "no such file", ran(check, root, absent), b"", READ_FAULT, "read fault", "No such file or directory")
    bad = check.tree("bad-policy", property_contexts="a b\n")
    expect(check, "a bad policy comes first", ran(check, bad, absent), b"", BAD_POLICY, "bad contexts line 2", "no line for *")
    bad = check.tree("no-init", **{"system/etc/init/hw/init.rc": None})
    expect(check, "so does a missing root file", ran(check, bad, absent), b"", NO_INIT, "no init.rc", "No such file or directory")
    check_closed_output(check, root)


def check_closed_output(check, root):
    """Nobody reads the replies."""
    reader, writer = os.pipe()
    os.close(reader)
    got = ran(check, root, put(check, TWO_MESSAGES), stdout=writer)
    os.close(writer)
    expect(check, "closed output", got, None, WRITE_FAULT, "write fault", "Broken pipe")


# ---- pieces


class Piped:
    """A call that reads a pipe, into which pieces are written one by one."""

    def __init__(self, check, root):
        how = {"stdin": subprocess.PIPE, "stdout": subprocess.PIPE, "stderr": subprocess.PIPE, "bufsize": 0}
        self.program = subprocess.Popen([check.judge, "wire", root, "/dev/stdin"], **how)

    def __enter__(self):
        return self

    def __exit__(self, *_):
        self.program.kill()
        self.program.wait()
        for it in (self.program.stdin, self.program.stdout, self.program.stderr):
            it.close()

    def give(self, piece):
        """Writes a piece, and waits until it is read."""
        self.program.stdin.write(piece)
        return wait_for(lambda: waiting_in(self.program.stdin) == 0)

    def get(self, size):
        """So many bytes of output."""
        got = b""
        while len(got) < size and (piece := self.program.stdout.read(size - len(got))):
            got += piece
        return got


def waiting_in(pipe):
    """How many bytes of a pipe nobody has read."""
    count = array.array("i", [0])
    fcntl.ioctl(pipe, termios.FIONREAD, count)
    return count[0]


def check_pieces(check):
    root = check.tree()
    with Piped(check, root) as call:
        check.expect("each reply comes before more is sent", [word(BAD_NAME), word(ACCEPTED)] * 20, asked_in_turns(call))
        for cut in range(1, len(TWO_MESSAGES)):
            pieces = TWO_MESSAGES[:cut], TWO_MESSAGES[cut:]
            read = [call.give(it) for it in pieces]
            check.expect(f"a stream cut at {cut}", ([True, True], words(ACCEPTED, BAD_NAME)), (read, call.get(8)))
        for at in range(len(TWO_MESSAGES)):
            call.give(TWO_MESSAGES[at : at + 1])
        check.expect("byte by byte", words(ACCEPTED, BAD_NAME), call.get(8))
        call.give(two(b"a")[:-1])
        check.expect("no reply comes before the last byte", True, is_silent(call.program.stdout))
        call.give(two(b"a")[-1:] + one(b"ro.one", b"1")[:1])
        check.expect("and then one", word(ACCEPTED), call.get(4))
        call.give(one(b"ro.one", b"1")[1:])
        check.expect("form one gets none", True, is_silent(call.program.stdout))
        call.give(two(b"ro.one"))
        check.expect("and is set", word(READ_ONLY), call.get(4))
    for cut in range(1, 4):
        with Piped(check, root) as call:
            stream = TWO_MESSAGES + word(5)
            read = [call.give(it) for it in (stream[: 31 + cut], stream[31 + cut :])]
            got = call.get(12), call.program.stdout.read(), call.program.wait(SECONDS)
            check.expect(f"a bad command cut at {cut}", (True, (words(ACCEPTED, BAD_NAME, BAD_COMMAND), b"", BAD_WIRE)), (read[0], got))


def asked_in_turns(call):
    """The replies to messages, each of which is sent when the reply before is there."""
    got = []
    for message in [two(b"a..b"), two(b"a")] * 20:
        call.program.stdin.write(message)
        got.append(call.get(4))
    return got


# ---- the limit


def check_limit(check):
    """A message of 8,192 bytes has a value of 8,179, which is too long; 2,048 such messages are the longest stream."""
    root = check.tree()
    message = two(b"a", 8179 * b"v")
    replies = word(BAD_VALUE) * (MOST_STREAM // len(message))
    check.expect("the longest stream", (8192, 2048), (len(message), len(replies) // 4))
    whole = message * 2048
    cut = message * 2047 + two(b"a", 8180 * b"v")[:8192]
    large = f"too large {MOST_STREAM + 1}"
    for what, stream, *wanted in (
        ("16,777,216 bytes", whole, replies, OK, None, None),
        ("and one more", whole + b"\1", replies, TOO_LARGE, large, None),
        ("and one more message", whole + message, replies, TOO_LARGE, large, None),
        ("and a bad command", whole + word(5), replies, TOO_LARGE, large, None),
        ("16,777,216 bytes that end within a message", cut, replies[4:], BAD_WIRE, f"bad message at {MOST_STREAM - 8192}", None),
        ("and one more, which ends it", cut + b"v", replies[4:], TOO_LARGE, large, None),
        ("a bad command before", message + word(5) + whole, word(BAD_VALUE) + word(BAD_COMMAND), BAD_WIRE, "bad message at 8192", None),
    ):
        expect(check, f"{what}, by a file", ran(check, root, put(check, stream)), *wanted)
        expect(check, f"{what}, by a pipe", ran(check, root, "/dev/stdin", given=stream), *wanted)
