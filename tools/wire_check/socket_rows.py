"""tools/property-socket: what clients get, what is said at its begin and its end, and what it leaves."""
import os
import resource
import select
import signal
import socket
import subprocess
import sys
import threading
import time

from wire_check.clients import Trial, shown
from wire_check.served import SECONDS, SHELL_LINE, TOOL, Served, all_of, end_sending, exactly, is_alive, is_silent, wait_for
from wire_check.spelling import ACCEPTED, BAD_COMMAND, BAD_LENGTH, BAD_NAME, BAD_VALUE, DENIED, NO_CONTROL, READ_ONLY, one, two, word, words

FORM = "usage: property-socket ROOT SOCKET [--domain D] [--program PATH]"
CLIENTS, MESSAGES, SEED = 8, 100, 57
FILES = 24
MOST_UNREAD = 5_000
# What programs of a few lines do: they open the messages, and take one of 14 bytes.
OPENS, TAKES = 'exec 3<"$3"\n', "head -c 14 <&3 >/dev/null\n"
LIMIT = "the stream has reached its limit of 16777216 bytes; initsim ended with status 7"
# (what, what is sent, what comes back up to the end)
ANSWERS = [
    ("a message of form two", [two(b"a")], word(ACCEPTED)),
    ("each reply", [two(b"ro.a"), two(b"ro.a"), two(b"a..b"), two(b"int.a", b"x"), two(b"denied.a"), two(b"ctl.a")],
     words(ACCEPTED, READ_ONLY, BAD_NAME, BAD_VALUE, DENIED, NO_CONTROL)),
    ("many in a piece", [(two(b"a") + two(b"a..b")) * 300], words(ACCEPTED, BAD_NAME) * 300),
    ("byte by byte", [bytes([it]) for it in two(b"a") + two(b"a..b")], words(ACCEPTED, BAD_NAME)),
    ("form one", [one(b"ro.one", b"1")], b""),
    ("which is set", [two(b"ro.one")], word(READ_ONLY)),
    ("what follows form one", [one(b"a", b"1") + two(b"ro.follows")], b""),
    ("isn't set", [two(b"ro.follows")], word(ACCEPTED)),
    ("what comes before form one", [two(b"a") + two(b"a..b") + one(b"a", b"1")], words(ACCEPTED, BAD_NAME)),
    ("a bad command", [b"GET / HTTP/1.1\r\n"], word(BAD_COMMAND)),
    ("the command 0", [word(0)], word(BAD_COMMAND)),
    ("a message before it", [two(b"a") + word(5) + two(b"ro.after")], words(ACCEPTED, BAD_COMMAND)),
    ("what follows it isn't set", [two(b"ro.after")], word(ACCEPTED)),
    ("a name of 1,024 bytes", [two(1024 * b"n")], word(BAD_NAME)),
    ("a name of 1,025 bytes", [two(1025 * b"n")], word(BAD_LENGTH)),
    ("a value of 8,192 bytes", [two(b"a", 8192 * b"v")], word(BAD_VALUE)),
    ("a value of 8,193 bytes", [two(b"a", 8193 * b"v")], word(BAD_LENGTH)),
    ("a message before a bad length", [two(b"a") + two(1025 * b"n")], words(ACCEPTED, BAD_LENGTH)),
    ("nothing", [], b""),
    ("a part of a word that fits none", [b"\5\0\0"], b""),
    ("a part of a message", [two(b"a") + two(b"ro.part")[:-1]], word(ACCEPTED)),
    ("which isn't set", [two(b"ro.part")], word(ACCEPTED)),
]


def tool_line(said):
    return f"property-socket: {said}\n"


def check_answers(check):
    with Served(check, check.tree()) as served:
        check.expect("the lines at the begin", [SHELL_LINE, f"Listening on {served.path}."], served.lines)
        with served.client() as connection:
            connection.sendall(two(b"a"))
            check.expect("socket: a first reply", word(ACCEPTED), exactly(connection, 4))
            files = served.files()
        for what, pieces, wanted in ANSWERS:
            check.expect(f"socket: {what}", wanted, served.asked(*pieces))
        check.expect("socket: every connection is closed", True, wait_for(lambda: served.files() == files - 1))
        check.expect("socket: the end", (0, ""), served.end())
        check.expect("socket: nothing is left", [], served.left())


# ---- clients beside each other


def check_clients(check):
    with Served(check, check.tree()) as served:
        for part in (as_bionic, bad_at_once, end_without_reset, half_messages, gone_clients, deaf_client, waiting_client):
            part(check, served)
        check.expect("clients: the end", (0, ""), served.end())
    check_room(check)


def as_bionic(check, served):
    """As bionic's client waits: in form one for the socket to be closed, and in form two for the whole reply."""
    with served.client() as connection:
        connection.sendall(one(b"ro.bionic", b"1"))
        waiting = select.poll()
        waiting.register(connection, 0)
        check.expect("form one, as bionic waits", [(connection.fileno(), select.POLLHUP)], waiting.poll(SECONDS * 1000))
    with served.client() as connection:
        connection.sendall(two(b"ro.bionic"))
        check.expect("form two, as bionic waits", word(READ_ONLY), connection.recv(4, socket.MSG_WAITALL))


def bad_at_once(check, served):
    """A bad word is answered when it is there: the client needn't send more."""
    for what, given, reply in (
        ("a bad command", b"\5\0\0\0", BAD_COMMAND),
        ("a bad length of a name", b"\1\0\2\0\1\4\0\0", BAD_LENGTH),
        ("a bad length of a value", b"\1\0\2\0\1\0\0\0a\1\x20\0\0", BAD_LENGTH),
    ):
        with served.client() as connection:
            connection.sendall(given[:-1])
            check.expect(f"{what} that is cut", True, is_silent(connection))
            connection.sendall(given[-1:])
            check.expect(what, word(reply), all_of(connection))


def end_without_reset(check, served):
    """What a client has sent after its last message is no reason to reset the connection."""
    for what, message, reply in (("form one", one(b"a", b"1"), b""), ("a bad command", word(5), word(BAD_COMMAND))):
        with served.client() as connection:
            with served.held():
                connection.sendall(message + 40_000 * b"x")
            # (a reset would come with the end of it all, which comes a moment after the last reply)
            time.sleep(0.3)
            check.expect(f"much after {what}", reply, all_of(connection))


def half_messages(check, served):
    """A message of which a half is there holds up nobody."""
    with served.client() as first, served.client() as second:
        first.sendall(two(b"a..b")[:9])
        second.sendall(two(b"ro.half"))
        check.expect("another's reply", word(ACCEPTED), exactly(second, 4))
        first.sendall(two(b"a..b")[9:] + two(b"ro.half"))
        second.sendall(two(b"denied.a"))
        check.expect("its own replies", words(BAD_NAME, READ_ONLY), exactly(first, 8))
        check.expect("and the other's", word(DENIED), exactly(second, 4))
        end_sending(first)
        check.expect("no more of it", b"", all_of(first))


def gone_clients(check, served):
    """A whole message is judged, also if its client doesn't wait for the reply, and goes on sending after one that it can't get."""
    with served.held(), served.client() as connection:
        connection.sendall(two(b"ro.gone1") + 3 * two(b"a", 8192 * b"v") + two(b"ro.gone2") + two(b"ro.gone3")[:-1])
    asked = [two(b"ro.gone1"), two(b"ro.gone2"), two(b"ro.gone3")]
    check.expect("what a gone client sent", words(READ_ONLY, READ_ONLY, ACCEPTED), served.asked(*asked))


def deaf_client(check, served):
    """A client that takes none of its replies holds up nobody, and gets them all when it takes them. It sends until nothing more is taken
    of it; the other's reply shows that the tool has seen each of its messages."""
    sent, others = 0, []
    with served.client() as deaf, served.client() as other:
        deaf.setblocking(False)
        while sent < MOST_UNREAD:
            try:
                deaf.send(two(b"a"))
            except BlockingIOError:
                break
            sent += 1
            other.sendall(two(b"a..b"))
            others.append(exactly(other, 4))
        check.expect("others, while one takes no reply", [word(BAD_NAME)] * sent, others)
        deaf.settimeout(SECONDS)
        check.expect("all its replies", word(ACCEPTED) * sent, exactly(deaf, 4 * sent))


def waiting_client(check, served):
    """A client that sends nothing holds up nobody, and is served when it does."""
    with served.client() as silent:
        check.expect("others, while one says nothing", word(BAD_NAME), served.asked(two(b"a..b")))
        silent.sendall(two(b"a"))
        check.expect("and then itself", word(ACCEPTED), exactly(silent, 4))


def check_room(check):
    """More clients than it can open are taken as others leave."""
    before = lambda: resource.setrlimit(resource.RLIMIT_NOFILE, (FILES, FILES))  # noqa: E731
    with Served(check, check.tree(), before=before) as served:
        clients = [served.client() for _ in range(2 * FILES)]
        check.expect("it opens as many clients as it can", True, wait_for(lambda: served.files() == FILES))
        for it in clients:
            it.sendall(two(b"a"))
        got = []
        for it in clients:
            got.append(exactly(it, 4))
            it.close()
        check.expect("more clients than it can open", [word(ACCEPTED)] * 2 * FILES, got)
        check.expect("and the end", (0, ""), served.end())


def check_trial(check):
    with Served(check, check.tree()) as served:
        trial = Trial(served, CLIENTS, MESSAGES, SEED)
        mistakes, _ = trial.run()
        check.expect("eight clients at once", [], shown(mistakes))
        check.expect("whose messages were all sent", True, trial.count("whole") >= CLIENTS * MESSAGES)
        check.expect("of which some were broken off, and others rubbish", (True, True), (trial.count("broken") > CLIENTS, trial.count("rubbish") > 0))
        check.expect("and the end of the trial", (0, ""), served.end())
        check.expect("after which nothing is left", [], served.left())


# ---- the domain


# What the copy has for the domain adbd: its pairs are those of shell, each line has its number, and what is no pair is as it was.
ALLOW = "# allow adbd a_prop\nallow shell a_prop\n\n\tallow  adbd\tb_prop\r\nallow adbd\nallow adbd b_prop\nallow vendor_init b_prop\nallow adbd c_prop"
COPIED = "# allow adbd a_prop\n\n\nallow shell b_prop\nallow adbd\n\n\nallow shell c_prop"


def check_domain(check):
    root = check.tree()
    with Served(check, root, "--domain", "adbd") as served:
        wanted = ["Every client is judged as adbd, which may set the properties of 1 label.", f"Listening on {served.path}."]
        check.expect("domain: the lines at the begin", wanted, served.lines)
        check.expect("domain: what it may set", words(ACCEPTED, DENIED), served.asked(two(b"denied.a"), two(b"a")))
        served.end()
        check.expect("domain: nothing is left", [], served.left())
    with Served(check, root, "--domain", "nobody") as served:
        wanted = "Every client is judged as nobody, which may set nothing: property_allow has no line for it."
        check.expect("a domain without a line", [wanted, words(DENIED, DENIED)], [served.lines[0], served.asked(two(b"denied.a"), two(b"a"))])
    root = check.tree("without-allow", property_allow=None)
    with Served(check, root, "--domain", "shell") as served:
        check.expect("a tree without pairs", word(DENIED), served.asked(two(b"a")))
    check_copy(check)


def check_copy(check):
    root = check.tree("many-pairs", property_allow=ALLOW)
    program = check.script(f'cat "$2/property_allow" >copied\n[ "$2" != {root} ] || echo not a copy >>copied\nexec {check.judge} "$@"\n')
    with Served(check, root, "--domain", "adbd", program=program) as served:
        check.expect("a domain of two labels", "Every client is judged as adbd, which may set the properties of 2 labels.", served.lines[0])
    with open(os.path.join(check.room, "copied"), newline="") as file:
        check.expect("the pairs in the copy", COPIED, file.read())
    with open(os.path.join(root, "property_allow"), newline="") as file:
        check.expect("ROOT's pairs", ALLOW, file.read())


# ---- the words, and the place of the socket


def refused(check, what, status, said, *words):
    """A call that ends before it listens. What stands at its place stays."""
    ran = subprocess.run([TOOL, *words], cwd=check.room, stdin=subprocess.DEVNULL, capture_output=True, text=True, timeout=SECONDS)
    check.expect(what, (status, tool_line(said)), (ran.returncode, ran.stderr))


def check_place(check):
    root, program = check.tree(), ("--program", check.judge)
    helped = subprocess.run([TOOL, "--help"], capture_output=True, text=True, timeout=SECONDS)
    check.expect("its help", (0, "", True), (helped.returncode, helped.stderr, f"tools/property-socket {FORM[23:]}" in helped.stdout))
    refused(check, "no words", 1, f"the following arguments are required: ROOT, SOCKET; {FORM}")
    refused(check, "a word more", 1, f"unrecognized arguments: c; {FORM}", "a", "b", "c")
    refused(check, "an empty ROOT", 1, f"ROOT is empty; {FORM}", "", "b")
    refused(check, "an empty SOCKET", 1, f"SOCKET is empty; {FORM}", "a", "")
    for domain in ("", "a b", "a\n", "a\rb"):
        refused(check, f"the domain {domain!r}", 1, f"the domain is one word; {FORM}", "a", "b", "--domain", domain)
    place = os.path.join(check.room, "place")
    with open(place, "w") as file:
        file.write("kept")
    refused(check, "a file at its place", 2, f"{place}: something else than a socket is there", root, place, *program)
    check.expect("which stays", "kept", open(place).read())
    link = os.path.join(check.room, "link")
    os.symlink(place, link)
    refused(check, "a link at its place", 2, f"{link}: something else than a socket is there", root, link, *program)
    refused(check, "a folder at its place", 2, f"{root}: something else than a socket is there", root, root, *program)
    check.expect("which stay", (True, True), (os.path.islink(link), os.path.isdir(root)))
    absent = os.path.join(check.room, "absent")
    refused(check, "no such folder", 2, f"{absent}/s: No such file or directory", root, f"{absent}/s", *program)
    long = os.path.join(check.room, 120 * "x")
    refused(check, "too long a path", 2, f"{long}: AF_UNIX path too long", root, long, *program)
    refused(check, "no such program", 2, f"{absent} can't be run: No such file or directory", root, f"{check.room}/s", "--program", absent)
    check.expect("and no socket", False, os.path.lexists(f"{check.room}/s"))
    check_other_sockets(check, root)


def check_other_sockets(check, root):
    path = os.path.join(check.room, "socket")
    with socket.socket(socket.AF_UNIX, socket.SOCK_STREAM) as left:
        left.bind(path)
    with Served(check, root) as served:
        check.expect("a socket that nobody listens on is replaced", word(ACCEPTED), served.asked(two(b"a")))
        refused(check, "one that somebody listens on isn't", 2, f"{path}: somebody listens there already", root, path, "--program", check.judge)
        check.expect("and goes on", word(BAD_NAME), served.asked(two(b"a..b")))
        os.unlink(path)
        with open(path, "w") as file:
            file.write("kept")
        check.expect("what took its place", (0, "", ["socket"]), (*served.end(), [os.path.basename(it) for it in served.left()]))
    os.unlink(path)


# ---- how it ends


def check_ends(check):
    root = check.tree()
    for number in (signal.SIGINT, signal.SIGTERM, signal.SIGHUP):
        with Served(check, root) as served:
            program = served.program()
            with served.client() as waiting, served.client() as half:
                half.sendall(two(b"a")[:5])
                check.expect("it serves", word(ACCEPTED), served.asked(two(b"a")))
                check.expect(f"{number.name}: the end", (0, ""), served.end(number))
                check.expect(f"{number.name}: of its clients too", (b"", b""), (all_of(waiting), all_of(half)))
            check.expect(f"{number.name}: nothing is left", ([], False), (served.left(), is_alive(program)))
    ended = os.path.join(check.room, "ended")
    with Served(check, root, program=check.script(f"{OPENS}cat <&3 >/dev/null\necho >{ended}")) as served:
        served.end()
    check.expect("the program isn't killed, but finds the end of its messages", True, os.path.exists(ended))
    check_refused_trees(check)
    check_programs_that_end(check, root)
    check_reached_limit(check, root)


def check_refused_trees(check):
    """A tree that the program refuses is said before anybody may connect."""
    socket_path = os.path.join(check.room, "socket")
    root = check.tree("bad-policy", property_contexts="a b\n")
    for words_given in ((), ("--domain", "adbd")):
        said = f"initsim ended with status 8: {root}/property_contexts: no line for *"
        refused(check, f"a bad policy {words_given}", 8, said, root, socket_path, "--program", check.judge, *words_given)
        said = f"initsim ended with status 6: {root}-none/system/etc/init/hw/init.rc: No such file or directory"
        refused(check, f"no tree {words_given}", 6, said, f"{root}-none", socket_path, "--program", check.judge, *words_given)
    check.expect("and no socket is made", False, os.path.lexists(socket_path))


def check_programs_that_end(check, root):
    """The program ends while clients wait."""
    answers = f"{OPENS}{TAKES}printf '\\000\\000\\000\\000'\n"
    for what, end, status, said in (
        ("with a line", "echo 'initsim: no memory' >&2\nexit 4", 4, "initsim ended with status 4: no memory"),
        ("without a line", "exit 3", 3, "initsim ended with status 3"),
        ("with two lines", "printf 'initsim: read fault\\ninitsim: x: why\\n' >&2\nexit 2", 2, "initsim ended with status 2: x: why"),
        ("well", "exit 0", 0, "initsim ended with status 0"),
        ("by a signal", "kill -9 $$", 137, "initsim was stopped by signal 9"),
    ):
        with Served(check, root, program=check.script(f"{answers}{end}\n")) as served:
            with served.client() as first, served.client() as other:
                other.sendall(two(b"b")[:7])
                first.sendall(two(b"a"))
                check.expect(f"ends {what}: the reply before", word(ACCEPTED), exactly(first, 4))
                check.expect(f"ends {what}: it is said", (status, tool_line(said)), served.ended())
                check.expect(f"ends {what}: its clients", (b"", b""), (all_of(first), all_of(other)))
            check.expect(f"ends {what}: nothing is left", [], served.left())
    slow = f"{TAKES}printf '\\013'\nsleep 0.2\nprintf '\\000\\000\\000'\nhead -c 1 <&3\n"
    with Served(check, root, program=check.script(f"{OPENS}{slow}")) as served:
        check.expect("a reply in two pieces", word(READ_ONLY), served.asked(two(b"a")))
    twice = f"{TAKES}printf '\\000\\000\\000\\000'\n{TAKES}printf '\\013\\000\\000\\000'\nexit 4\n"
    with Served(check, root, program=check.script(f"{OPENS}{twice}")) as served:
        check.expect("the replies before the end", words(ACCEPTED, READ_ONLY), served.asked(3 * two(b"a")))
    more = f"{OPENS}{TAKES}printf '\\000\\000\\000\\000\\000'\nhead -c 1 <&3\n"
    with Served(check, root, program=check.script(more)) as served:
        check.expect("a reply to no message", word(ACCEPTED), served.asked(two(b"a")))
        check.expect("a reply to no message: it is said", (2, tool_line("initsim wrote a reply to no message")), served.ended())
    with Served(check, root, program=check.script(f"{OPENS}{TAKES}printf '\\000\\000'\nexit 4\n")) as served:
        check.expect("half a reply", b"", served.asked(two(b"a")))
        check.expect("half a reply: it is said", (4, tool_line("initsim ended with status 4")), served.ended())


def check_reached_limit(check, root):
    """2,048 messages of 8,192 bytes are the whole stream. One more gets no reply."""
    message = two(b"a", 8179 * b"v")
    with Served(check, root) as served:
        with served.client() as connection:
            sender = threading.Thread(target=send_all, args=(connection, message, 2049))
            sender.start()
            check.expect("the limit: the replies before", word(BAD_VALUE) * 2048, exactly(connection, 4 * 2048))
            check.expect("the limit: no more", b"", all_of(connection))
            sender.join()
        check.expect("the limit: it is said", (7, tool_line(LIMIT)), served.ended())
        check.expect("the limit: nothing is left", [], served.left())


def send_all(connection, message, count):
    try:
        for _ in range(count):
            connection.sendall(message)
    except OSError as why:
        print(f"wire: the limit: {why}", file=sys.stderr)
