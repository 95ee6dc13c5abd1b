"""Many clients at once: what each sends is drawn by lot, and what each must get follows from that, whatever the others do."""
import random
import threading
import time
from typing import NamedTuple

from wire_check.served import all_of, end_sending, exactly
from wire_check.spelling import ACCEPTED, BAD_COMMAND, BAD_LENGTH, BAD_NAME, BAD_VALUE, DENIED, NO_CONTROL, READ_ONLY, one, two, word

MOST_SHOWN = 5
TEXTS = ("", "1", "-17", "true", "de-DE", "a b", "\0", "\u00e9\u4e16\U0001f300", "x" * 91)
# How often a message of each kind comes, in a hundred and one.
KINDS = {"plain": 40, "read_only": 20, "name": 10, "type": 10, "denied": 10, "control": 10, "long": 1}
ALSO_FORM_ONE = ("plain", "read_only")


class Sent(NamedTuple):
    """A message, and the bytes that come back for it."""

    message: bytes
    reply: bytes

    def is_form_one(self):
        return self.message[0] == 1 and self.message[2] == 0


class Plan:
    """What a client sends, drawn by lot. All its names are its own, so each reply follows from its own messages alone."""

    def __init__(self, number, seed):
        self.number, self.own = number, random.Random(f"{seed} {number}")
        self.is_set = False

    def name(self, front, behind=""):
        return f"{front}c{self.number}{behind}".encode()

    def value(self):
        return self.own.choice(TEXTS).encode()

    def next(self, may_be_one):
        """The next message, in form one now and then if it may be."""
        kind = self.own.choices(list(KINDS), list(KINDS.values()))[0]
        is_one = may_be_one and kind in ALSO_FORM_ONE and self.own.random() < 0.3
        name, value, reply = getattr(self, f"draw_{kind}")()
        if is_one:
            return Sent(one(name, value.replace(b"\0", b"")), b"")
        return Sent(two(name, value), word(reply))

    def draw_plain(self):
        return self.name("", f".p{self.own.randrange(4)}"), self.value(), ACCEPTED

    def draw_read_only(self):
        was_set, self.is_set = self.is_set, True
        return self.name("ro."), self.value(), READ_ONLY if was_set else ACCEPTED

    def draw_name(self):
        name = self.own.choice((b"", self.name("", "."), self.name("", "..x"), self.name("", "/"), b"x" * self.own.randrange(256, 1025)))
        return name, self.value(), BAD_NAME

    def draw_type(self):
        return self.name("int."), self.own.choice((b"x", b"1x", b"--1", b"9223372036854775808")), BAD_VALUE

    def draw_denied(self):
        return self.name("denied."), self.value(), DENIED

    def draw_control(self):
        return self.name("ctl."), self.value(), NO_CONTROL

    def draw_long(self):
        return self.name("long."), b"v" * self.own.randrange(92, 8193), BAD_VALUE


class Client:
    """A thread that sends its plan's messages, in pieces drawn by lot, and looks at what comes back."""

    def __init__(self, trial, number, seed, count):
        self.trial, self.count, self.plan = trial, count, Plan(number, seed)
        self.own = random.Random(f"{seed} pieces {number}")
        self.whole = self.replies = self.broken = self.rubbish = 0
        self.mistakes = []
        self.thread = threading.Thread(target=self.run)

    def run(self):
        try:
            if self.plan.number % 2:
                self.send_apart()
            else:
                self.send_together()
        except OSError as why:
            self.mistakes.append(f"client {self.plan.number}: {why}")

    def expect(self, what, wanted, got):
        if wanted != got:
            self.mistakes.append(f"client {self.plan.number}: {what}: wanted {wanted.hex()}, got {got.hex()}")

    def pieces(self, content):
        at = 0
        while at < len(content):
            size = self.own.choice((1, 3, self.own.randrange(1, 40), self.own.randrange(1, 3000)))
            yield content[at : at + size]
            at += size

    def took(self, sent):
        self.whole += 1
        self.replies += bool(sent.reply)

    def send_together(self):
        """All on one connection. The replies to the messages that are whole so far are awaited before the next piece is sent."""
        todo = [self.plan.next(False) for _ in range(self.count)]
        stream = b"".join(it.message for it in todo)
        left = iter(todo)
        sent = next(left, None)
        at = size = 0
        with self.trial.served.client() as connection:
            for piece in self.pieces(stream):
                connection.sendall(piece)
                size += len(piece)
                while sent and at + len(sent.message) <= size:
                    self.expect("together", sent.reply, exactly(connection, len(sent.reply)))
                    self.took(sent)
                    at += len(sent.message)
                    sent = next(left, None)
            connection.sendall(self.front_of_message())

    def send_apart(self):
        """A connection for each message. Now and then one is broken off before it, or its client goes without waiting for the reply."""
        for number in range(self.count):
            if self.own.random() < 0.05:
                self.break_off()
            if number < self.count // 2 and self.own.random() < 0.02:
                self.go_at_once()
            self.send_alone(self.plan.next(True))

    def send_alone(self, sent):
        with self.trial.served.client() as connection:
            for piece in self.pieces(sent.message):
                connection.sendall(piece)
            if not sent.is_form_one():
                self.expect("apart", sent.reply, exactly(connection, len(sent.reply)))
                end_sending(connection)
            self.expect("the end", b"", all_of(connection))
        self.took(sent)

    def front_of_message(self):
        """A part of a message, which nobody may set, and which the trial looks for at its end."""
        self.broken += 1
        name = self.plan.name("ro.broken.")
        self.trial.unset.add(name)
        message = self.own.choice((one, two))(name, b"1")
        return message[: self.own.randrange(1, len(message))]

    def break_off(self):
        with self.trial.served.client() as connection:
            connection.sendall(self.front_of_message())

    def go_at_once(self):
        """Sends a message and goes. It is judged all the same."""
        name = self.plan.name("ro.left.")
        self.trial.set.add(name)
        with self.trial.served.client() as connection:
            connection.sendall(two(name) + self.front_of_message())


class Rubbish(Client):
    """A client whose messages end with what is none. Those before are answered, it is told, and the connection ends."""

    def run(self):
        try:
            for _ in range(self.count):
                self.send_rubbish()
        except OSError as why:
            self.mistakes.append(f"client {self.plan.number}: {why}")

    def send_rubbish(self):
        todo = [self.plan.next(False) for _ in range(self.own.randrange(3))]
        bad, reply = self.own.choice((self.bad_command(), self.bad_name(), self.bad_value()))
        stream = b"".join(it.message for it in todo) + bad + self.own.randbytes(self.own.randrange(50))
        got = self.trial.served.asked(*self.pieces(stream))
        self.rubbish += 1
        self.expect("rubbish", b"".join(it.reply for it in todo) + word(reply), got)
        for sent in todo:
            self.took(sent)

    def bad_command(self):
        command = self.own.choice((0, 2, 0x20000, 0x10001, 0x20002, 0x01000200, self.own.randrange(0x30000, 2**32)))
        return word(command), BAD_COMMAND

    def bad_name(self):
        return b"\1\0\2\0" + word(self.own.choice((1025, 2**31, 2**32 - 1))), BAD_LENGTH

    def bad_value(self):
        return b"\1\0\2\0" + word(1) + b"a" + word(self.own.choice((8193, 2**31, 2**32 - 1))), BAD_LENGTH


class Trial:
    """So many clients at once, each with so many messages, and beside them a quarter as many that send rubbish."""

    def __init__(self, served, clients, count, seed):
        self.served = served
        self.unset, self.set = set(), set()
        self.clients = [Client(self, it, seed, count) for it in range(clients)]
        self.others = [Rubbish(self, clients + it, seed, max(1, count // 10)) for it in range(max(1, clients // 4))]

    def run(self):
        """What was wrong, and the seconds that it took."""
        began = time.monotonic()
        everybody = self.clients + self.others
        for it in everybody:
            it.thread.start()
        for it in everybody:
            it.thread.join()
        seconds = time.monotonic() - began
        mistakes = [mistake for it in everybody for mistake in it.mistakes]
        return mistakes + self.mistakes_behind(), seconds

    def mistakes_behind(self):
        """Whether what was broken off is unset, and what its client didn't wait for is set."""
        wanted = {**dict.fromkeys(sorted(self.unset), word(ACCEPTED)), **dict.fromkeys(sorted(self.set), word(READ_ONLY))}
        got = {}
        with self.served.client() as connection:
            for name in wanted:
                connection.sendall(two(name))
                got[name] = exactly(connection, 4)
        return [f"{it.decode()}: wanted {wanted[it].hex()}, got {got[it].hex()}" for it in wanted if got[it] != wanted[it]]

    def count(self, what):
        """How many there were of all clients together: whole messages, replies, broken messages, or connections with rubbish."""
        return sum(getattr(it, what) for it in self.clients + self.others)


def shown(mistakes):
    """The first mistakes, and how many there are."""
    more = [f"and {len(mistakes) - MOST_SHOWN} more"] if len(mistakes) > MOST_SHOWN else []
    return mistakes[:MOST_SHOWN] + more
