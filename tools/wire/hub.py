"""The socket: its clients, whose messages are handed on whole, each with its reply to the client that sent it."""
import errno
import os
import selectors
import socket
import stat
from contextlib import contextmanager
from functools import partial

from product.texts import Stop

from wire.format import BadFrame, has_reply, message_end, word_bytes

UNUSABLE = 2
PIECE = 16_384
# How many clients may wait for being taken.
MOST_WAITING = 1_024
NO_MORE_FILES = (errno.EMFILE, errno.ENFILE, errno.ENOBUFS, errno.ENOMEM)


# ---- the socket


def clear(path):
    """Removes a socket that nobody listens on. Whatever else is there stays, and is refused."""
    try:
        mode = os.lstat(path).st_mode
    except FileNotFoundError:
        return
    except (OSError, ValueError) as why:
        raise refusal(path, why) from None
    if not stat.S_ISSOCK(mode):
        raise Stop(UNUSABLE, f"{path}: something else than a socket is there")
    with socket.socket(socket.AF_UNIX, socket.SOCK_STREAM) as probe:
        try:
            probe.connect(path)
        except ConnectionRefusedError:
            os.unlink(path)
        except OSError as why:
            raise refusal(path, why) from None
        else:
            raise Stop(UNUSABLE, f"{path}: somebody listens there already")


@contextmanager
def listening_on(path):
    """A socket that listens at the path, which is removed at the end if it is still this one."""
    with socket.socket(socket.AF_UNIX, socket.SOCK_STREAM) as listener:
        try:
            clear(path)
            listener.bind(path)
            made = identity(path)
        except OSError as why:
            raise refusal(path, why) from None
        try:
            listener.listen(MOST_WAITING)
            listener.setblocking(False)
            yield listener
        finally:
            if identity(path) == made:
                os.unlink(path)


def identity(path):
    try:
        found = os.lstat(path)
    except OSError:
        return None
    return found.st_dev, found.st_ino


def refusal(path, why):
    return Stop(UNUSABLE, f"{path}: {getattr(why, 'strerror', None) or why}")


# ---- its clients


class Client:
    """A connection: what is read of it and isn't a whole message yet, and the replies that it hasn't taken yet."""

    def __init__(self, connection):
        self.connection = connection
        self.unread, self.unsent = bytearray(), bytearray()
        # (nothing more of it is read; nothing more can be sent to it)
        self.is_last, self.is_deaf = False, False

    def take(self, judge):
        """Reads a piece, and lets its whole messages be judged."""
        try:
            piece = self.connection.recv(PIECE)
        except BlockingIOError:
            return
        except OSError:
            piece = b""
        self.unread += piece
        self.is_last = not piece
        self.judge_messages(judge)

    def judge_messages(self, judge):
        start = 0
        try:
            while not self.is_last and (end := message_end(self.unread, start)) is not None:
                message = bytes(self.unread[start:end])
                start = end
                self.unsent += judge.ask(message)
                self.is_last = not has_reply(message)
        except BadFrame as bad:
            self.unsent += word_bytes(bad.reply)
            self.is_last = True
        del self.unread[:start]

    def send(self):
        """Sends what it takes now. If it is gone, its messages are judged all the same."""
        try:
            while self.unsent and not self.is_deaf:
                del self.unsent[: self.connection.send(self.unsent)]
        except BlockingIOError:
            return
        except OSError:
            self.is_deaf = True
        self.unsent.clear()

    def close(self):
        """Closes the connection. What the client sent beyond its last message is read first, since else it would see a reset and no end."""
        try:
            self.connection.shutdown(socket.SHUT_RDWR)
            while self.connection.recv(PIECE):
                pass
        except OSError:
            pass
        self.connection.close()


class Hub:
    """Serves all clients in one thread. A message is judged, and its reply is known, before the next one is looked at."""

    def __init__(self, listener, judge):
        self.listener, self.judge = listener, judge
        self.clients, self.is_full = set(), False
        self.selector = selectors.DefaultSelector()
        self.selector.register(listener, selectors.EVENT_READ, self.accept)
        self.selector.register(judge.replies, selectors.EVENT_READ, self.end)

    def serve(self):
        """Serves until the judge ends."""
        try:
            while True:
                for key, _ in self.selector.select():
                    key.data()
        finally:
            # (a reply that was given is sent, whatever ended this)
            for client in self.clients:
                client.send()
                client.close()
            self.selector.close()

    def end(self):
        """Nothing is awaited of the judge, so it has ended."""
        raise self.judge.unasked()

    def accept(self):
        try:
            connection, _ = self.listener.accept()
        except OSError as why:
            if why.errno in NO_MORE_FILES:
                self.wait_for_room(why)
            return
        connection.setblocking(False)
        client = Client(connection)
        self.clients.add(client)
        self.selector.register(connection, selectors.EVENT_READ, partial(self.attend, client))

    def wait_for_room(self, why):
        """Takes no further client until one leaves."""
        if not self.clients:
            raise Stop(UNUSABLE, f"no client can be taken: {why.strerror}")
        self.selector.unregister(self.listener)
        self.is_full = True

    def attend(self, client):
        """Reads of a client, unless it has replies to take first."""
        if not client.unsent:
            client.take(self.judge)
        client.send()
        if client.is_last and not client.unsent:
            self.leave(client)
        else:
            wanted = selectors.EVENT_WRITE if client.unsent else selectors.EVENT_READ
            self.want(client.connection, wanted)

    def want(self, connection, wanted):
        key = self.selector.get_key(connection)
        if key.events != wanted:
            self.selector.modify(connection, wanted, key.data)

    def leave(self, client):
        self.selector.unregister(client.connection)
        client.close()
        self.clients.discard(client)
        if self.is_full:
            self.is_full = False
            self.selector.register(self.listener, selectors.EVENT_READ, self.accept)
