"""The process that judges the messages: one `initsim wire`, which reads them from a pipe with a name."""
import errno
import os
import subprocess
import tempfile
import time

from product.texts import Stop, text_of

from wire.format import MOST_STREAM, WORD_BYTES, has_reply

CANNOT_RUN = 2
TOO_LARGE = 7
BY_SIGNAL = 128
SECONDS_BETWEEN_TRIES = 0.005
SECONDS_TO_END = 5


class Judge:
    """Judges messages one after another. It begins when the program opens the pipe, which it does once it has accepted ROOT."""

    def __init__(self, program, root, room, shown):
        """`shown` says how parts of the program's line are printed."""
        self.path = os.path.join(room, "messages")
        self.shown = {**shown, self.path: "the messages"}
        self.taken = 0
        self.messages = None
        os.mkfifo(self.path)
        self.said = tempfile.TemporaryFile(dir=room)
        how = {"stdin": subprocess.DEVNULL, "stdout": subprocess.PIPE, "stderr": self.said, "bufsize": 0}
        try:
            # (in a session of its own, so that an interrupt at the terminal doesn't end it first)
            self.child = subprocess.Popen([program, "wire", root, self.path], start_new_session=True, **how)
        except OSError as why:
            raise Stop(CANNOT_RUN, f"{program} can't be run: {why.strerror}") from None
        self.replies = self.child.stdout

    def __enter__(self):
        try:
            self.messages = self.opened()
        except BaseException:
            self.close()
            raise
        return self

    def __exit__(self, *_):
        self.close()

    def opened(self):
        """The end of the pipe into which messages go."""
        while self.child.poll() is None:
            try:
                file = os.open(self.path, os.O_WRONLY | os.O_NONBLOCK)
            except OSError as why:
                if why.errno != errno.ENXIO:
                    raise Stop(CANNOT_RUN, f"{self.path}: {why.strerror}") from None
                time.sleep(SECONDS_BETWEEN_TRIES)
                continue
            os.set_blocking(file, True)
            return file
        raise self.ended()

    def ask(self, message):
        """Hands on a whole message. Returns its reply, which is empty if it gets none."""
        self.taken += len(message)
        rest = memoryview(message)
        try:
            while rest:
                rest = rest[os.write(self.messages, rest) :]
        except BrokenPipeError:
            raise self.ended() from None
        return self.reply() if has_reply(message) else b""

    def reply(self):
        reply = b""
        while len(reply) < WORD_BYTES:
            piece = self.replies.read(WORD_BYTES - len(reply))
            if not piece:
                raise self.ended()
            reply += piece
        return reply

    def unasked(self):
        """Why the program is heard of though no reply is awaited."""
        if self.replies.read(WORD_BYTES):
            return Stop(CANNOT_RUN, "initsim wrote a reply to no message")
        return self.ended()

    def ended(self):
        """How the program ended, which it did by itself."""
        status = self.status()
        if status < 0:
            return Stop(BY_SIGNAL - status, f"initsim was stopped by signal {-status}")
        if status == TOO_LARGE and self.taken > MOST_STREAM:
            return Stop(status, f"the stream has reached its limit of {MOST_STREAM} bytes; initsim ended with status {status}")
        line = self.last_line()
        return Stop(status, f"initsim ended with status {status}{line and f': {line}'}")

    def last_line(self):
        """The last line that the program wrote to standard error, without its name."""
        self.said.seek(0)
        line = text_of(self.said.read().strip().rpartition(b"\n")[2]).removeprefix("initsim: ")
        for place, name in self.shown.items():
            line = line.replace(place, name)
        return line

    def status(self):
        """The status of the program, which is ending."""
        try:
            return self.child.wait(SECONDS_TO_END)
        except subprocess.TimeoutExpired:
            self.child.kill()
            return self.child.wait()

    def close(self):
        """Ends the program."""
        if self.messages is not None:
            os.close(self.messages)
        else:
            self.child.kill()
        self.replies.close()
        self.status()
        self.said.close()
