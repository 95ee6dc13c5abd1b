"""tools/property-socket as it is called, and its clients."""
import os
import select
import signal
import socket
import subprocess
import time
from contextlib import contextmanager

TOOL = os.path.join(os.path.dirname(os.path.dirname(os.path.abspath(__file__))), "property-socket")
SECONDS = 60
SHELL_LINE = "Every client is judged as shell; --domain D judges as D."


class Served:
    """A call of the tool, from the line that says that clients may connect to its end."""

    def __init__(self, check, root, *words, program=None, before=None):
        self.path = os.path.join(check.room, "socket")
        self.temporary = os.path.join(check.room, "temporary")
        os.makedirs(self.temporary, exist_ok=True)
        environment = {**os.environ, "TMPDIR": self.temporary}
        called = [TOOL, root, self.path, "--program", program or check.judge, *words]
        how = {"stdin": subprocess.DEVNULL, "stdout": subprocess.PIPE, "stderr": subprocess.PIPE, "text": True}
        self.tool = subprocess.Popen(called, cwd=check.room, env=environment, preexec_fn=before, **how)
        self.lines = []
        while not self.is_listening() and (line := self.tool.stdout.readline()):
            self.lines.append(line.rstrip("\n"))

    def is_listening(self):
        return self.lines[-1:] == [f"Listening on {self.path}."]

    def __enter__(self):
        return self

    def __exit__(self, *_):
        if self.tool.poll() is None:
            self.tool.terminate()
        self.ended()

    def client(self):
        """A connection."""
        connection = socket.socket(socket.AF_UNIX, socket.SOCK_STREAM)
        # (as bionic's it waits for its turn, which one with a timeout doesn't)
        connection.connect(self.path)
        connection.settimeout(SECONDS)
        return connection

    def asked(self, *pieces):
        """What a client gets that sends these pieces and nothing more: all bytes up to the end of the connection."""
        with self.client() as connection:
            for piece in pieces:
                try:
                    connection.sendall(piece)
                except BrokenPipeError:
                    break
            end_sending(connection)
            return all_of(connection)

    @contextmanager
    def held(self):
        """Holds the tool, so that it finds all at once what clients do meanwhile."""
        self.tool.send_signal(signal.SIGSTOP)
        try:
            yield
        finally:
            self.tool.send_signal(signal.SIGCONT)

    def program(self):
        """The process that judges."""
        with open(f"/proc/{self.tool.pid}/task/{self.tool.pid}/children") as file:
            return int(file.read().split()[0])

    def files(self):
        """How many files the tool has open."""
        return len(os.listdir(f"/proc/{self.tool.pid}/fd"))

    def end(self, number=signal.SIGTERM):
        """Ends the tool by a signal: how it ended."""
        self.tool.send_signal(number)
        return self.ended()

    def ended(self):
        """The status and the lines on standard error of the tool, which ends by itself."""
        try:
            said = self.tool.communicate(timeout=SECONDS)[1]
        except subprocess.TimeoutExpired:
            self.tool.kill()
            said = self.tool.communicate()[1] + "(it had to be killed)"
        except ValueError:
            # (its output was read before)
            said = ""
        return self.tool.returncode, said

    def left(self):
        """What is left of it: the socket, and files in the temporary folder."""
        return [it for it in (self.path,) if os.path.lexists(it)] + os.listdir(self.temporary)


def end_sending(connection):
    try:
        connection.shutdown(socket.SHUT_WR)
    except OSError:
        pass


def all_of(connection):
    """All that comes up to the end of the connection."""
    taken = b""
    while piece := connection.recv(65536):
        taken += piece
    return taken


def exactly(connection, size):
    """So many bytes, or fewer if the connection ends."""
    taken = b""
    while len(taken) < size and (piece := connection.recv(size - len(taken))):
        taken += piece
    return taken


def is_silent(connection, seconds=0.3):
    """Whether nothing comes, neither a byte nor the end."""
    return not select.select([connection], [], [], seconds)[0]


def wait_for(condition, seconds=SECONDS):
    """Whether the condition comes true in time."""
    end = time.monotonic() + seconds
    while not condition():
        if time.monotonic() > end:
            return False
        time.sleep(0.01)
    return True


def is_alive(pid):
    """Whether the process runs; one that has ended and isn't reaped yet doesn't."""
    try:
        with open(f"/proc/{pid}/stat", "rb") as file:
            return file.read().rpartition(b")")[2].split()[0] != b"Z"
    except OSError:
        return False
