"""Runs of an example in which a call of the system fails, for bench/faults/run and tools/faults-check."""
import os
import shutil
import subprocess
import sys

HERE = os.path.dirname(os.path.abspath(__file__))
sys.path.append(os.path.join(HERE, "../../tools"))

from product.disk import BadImage, text_of  # noqa: E402

STORE = "tree/data/property"
EIO, EAGAIN, ENOMEM = 5, 11, 12
# a run that hasn't ended by then is stopped
SECONDS = 20


def make_library(room, compiler):
    """The library that is loaded before the program."""
    library = os.path.join(room, "failing.so")
    subprocess.run([compiler, "-O2", "-shared", "-fPIC", "-o", library, os.path.join(HERE, "failing.c")], check=True)
    return library


def words_of(folder):
    words = os.path.join(folder, "words")
    if os.path.isfile(words):
        with open(words) as file:
            return file.read().split("\n")[:-1]
    if os.path.isfile(os.path.join(folder, "trace")):
        return ["audit", "tree", "script", "trace"]
    return ["run", "tree", "script"]


class Runs:
    """Runs of an example in a copy of it, of which the store is put back before each."""

    def __init__(self, room, example, program, library):
        name = os.path.basename(example)
        self.folder, self.count = os.path.join(room, name), os.path.join(room, f"{name}.count")
        self.program, self.library = program, library
        # (but for what somebody's run left there)
        shutil.copytree(example, self.folder, symlinks=True, ignore=shutil.ignore_patterns("persist.img"))
        self.words, self.first = words_of(self.folder), self.files()
        # (a dispatch of several clients writes one of many texts, and has none that is stored)
        stdout = os.path.join(example, "stdout")
        self.whole = None
        if os.path.isfile(stdout):
            with open(stdout, "rb") as file:
                self.whole = file.read()

    def files(self):
        found = {}
        folder = os.path.join(self.folder, STORE)
        for name in os.listdir(folder) if os.path.isdir(folder) else ():
            with open(os.path.join(folder, name), "rb") as file:
                found[name] = file.read()
        return found

    def stored(self):
        """The text of the store: that of the image where it is one, else that of the text file, which is empty where it is absent."""
        image = os.path.join(self.folder, STORE, "persist.img")
        if os.path.isfile(image):
            with open(image, "rb") as file:
                try:
                    return text_of(file.fileno())
                except BadImage:
                    pass
        text = os.path.join(self.folder, STORE, "persist.txt")
        if not os.path.isfile(text):
            return b""
        with open(text, "rb") as file:
            return file.read()

    def put_back(self):
        folder = os.path.join(self.folder, STORE)
        for name in os.listdir(folder) if os.path.isdir(folder) else ():
            os.remove(os.path.join(folder, name))
        for name, text in self.first.items():
            with open(os.path.join(folder, name), "wb") as file:
                file.write(text)

    def once(self, calls, at, error):
        """The status, the text and the store of a run in which one of the calls fails. `calls` are settings of failing.c. A run that
        doesn't end has no status."""
        self.put_back()
        env = {"LD_PRELOAD": self.library, **calls, "FAIL_AT": str(at), "FAIL_ERRNO": str(error), "FAIL_COUNT": self.count}
        try:
            done = subprocess.run([self.program, *self.words], cwd=self.folder, env=env, capture_output=True, timeout=SECONDS)
        except subprocess.TimeoutExpired as late:
            return None, late.stdout or b"", self.stored()
        return done.returncode, done.stdout, self.stored()

    def once_closed(self, handles):
        """The status and the store of a run over the image that a run before made, which begins with these standard handles closed; no
        store where the image is none any more."""
        self.put_back()
        call = {"args": [self.program, *self.words], "cwd": self.folder, "stdin": subprocess.DEVNULL, "stdout": subprocess.DEVNULL,
                "stderr": subprocess.DEVNULL}
        subprocess.run(**call)
        done = subprocess.run(**call, preexec_fn=lambda: [os.close(it) for it in handles])
        image = os.path.join(self.folder, STORE, "persist.img")
        if not os.path.isfile(image):
            return done.returncode, self.stored()
        with open(image, "rb") as file:
            try:
                return done.returncode, text_of(file.fileno())
            except BadImage:
                return done.returncode, None

    def number(self, calls):
        """How many of these calls a run makes."""
        self.once(calls, 0, EIO)
        with open(self.count) as file:
            return int(file.read())
