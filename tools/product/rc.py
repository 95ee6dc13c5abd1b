"""The rc files that init reads, with what they import."""
import os
import posixpath
import re
import stat

from product.apex import APEX_RC, apex_files, tell_packed
from product.derived import BOOT_PROPS
from product.device import normal, read_plain
from product.mounts import MOUNTED_RC, is_early, mounted
from product.services import HEADERS, Services
from product.texts import BAD_GIVEN, NO_PRODUCT, Stop, bytes_of, counted, expand, is_utf8, text_of

ROOT_RC = "/system/etc/init/hw/init.rc"
# What AOSP's root file imports for any product, though few have it.
OFTEN_ABSENT = "/init.${ro.hardware}.rc"
EMPTY = b"# The product has no such file. AOSP's root file imports it for any product.\n"
RC_FOLDERS = [f"/{it}/etc/init" for it in ("system", "system_ext", "vendor", "odm", "product")]


class Scanner:
    """Reads the words of an rc file, as docs/FORMATS.md has them under "Tokens and lines"."""

    ESCAPES = {"n": "\n", "r": "\r", "t": "\t", "\\": "\\"}

    def __init__(self, text):
        self.text, self.at, self.line = text, 0, 1
        # (line feeds in quotes up to here)
        self.quoted_feeds = 0

    def lines(self):
        """Each line that has words, with the number of the line on which the first one begins."""
        words, number = [], 0
        while self.at < len(self.text):
            here = self.text[self.at]
            if here == "\n":
                if words:
                    yield number, words
                words = []
                self.at, self.line = self.at + 1, self.line + 1
            elif here in " \t\r":
                self.at += 1
            elif here == "#":
                self.at = self.end_of_line()
            else:
                number = number if words else self.line
                word = self.word()
                if word is None:
                    return
                words += [word] if word != "" or self.quoted else []
        if words:
            yield number, words

    def end_of_line(self):
        end = self.text.find("\n", self.at)
        return len(self.text) if end < 0 else end

    def word(self):
        """The word that begins here; None where the file ends within it."""
        made, self.quoted = [], False
        while self.at < len(self.text) and self.text[self.at] not in " \t\r\n":
            here = self.text[self.at]
            self.at += 1
            piece = self.in_quotes() if here == '"' else self.escaped() if here == "\\" else here
            if piece is None:
                return None
            made.append(piece)
        return "".join(made)

    def in_quotes(self):
        self.quoted = True
        end = self.text.find('"', self.at)
        if end < 0:
            return None
        piece = self.text[self.at : end]
        self.line += piece.count("\n")
        self.quoted_feeds += piece.count("\n")
        self.at = end + 1
        return piece

    def escaped(self):
        rest = self.text[self.at : self.at + 2]
        if not rest:
            return None
        if rest[0] != "\n" and rest != "\r\n":
            self.at += 1
            return self.ESCAPES.get(rest[0], rest[0])
        self.at += 1 if rest[0] == "\n" else 2
        self.line += 1
        while self.text[self.at : self.at + 1] in (" ", "\t"):
            self.at += 1
        return ""


class RcFiles:
    """The rc files that init reads, by their paths, as they are taken."""

    def __init__(self, device, held, report):
        self.device, self.held, self.report = device, held, report
        self.files, self.scanned, self.told, self.absent = {}, set(), set(), set()
        # (each mount_all that isn't early, with its place and the words of its header)
        self.mounts = []
        self.services = Services()
        # (the user's own files, of which a device has none)
        self.own = set()

    def take_all(self, added, data):
        """Takes all, with rc files of the user's own, and what mount_all does where /data is so encrypted."""
        if not self.take_file(ROOT_RC):
            raise Stop(NO_PRODUCT, f"{self.device.out}: it has no {ROOT_RC}, so it is no product's output folder")
        self.report.took(ROOT_RC)
        self.take_imports(ROOT_RC)
        for folder in RC_FOLDERS:
            taken = self.take_folder(folder)
            if taken is None:
                self.report.lacks(f"{folder}: there is no such folder")
                continue
            self.report.took(f"{folder}: {counted(len(taken), 'rc file', 'rc files')}")
            for path in taken:
                self.take_imports(path)
        self.take_apexes()
        for given in added:
            self.add(given)
        self.add_mounted(data)
        self.tell_left()
        return self.files

    def take_apexes(self):
        """Takes the rc files of the APEXes, by an rc file that init reads last."""
        taken = [it for it in apex_files(self.device, self.held) if self.take_file(it)]
        tell_packed(self.device, self.report)
        if not taken:
            return
        lines = ["# This file belongs to the model: on a device, init reads these at perform_apex_config.", *(f"import {it}" for it in taken)]
        self.add_own(APEX_RC, "".join(f"{it}\n" for it in lines))
        self.report.took(f"/apex: {counted(len(taken), 'rc file', 'rc files')}, imported by {APEX_RC}, which belongs to the model")
        self.take_imports(APEX_RC)

    def add_mounted(self, data):
        """Adds an rc file for what mount_all would do."""
        text, place = mounted(self.mounts, data)
        if data and not text:
            self.report.lacks(f"mount_all: no rc file that init reads has one for /data, so --data {data} changes nothing")
        if text:
            self.add_own(MOUNTED_RC, text)
            self.report.took(f"--data {data}, as {MOUNTED_RC}, for the mount_all of {place}")
        for it, _, _ in self.mounts:
            if it != place:
                self.report.left(f"{it}: mount_all isn't modelled" + ("" if place else "; --data, or an rc file of your own (--add), says what it queues"))

    def add(self, given):
        """Takes an rc file of the user's own."""
        path = f"{RC_FOLDERS[0]}/zz_{os.path.basename(given)}"
        if path in self.files:
            raise Stop(BAD_GIVEN, f"{given}: there is a {path} already")
        self.files[path] = read_plain(given, BAD_GIVEN)
        self.own.add(path)
        self.report.took(f"{given}, as {path}")
        self.take_imports(path)

    def add_own(self, path, text):
        """Adds an rc file of the model's."""
        if path in self.files:
            raise Stop(BAD_GIVEN, f"there is a {path} already, and the model needs one of this name")
        self.files[path] = bytes_of(text)

    def take_file(self, path):
        """Whether the file is there."""
        if path not in self.files:
            content = self.device.read(path)
            if content is None:
                return False
            self.files[path] = content
        return True

    def take_folder(self, folder):
        """The paths of the plain files of a folder, which init reads; None where there is none."""
        entries = self.device.entries(folder)
        if entries is None:
            return None
        taken = []
        for name, mode in entries:
            path = posixpath.join(folder, name)
            if stat.S_ISLNK(mode):
                self.report.left(f"{path}: a link, and init reads the plain files of a folder alone")
            elif not is_utf8(name):
                self.report.left(f"{path}: its name isn't UTF-8")
            elif stat.S_ISREG(mode) and self.take_file(path):
                taken.append(path)
                if not name.endswith(".rc") and folder in RC_FOLDERS:
                    self.report.took(f"{path}: its name doesn't end in .rc, and init reads it all the same")
        return taken

    def take_imports(self, path):
        """Takes what a file imports, with all that this imports; each file's imports once."""
        todo = [path]
        while todo:
            path = todo.pop(0)
            if path not in self.scanned:
                self.scanned.add(path)
                todo[:0] = self.imported_by(path)

    def imported_by(self, path):
        """The files that a file imports, which are taken."""
        taken, header = [], []
        for number, words in Scanner(text_of(self.files[path])).lines():
            place = f"{path}:{number}"
            if not self.is_own(place):
                self.services.add(words, place)
            if words[0] in HEADERS:
                header = words
            if words[0] == "import" and len(words) == 2:
                taken += self.take_import(words[1], place)
            elif words[0] == "mount_all" and is_early(words):
                self.report.left(f"{place}: mount_all isn't modelled; with --early it queues nothing")
            elif words[0] == "mount_all" and header[:1] == ["on"]:
                self.mounts.append((place, words, header))
        return taken

    def take_import(self, wanted, place):
        """The files to which an import leads, which are taken."""
        path, failure = expand(wanted, self.held)
        if path is None:
            self.tell_failure(wanted, failure, place)
            return []
        is_there = path.startswith("/") and self.device.follow(path) is not None
        path = normal(path)
        if is_there and self.device.is_folder(path):
            taken = self.take_folder(path)
            what = f"{path}: {counted(len(taken), 'rc file', 'rc files')}"
        elif is_there and self.take_file(path):
            taken, what = [path], path
        else:
            self.absent.add(path)
            stands = wanted == OFTEN_ABSENT
            hint = "; an empty file stands for it, as AOSP's root file imports it for any product" if stands else ""
            self.report.lacks(f"{path}, imported at {place}{hint}", trips=not stands and not self.is_own(place) and self.device.surely_lacks(path))
            if stands:
                self.files[path] = EMPTY
            return []
        if path not in self.told and not self.scanned.issuperset(taken):
            self.told.add(path)
            self.report.took(f"{what}, imported at {place}")
        return taken

    def is_own(self, place):
        return place.rpartition(":")[0] in self.own

    def tell_failure(self, wanted, name, place):
        if not name:
            self.report.left(f"{place}: {wanted} can't be expanded", trips=not self.is_own(place))
            return
        source = next((it for it, to in BOOT_PROPS.items() if to == name), name)
        fits = self.values_for(wanted, "${" + name + "}")
        hint = f"; {' or '.join(fits)} would lead to a file" if fits else ""
        self.report.lacks(f"{name}, by which {place} imports {wanted}: give it by --prop {source}=VALUE{hint}")

    def values_for(self, wanted, name):
        """The values by which the import would lead to a file that isn't taken yet, where only the file's name depends on them."""
        folder, last = posixpath.split(wanted)
        front, _, rest = last.partition(name)
        if "$" in folder + front + rest:
            return []
        shape = re.compile(re.escape(front) + r"([^.]+)" + re.escape(rest))
        names = [it for it, mode in self.device.entries(folder) or [] if not stat.S_ISDIR(mode)]
        found = [shape.fullmatch(it) for it in names if posixpath.join(folder, it) not in self.files]
        return [it[1] for it in found if it]

    def tell_left(self):
        """Says which rc files of the partitions nothing reads."""
        for folder in RC_FOLDERS:
            place = self.device.follow(folder)
            for at, _, names in sorted(os.walk(place)) if place else ():
                for name in sorted(names):
                    path = posixpath.join(folder, os.path.relpath(os.path.join(at, name), place))
                    if at != place and name.endswith(".rc") and path not in self.files and path not in self.absent:
                        self.report.left(f"{path}: nothing imports it")
