"""The executables of the product by their paths on the device, and the services whose program isn't among them."""
import os
import stat
from typing import NamedTuple

from product.device import PARTITIONS
from product.texts import Stop, counted, quoted

# The most bytes of the text (docs/FORMATS.md).
MOST_TEXT_BYTES = 1_048_576
APEXES = "apex"
# What is looked through besides the partitions.
OF_ROOT = {"bin", "init", "sbin"}
# In these folders AOSP's fs_config makes each file executable, whatever its mode in OUT. A library is executable nowhere.
EXECUTABLE_FOLDERS = {"bin", "sbin", "xbin"}
LIBRARY = ".so"
# A path that passes more links to folders isn't followed.
MOST_FOLDER_LINKS = 2


class Folder(NamedTuple):
    path: str
    parts: list  # of the path without links to which it leads
    links: int  # to folders, in its path


def is_executable(parts, mode):
    """Whether a device can execute the plain file at a path without links."""
    return bool(EXECUTABLE_FOLDERS.intersection(parts[:-1])) or bool(mode & 0o111) and not parts[-1].endswith(LIBRARY)


class Programs:
    """What OUT tells of a device's executables: their paths, the folders below which it has no others, and the paths at and below which
    there may be any."""

    def __init__(self, device, report):
        self.device, self.report = device, report
        self.executables, self.whole, self.unknown = set(), set(), set()
        self.todo = []
        apexes = [f"{APEXES}/{name}" for name, _ in device.entries(f"/{APEXES}") or []]
        for it in sorted((PARTITIONS | OF_ROOT) - {APEXES}) + apexes:
            self.guard(f"/{it}", self.look_top, f"/{it}")
        while self.todo:
            folder = self.todo.pop()
            self.guard(folder.path, self.look_in, folder)

    def guard(self, path, look, *words):
        """Looks somewhere. If that can't be read, nothing is known of the path."""
        try:
            look(*words)
        except (OSError, Stop):
            self.unknown.add(path)
            self.report.lacks(f"programs: {path} can't be read, so nothing is known of the executables there")

    def look_top(self, path):
        parts, is_there = self.device.resolve(path)
        if is_there:
            self.look_at(path, 0)
        if self.device.is_folder(path) and self.device.has_part([*parts, "bin"]):
            self.whole.add(path)

    def look_in(self, folder):
        with os.scandir(self.device.place_of(folder.parts)) as entries:
            for it in entries:
                path, parts = f"{folder.path}/{it.name}", [*folder.parts, it.name]
                if it.is_symlink():
                    self.look_at(path, folder.links + 1)
                elif it.is_dir(follow_symlinks=False):
                    self.todo.append(Folder(path, parts, folder.links))
                elif it.is_file(follow_symlinks=False) and is_executable(parts, it.stat(follow_symlinks=False).st_mode):
                    self.executables.add(path)

    def look_at(self, path, links):
        """Looks at what a path leads to, which passes so many links if it leads to a folder."""
        parts, is_there = self.device.resolve(path)
        if not is_there:
            self.unknown.update(() if self.device.has_part(parts) else (path,))
            return
        mode = os.lstat(self.device.place_of(parts)).st_mode
        if stat.S_ISDIR(mode) and links > MOST_FOLDER_LINKS:
            self.unknown.add(path)
        elif stat.S_ISDIR(mode):
            self.todo.append(Folder(path, parts, links))
        elif stat.S_ISREG(mode) and is_executable(parts, mode):
            self.executables.add(path)

    def lacks(self, path):
        """Whether a device surely has no executable of this path."""
        parts = path.split("/")
        if parts[0] or not {"", ".", ".."}.isdisjoint(parts[1:]):
            return False
        fronts = {"/".join(parts[:count]) for count in range(2, len(parts) + 1)}
        return not self.whole.isdisjoint(fronts - {path}) and fronts.isdisjoint(self.executables | self.unknown)

    def text(self):
        lines = [*map(quoted, self.executables | self.unknown), *(f"{quoted(it)}/" for it in self.whole)]
        return "".join(f"{it}\n" for it in sorted(lines))


def take_programs(device, services, report):
    """The text of `programs`; None if OUT has no executables, or too many. It names each of the services whose program isn't among them."""
    programs = Programs(device, report)
    if not programs.executables:
        report.lacks("programs: OUT has no executable, so no service's program is looked for")
        return None
    for it in services.kept():
        if programs.lacks(it.path):
            is_started = services.may_start(it)
            hint = "" if is_started else "; the service is disabled, and no rc file starts it"
            report.lacks(f"{it.path}, the program of {it.name} at {it.place}: OUT has no such executable{hint}", trips=is_started)
    text = programs.text()
    if len(text) > MOST_TEXT_BYTES:
        report.lacks(f"programs: it would have {len(text)} bytes, and {MOST_TEXT_BYTES} is the most, so it isn't made")
        return None
    report.took(f"programs: {counted(len(programs.executables), 'path of an executable', 'paths of executables')}")
    return text
