"""The files of a product's output folder by their paths on the device."""
import errno
import os
import posixpath
import stat

from product.texts import UNREADABLE, Stop

# What is mounted on a device, and stands right below OUT. All else of the device's root stands below OUT/root.
PARTITIONS = {"system", "system_ext", "system_dlkm", "vendor", "vendor_dlkm", "odm", "odm_dlkm", "product", "oem", "apex"}
# The folder in which init keeps the properties of the boot image, and where the build has them.
RENAMED = {"second_stage_resources": "ramdisk"}
MOST_LINKS = 40
# The most bytes of all files that initsim reads.
MOST_BYTES = 33_554_432


def parts_of(path):
    return [it for it in path.split("/") if it not in ("", ".")]


def normal(path):
    """The path with its empty parts, `.` and `..` taken away, as it stands in ROOT."""
    return "/" + posixpath.normpath(path).lstrip("/") if path.startswith("/") else path


def mode_at(place):
    """The mode of what stands there, a link not followed; None where nothing does, or could."""
    if "\0" in place:
        return None
    try:
        return os.lstat(place).st_mode
    except OSError as why:
        if why.errno in (errno.ENOENT, errno.ENOTDIR, errno.ENAMETOOLONG):
            return None
        raise Stop(UNREADABLE, f"{place}: {why.strerror}") from None


class Device:
    """The files of the product by their paths on the device."""

    def __init__(self, out):
        self.out = out
        beside = os.path.join(out, "root")
        self.rest = beside if os.path.isdir(beside) else out

    def place_of(self, parts):
        """Where in OUT a path of the device stands, if no part of it is a link."""
        if not parts:
            return self.rest
        first = RENAMED.get(parts[0], parts[0])
        base = os.path.join(self.out, first)
        if parts[0] not in PARTITIONS and parts[0] not in RENAMED or mode_at(base) is None:
            base = os.path.join(self.rest, first)
        return os.path.join(base, *parts[1:])

    def follow(self, path):
        """Where in OUT the path leads, links followed as on the device; None where nothing is there."""
        parts, is_there = self.resolve(path)
        return self.place_of(parts) if is_there else None

    def resolve(self, path):
        """The parts of the path on the device to which the path leads, links followed, and whether something is there. If nothing is, they
        are those with which the search ended."""
        todo, at, links = parts_of(path)[::-1], [], 0
        while todo:
            part = todo.pop()
            if part == "..":
                del at[-1:]
                continue
            place = self.place_of([*at, part])
            mode = mode_at(place)
            if mode is None:
                return [*at, part, *todo[::-1]], False
            if not stat.S_ISLNK(mode):
                at.append(part)
                continue
            links += 1
            if links > MOST_LINKS:
                return [*at, part, *todo[::-1]], False
            target = os.readlink(place)
            at = [] if target.startswith("/") else at
            todo += parts_of(target)[::-1]
        return at, True

    def has_part(self, parts):
        """Whether OUT has the partition, the APEX or the root folder of a path without links, so that what OUT lacks there, a device lacks
        too."""
        if parts[:1] and parts[0] not in PARTITIONS:
            return len(parts) == 1 and self.rest != self.out
        top = parts[: 2 if parts[:1] == ["apex"] else 1]
        place = self.place_of(top)
        return stat.S_ISDIR(mode_at(place) or 0) and bool(names_in(place))

    def surely_lacks(self, path):
        """Whether nothing is at the path on a device either."""
        parts, is_there = self.resolve(path)
        return path.startswith("/") and not is_there and self.has_part(parts)

    def is_folder(self, path):
        place = self.follow(path)
        return place is not None and stat.S_ISDIR(mode_at(place) or 0)

    def read(self, path):
        """A file's bytes; None where nothing is at the path."""
        place = self.follow(path)
        return None if place is None else read_plain(place, UNREADABLE)

    def entries(self, path):
        """The names of a folder with their modes, in byte order; None where there is no folder."""
        if not self.is_folder(path):
            return None
        place = self.follow(path)
        return [(it, mode_at(os.path.join(place, it)) or 0) for it in names_in(place)]


def names_in(place):
    """The names in a folder, in byte order."""
    try:
        return sorted(os.listdir(place), key=os.fsencode)
    except OSError as why:
        raise Stop(UNREADABLE, f"{place}: {why.strerror}") from None


def read_plain(place, status):
    """The bytes of a plain file, else Stop with this status."""
    try:
        # (a pipe or a device would be waited for)
        found = os.stat(place)
        if not stat.S_ISREG(found.st_mode):
            raise Stop(status, f"{place}: it is no plain file")
        if found.st_size > MOST_BYTES:
            raise Stop(status, f"{place}: it has {found.st_size} bytes, and {MOST_BYTES} is the most")
        with open(place, "rb") as file:
            return file.read()
    except OSError as why:
        raise Stop(status, f"{place}: {why.strerror}") from None
