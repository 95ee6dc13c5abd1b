"""A private copy of the files that `initsim run` reads below ROOT."""
import os
import posixpath
import stat

from product.disk import IMAGE, copy_file
from product.rc import RC_FOLDERS, ROOT_RC, Scanner
from product.texts import Stop, expand, is_legal_name, is_utf8, most_value_bytes, text_of

UNREADABLE = 2
# The files beside the rc files, in which `run` looks.
BUILD_FILES = ("/system/build.prop", "/vendor/build.prop")
POLICY = ("/property_contexts", "/property_allow")
STORE_FOLDER = "/data/property"
STORE_TEXT = f"{STORE_FOLDER}/persist.txt"
STORE_IMAGE = f"{STORE_FOLDER}/{IMAGE}"
# Above this, `run` refuses a file by its size, so no more is copied of it.
MOST_BYTES = 1_048_576
MOST_STORE_BYTES = 33_554_432
MOST_LINKS = 40


class Mirror:
    """Copies path after path of ROOT to a folder, with each link on the way, so that a path means in the copy what it means in ROOT."""

    def __init__(self, root, copy):
        self.root, self.copy = root, copy
        os.makedirs(copy, exist_ok=True)

    def take(self, path, most=MOST_BYTES):
        """Copies what is at the path; returns its place in the copy, or None if nothing is there."""
        todo, at, links = parts_of(path)[::-1], "", 0
        while todo:
            part = todo.pop()
            if part == "..":
                at = posixpath.dirname(at).rstrip("/")
                continue
            here = f"{at}/{part}"
            mode = self.mode_of(here)
            if mode is None:
                return None
            if not stat.S_ISLNK(mode):
                self.make(here, mode, most)
                at = here
                continue
            links += 1
            target = self.take_link(here)
            if links > MOST_LINKS:
                return None
            at = "" if target.startswith("/") else at
            todo += parts_of(target)[::-1]
        return self.copy + at

    def mode_of(self, path):
        try:
            return os.lstat(self.root + path).st_mode
        except (FileNotFoundError, NotADirectoryError):
            return None
        except (OSError, ValueError) as why:
            raise self.stop(path, why) from None

    def take_link(self, path):
        target = os.readlink(self.root + path)
        if not os.path.lexists(self.copy + path):
            os.symlink(target, self.copy + path)
        return target

    def make(self, path, mode, most):
        """Makes a directory, or copies a plain file."""
        place = self.copy + path
        if os.path.lexists(place):
            return
        if stat.S_ISDIR(mode):
            os.mkdir(place)
            return
        if not stat.S_ISREG(mode):
            raise Stop(UNREADABLE, f"{self.root}{path}: it is no plain file")
        try:
            copy_front(self.root + path, place, most)
        except OSError as why:
            raise self.stop(path, why) from None

    def names(self, path):
        """The names in a folder of ROOT, each of which is taken; None if the path leads to no folder."""
        place = self.take(path)
        if place is None or not os.path.isdir(place):
            return None
        source = self.root + place[len(self.copy) :]
        try:
            if not stat.S_ISDIR(os.stat(source).st_mode):
                return None
            names = sorted(os.listdir(source), key=os.fsencode)
        except OSError as why:
            raise self.stop(path, why) from None
        # (of what is neither file, folder nor link the program takes no notice)
        names = [it for it in names if is_taken(os.path.join(source, it))]
        for name in names:
            self.take(posixpath.join(path, name))
        return names

    def stop(self, path, why):
        return Stop(UNREADABLE, f"{self.root}{path}: {getattr(why, 'strerror', None) or why}")


def is_taken(place):
    mode = os.lstat(place).st_mode
    return stat.S_ISREG(mode) or stat.S_ISDIR(mode) or stat.S_ISLNK(mode)


def parts_of(path):
    return [it for it in path.split("/") if it not in ("", ".")]


def copy_front(source, target, most):
    """Copies a plain file up to one byte more than the program takes."""
    with open(source, "rb") as old, open(target, "xb") as new:
        new.write(old.read(most + 1))


class Tree:
    """What `run` reads of ROOT, copied once. A run changes nothing in it but the store, which is put back before each run."""

    def __init__(self, root, room):
        self.copy = os.path.join(room, "tree")
        self.mirror = Mirror(root.rstrip("/") or "/", self.copy)
        self.kept_image = os.path.join(room, IMAGE)
        for path in (*BUILD_FILES, *POLICY):
            self.mirror.take(path)
        self.mirror.take(STORE_TEXT, MOST_STORE_BYTES)
        self.keep_image()
        self.properties = read_properties(self.mirror)
        self.scanned = set()
        self.take_rc_files()

    def keep_image(self):
        """Copies the persistent store's image, if there is one, so that each run begins with it."""
        folder = self.mirror.take(STORE_FOLDER)
        self.image = os.path.join(folder, IMAGE) if folder else self.copy + STORE_IMAGE
        source = self.mirror.root + self.image[len(self.copy) :]
        self.has_image = os.path.isfile(source)
        if self.has_image:
            try:
                copy_file(source, self.kept_image)
            except OSError as why:
                raise self.mirror.stop(STORE_IMAGE, why) from None

    def reset(self):
        """Puts the store back as it was in ROOT."""
        if os.path.lexists(self.image):
            os.unlink(self.image)
        if self.has_image:
            copy_file(self.kept_image, self.image)

    def take_rc_files(self):
        """Takes the root file and those of the five directories, with what they import."""
        self.take_rc_file(ROOT_RC)
        for folder in RC_FOLDERS:
            for name in self.mirror.names(folder) or ():
                self.take_rc_file(posixpath.join(folder, name))

    def take_rc_file(self, path):
        """Takes an rc file and those that it imports, each once."""
        todo = [path]
        while todo:
            path = todo.pop()
            place = self.mirror.take(path)
            if path not in self.scanned and place is not None and os.path.isfile(place):
                self.scanned.add(path)
                todo += [it for wanted in imports_in(place) for it in self.imported(wanted)]

    def imported(self, wanted):
        """The paths of the files to which an import leads."""
        path = expand(wanted, self.properties)[0]
        if path is None or not path.startswith("/"):
            return []
        path = path.rstrip("/")
        names = self.mirror.names(path)
        return [path] if names is None else [posixpath.join(path, it) for it in names]


def imports_in(place):
    """What the imports of an rc file name."""
    with open(place, "rb") as file:
        content = file.read()
    # (most files have none, and needn't be split into words)
    lines = Scanner(text_of(content)).lines() if b"import" in content else ()
    return [words[1] for _, words in lines if words[0] == "import" and len(words) == 2]


def read_properties(mirror):
    """The properties of the build files, by which paths of imports are expanded."""
    found = {}
    for path in BUILD_FILES:
        place = mirror.take(path)
        if place is None or not os.path.isfile(place):
            continue
        with open(place, "rb") as file:
            text = text_of(file.read())
        for line in text.split("\n"):
            name, equals, value = (it.strip(" \t\r") for it in line.partition("="))
            if equals and not name.startswith("#"):
                found[name] = value
    return {name: value for name, value in found.items() if is_settable(name, value)}


def is_settable(name, value):
    return is_legal_name(name) and not name.startswith("ctl.") and is_utf8(value) and len(value.encode()) <= most_value_bytes(name)
