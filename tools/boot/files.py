"""Reads a text that is given by name, and writes a file whole or not at all."""
import os
import stat
import tempfile

from product.texts import Stop, mask, text_of

UNREADABLE, UNWRITABLE = 2, 2


def read_text(path, most):
    """The text of a plain file, or of standard input's device or a pipe that somebody named."""
    try:
        with open(path, "rb") as file:
            if stat.S_ISDIR(os.fstat(file.fileno()).st_mode):
                raise Stop(UNREADABLE, f"{path}: it is a folder")
            content = file.read(most + 1)
    except OSError as why:
        raise Stop(UNREADABLE, f"{path}: {'it is a folder' if isinstance(why, IsADirectoryError) else why.strerror}") from None
    if len(content) > most:
        raise Stop(UNREADABLE, f"{path}: it has more than {most} bytes")
    return text_of(content)


def write_whole(path, content, status=UNWRITABLE):
    """Writes the bytes beside its place, and renames it when it is whole."""
    folder, name = os.path.split(os.path.abspath(path))
    made = None
    try:
        if os.path.isdir(path):
            raise IsADirectoryError(21, "it is a folder")
        number, made = tempfile.mkstemp(prefix=f".{name}.", dir=folder)
        with open(number, "wb") as file:
            file.write(content)
        os.chmod(made, 0o666 & ~mask())
        os.rename(made, path)
        made = None
    except OSError as why:
        raise Stop(status, f"{path}: {why.strerror}") from None
    finally:
        if made:
            os.unlink(made)
