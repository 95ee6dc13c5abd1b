"""The library of the Rattle kit, as `rt` itself uses it, for the tools that need more of it than `rt` has words for."""
import importlib.machinery
import importlib.util
import os
import shutil
import signal
import sys
import threading

TOP = os.path.dirname(os.path.dirname(os.path.realpath(__file__)))


def load():
    """The library, which stands beside `rt`; or None where there is none."""
    rt = shutil.which("rt")
    path = os.path.join(os.path.dirname(os.path.realpath(rt)), "rtlib.py") if rt else ""
    if not os.path.isfile(path):
        return None
    sys.dont_write_bytecode = True
    loader = importlib.machinery.SourceFileLoader("rtlib", path)
    made = importlib.util.module_from_spec(importlib.util.spec_from_loader("rtlib", loader))
    sys.modules["rtlib"] = made
    loader.exec_module(made)
    # (its first call sets a signal's handler, which only the main thread may)
    made.guarded()
    signal.signal(signal.SIGINT, signal.SIG_DFL)
    count_once(made.Crate)
    return made


def count_once(crate):
    """Lets a crate's sum count each crate below it once, and not once for each way down to it, as the kit's own does: of these there are some
    6,000 below `initsim`, for which that takes 12 seconds. Each call reads all files anew, so a change between two calls is seen."""
    count, counting = crate.stamp, threading.local()

    def stamp(self):
        sums = getattr(counting, "sums", None)
        if sums is not None:
            if self.folder not in sums:
                sums[self.folder] = count(self)
            return sums[self.folder]
        counting.sums = {}
        try:
            return count(self)
        finally:
            counting.sums = None

    crate.stamp = stamp


def crate_of(library, name):
    """The crate of this name, with those below it."""
    return library.Crate(os.path.join(TOP, "crates", name), TOP, {}, name=name)
