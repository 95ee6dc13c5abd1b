"""The programs of this repository, for the tools that run them. What `./initsim` and `./rc-lint` run is what each tool runs."""
import os
import subprocess

LAUNCHER = os.path.join(os.path.dirname(os.path.realpath(__file__)), "launch")


class NotBuilt(Exception):
    """The launcher gave no program. It says why on standard error; this has its status."""

    def __init__(self, status):
        super().__init__(f"the launcher gave no program (status {status})")
        self.status = status


def path_of(name):
    """The path of the program that the launcher would run. The launcher builds it if there is none of the sources as they stand."""
    ran = subprocess.run([LAUNCHER, "--build", name], stdin=subprocess.DEVNULL, stdout=subprocess.PIPE)
    path = os.fsdecode(ran.stdout).removesuffix("\n")
    if ran.returncode or not path:
        raise NotBuilt(ran.returncode)
    return path
