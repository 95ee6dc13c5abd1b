"""Which commands failed, and which of these failures only the model has."""
from boot_trace.runs import Result

# Where the kernel has files that the machine's tree lacks (/d is a link to /sys/kernel/debug).
KERNEL = ("/proc", "/sys", "/dev", "/config", "/acct", "/d")
# By the word of a command: which of its arguments, from 0, has to be there.
NEEDED = {"chmod": 1, "rm": 0, "rmdir": 0, "copy": 0}


def failures_of(commands):
    return [it for it in commands if it.result is Result.FAILED]


def needed_path(command):
    """The path that has to be there for a command of the file tree, if it is such a one."""
    place = NEEDED.get(command.word, len(command.arguments))
    return command.arguments[place] if place < len(command.arguments) else None


def is_kernel_path(path):
    return any(path == it or path.startswith(f"{it}/") for it in KERNEL)


def is_only_in_model(command):
    """Whether a command failed because the machine's tree lacks a file of the kernel, so that a device hasn't this failure."""
    path = needed_path(command)
    return command.result is Result.FAILED and str(command.cause) == "Tree Absent" and path is not None and is_kernel_path(path)
