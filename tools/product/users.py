"""The product's own users and groups."""

# The partitions that have them, in the order in which the C library of a device looks.
PARTITIONS = ("system", "vendor", "odm", "product", "system_ext")
NAMES = ("passwd", "group")


def take_users(device, report):
    """The files of users and groups by their paths, as they are."""
    paths = [f"/{partition}/etc/{name}" for partition in PARTITIONS for name in NAMES]
    files = {path: content for path in paths if (content := device.read(path)) is not None}
    if files:
        report.took(f"users and groups: {', '.join(files)}")
    else:
        report.lacks("users and groups: no partition has an etc/passwd or etc/group")
    return files
