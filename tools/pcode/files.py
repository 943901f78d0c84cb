"""Files that are read and written whole."""

import os
import stat

from .faults import Fault


def read_whole(name):
    try:
        with open(name, "rb") as file:
            return file.read()
    except OSError as fault:
        raise Fault(f"it cannot be read: {fault.strerror}", name) from None


def write_whole(name, data):
    """Writes a file that is never there in part: beside it first, and then to its name. A symbolic
    link stands for the file that it leads to. A device or a pipe is written to, and stays."""
    if os.path.islink(name):
        name = os.path.realpath(name)
    try:
        if os.path.exists(name) and not stat.S_ISREG(os.stat(name).st_mode):
            with open(name, "wb", buffering=0) as place:
                place.write(data)
            return
        fresh = f"{name}.{os.getpid()}"
        with open(fresh, "xb") as file:
            try:
                file.write(data)
                file.flush()
                os.replace(fresh, name)
            except OSError:
                os.remove(fresh)
                raise
    except OSError as fault:
        raise Fault(f"it cannot be written: {fault.strerror}", name) from None


def drop_output():
    """Lets nothing more be written to standard output, not even at the end."""
    os.dup2(os.open(os.devnull, os.O_WRONLY), 1)
