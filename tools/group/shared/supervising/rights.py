"""Which files of a node other users of this machine can reach. They are made for their owner alone:
a record and a console have what was typed, and who can read the file of a lock can hold it, so that
the node does not start. Files of before may have another mode. The group of a file is the owner's
own business."""

import contextlib
import os
import shlex
import stat

from ..files import say

# With this mask others get no right to what a process makes.
MASK = 0o077
OTHERS = 0o007


def is_closed(folder):
    """Whether others cannot get into a folder, or into one above it."""
    while True:
        if not os.stat(folder).st_mode & stat.S_IXOTH:
            return True
        folder, below = os.path.dirname(folder), folder
        if folder == below:
            return False


def is_open(path):
    """Whether others can reach a file, and read or change it."""
    with contextlib.suppress(OSError):
        status = os.stat(path)
        is_file = stat.S_ISREG(status.st_mode)
        return is_file and bool(status.st_mode & OTHERS) and not is_closed(os.path.dirname(path))
    return False


def beside(path):
    """A file, and those of it that stand beside it: of a record also the lock and retired ones."""
    folder, name = os.path.split(os.path.realpath(path))
    with contextlib.suppress(OSError):
        return [os.path.join(folder, it) for it in sorted(os.listdir(folder))
                if it == name or it.startswith(f"{name}.")]
    return []


def tell_open(words):
    """Says which of the files others can reach, and what to type."""
    trace = os.environ.get("PGROUP_TRACE")
    files = [it for path in (words.record, words.console, trace) if path for it in beside(path)]
    found = shlex.join(filter(is_open, files))
    if found:
        say(words, f"other users can read what was typed, or hold a lock: chmod o= {found}")
