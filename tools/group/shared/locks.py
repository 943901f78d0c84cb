"""The lock of a record: one process at a time. `pgroup node` takes it before it loads the record,
and holds it until it ends. So a script holds it only while no node is to run: `renew` as long as it
reads and writes records, `supervise` while it looks at what the node before has left.

It is an exclusive `flock` of the open file RECORD.lock, which is made where it is missing, stays
empty, and is never removed: a process that waited for a removed one would hold another's. The
system frees it with the process, also by kill -9."""

import contextlib
import errno
import fcntl
import os
import stat

from .files import Refused
from .plain import plain
from .watch import words_of_process

# How many characters of a process's words are shown.
SHOWN = 80
# Who holds a lock that this machine's list of locks does not tell of.
SOMEBODY = "another process (maybe in another container, or on another machine of this volume)"


class InUse(Refused):
    """Another process is at this record. That may end without a person."""


def path_of(record):
    """The file of a record's lock. A symbolic link stands for the record that it leads to."""
    return os.path.realpath(record) + ".lock"


def match_owner(file, record):
    """Gives a new lock the owner and the rights of its record, as far as this user may: where root
    was first, as in `renew`, the node has to open it too. Others get no right: whoever can read it
    can hold it."""
    with contextlib.suppress(OSError):
        then = os.stat(record)
        os.fchmod(file, stat.S_IMODE(then.st_mode) & 0o770)
        os.fchown(file, then.st_uid, then.st_gid)


def opened(record):
    """Opens the lock's file, and makes it where it is missing. It is opened for writing, as NFS
    wants for an exclusive lock."""
    path = path_of(record)
    flags = os.O_RDWR | os.O_CLOEXEC
    with contextlib.suppress(FileNotFoundError):
        return os.open(path, flags)
    try:
        file = os.open(path, flags | os.O_CREAT | os.O_EXCL, 0o600)
    except FileExistsError:
        return os.open(path, flags)  # Another process was quicker.
    match_owner(file, record)
    return file


def is_taken(file, path):
    """Takes the lock of an open file, unless another process has it, and says whether one has."""
    try:
        fcntl.flock(file, fcntl.LOCK_EX | fcntl.LOCK_NB)
    except OSError as fault:
        if fault.errno in (errno.EWOULDBLOCK, errno.EACCES):
            return True
        fault.filename = path
        raise
    return False


def lockers_of(inode):
    """The processes that the system's list names as holders of a flock on an inode of this number,
    each with the device that it names. It has those of this container alone."""
    with open("/proc/locks", encoding="ascii", errors="replace") as locks:
        lines = [line.split() for line in locks]
    for _, kind, *words in (it for it in lines if len(it) > 5):
        major, minor, number = words[3].split(":") if kind == "FLOCK" else ("", "", "")
        if number == str(inode) and int(words[2]) > 0:
            yield int(words[2]), (int(major, 16), int(minor, 16))


def is_at_file(pid, device, wanted):
    """Whether a process has this file open. Where that cannot be seen, as of another user, whether
    the device is the file's: the system's list has another one for files of btrfs."""
    folder = f"/proc/{pid}/fd"
    try:
        names = os.listdir(folder)
    except PermissionError:
        return device == (os.major(wanted.st_dev), os.minor(wanted.st_dev))
    except OSError:
        return False  # It has ended, and left the open file to a child.
    for name in names:
        with contextlib.suppress(OSError):
            if os.path.samestat(os.stat(os.path.join(folder, name)), wanted):
                return True
    return False


def text_of_process(pid):
    shown = plain(" ".join(it for it in words_of_process(pid) if it))
    more = ".." if len(shown) > SHOWN else ""
    return f"process {pid} ({shown[:SHOWN]}{more})" if shown else f"process {pid}"


def holder_in_list(file):
    """Who holds the lock of an open file, in words."""
    wanted = os.fstat(file)
    try:
        found = [pid for pid, at in lockers_of(wanted.st_ino) if is_at_file(pid, at, wanted)]
    except (OSError, ValueError):
        found = []
    return text_of_process(found[0]) if found else SOMEBODY


def holder_of(record):
    """Who holds the lock of a record, in words, or None. Nothing is made for that."""
    path = path_of(record)
    try:
        file = os.open(path, os.O_RDWR | os.O_CLOEXEC)
    except FileNotFoundError:
        return None
    try:
        return holder_in_list(file) if is_taken(file, path) else None
    finally:
        os.close(file)


@contextlib.contextmanager
def held(record):
    """Holds the lock of a record. InUse, which says who is there, where another process does."""
    file = opened(record)
    try:
        if is_taken(file, path_of(record)):
            raise InUse(f"{holder_in_list(file)} runs at the record {record} already")
        yield
    finally:
        os.close(file)
