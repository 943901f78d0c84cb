"""Why a record cannot be loaded or saved, as far as its supervisor can find out: the node says only
that it is so (D2), and then does not run."""

import errno
import os
import stat

from ..locks import InUse, held, path_of

# What is written to try it.
TRIED = bytes(4096)


def what_has_place(path, of=""):
    """What has the place of a file, where that is no file, or None."""
    try:
        mode = os.stat(path).st_mode
    except OSError:
        return None
    if stat.S_ISREG(mode):
        return None
    what = "a folder" if stat.S_ISDIR(mode) else "a pipe" if stat.S_ISFIFO(mode) else "no file"
    return f"{path}{of} is {what}"


def free_in(folder):
    """How many bytes are free for this user on the disk of a folder, and how many files."""
    room = os.statvfs(folder)
    is_root = os.geteuid() == 0
    blocks, files = (room.f_bfree, room.f_ffree) if is_root else (room.f_bavail, room.f_favail)
    return room.f_frsize * blocks, files if room.f_files else None


def text_of_full(folder):
    free, files = free_in(folder)
    left = "no file more can be made" if files == 0 else f"{free} bytes are free"
    return f"the disk of {folder} is full: {left}"


def text_of_unwritten(fault, path):
    """Why a file was not written."""
    folder = os.path.dirname(path)
    if fault.errno in (errno.ENOENT, errno.ENOTDIR):
        return f"the folder {folder} is missing: is its disk mounted?"
    if fault.errno == errno.ENOSPC:
        return text_of_full(folder)
    if fault.errno == errno.EROFS:
        return f"the file system of {folder} is read-only"
    if fault.errno == errno.EDQUOT:
        return f"this user's quota on the disk of {folder} is used up"
    if fault.errno in (errno.EACCES, errno.EPERM):
        return f"this user may not write {path}"
    return f"{path} cannot be written: {fault.strerror}"


def why_unwritten(path):
    """Why nothing can be written to a file, or None where that can be done. It is removed, if it
    was not there."""
    was_there = os.path.lexists(path)
    try:
        file = os.open(path, os.O_WRONLY | os.O_CREAT | os.O_CLOEXEC, 0o600)
        try:
            os.write(file, TRIED)
            os.fsync(file)
        finally:
            os.close(file)
            if not was_there:
                os.unlink(path)
    except OSError as fault:
        return text_of_unwritten(fault, path)
    return None


def why_small(path):
    """The first save of a start writes the whole record once more beside it."""
    folder = os.path.dirname(path)
    try:
        size, free = os.path.getsize(path), free_in(folder)[0]
    except OSError:
        return None
    if free >= size + len(TRIED):
        return None
    return f"the disk of {folder} has {free} bytes free, and {path} has {size}"


def why_unsaved(record):
    """What keeps a record from being loaded or saved, or None where nothing is found. The record's
    second file is written, while no other process may be at the record: the node does not run, and
    its next save writes that file anew."""
    path = os.path.realpath(record)
    second, lock = path + ".new", path_of(path)
    why = what_has_place(path) or what_has_place(second, ", which a save writes first,")
    why = why or what_has_place(lock, ", which a node locks first,")
    if why is None and os.path.exists(path) and not os.access(path, os.R_OK | os.W_OK):
        why = f"this user may not read and write {path}"
    try:
        with held(path):
            return why or why_unwritten(second) or why_small(path)
    except InUse as in_use:
        return str(in_use)
    except OSError as fault:
        return why or text_of_unwritten(fault, lock)
