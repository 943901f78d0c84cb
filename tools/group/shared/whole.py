"""Small files that are put in their places whole, for their owner alone: after a crash there is the
old one or the new one."""

import os


def sync_folder(path):
    """Syncs the folder of a file, so that its name stays."""
    folder = os.open(os.path.dirname(path), os.O_RDONLY | os.O_DIRECTORY | os.O_CLOEXEC)
    try:
        os.fsync(folder)
    finally:
        os.close(folder)


def put_whole(path, data):
    """Puts a file with these bytes in its place, once they are on the disk. Its folder is named by
    the path, and the second file PATH.new is written for that."""
    second = f"{path}.new"
    try:
        with open(second, "wb", opener=open_here) as file:
            file.write(data)
            file.flush()
            os.fsync(file.fileno())
    except OSError as fault:
        # A write or a sync that fails has no name of its own.
        fault.filename = fault.filename or second
        raise
    os.rename(second, path)
    sync_folder(path)


def open_here(path, flags):
    return os.open(path, flags | os.O_NOFOLLOW, 0o600)


def remove_whole(path):
    """Removes a file, if it is there, so that no crash brings it back. Where another process
    removes it at the same moment, that one syncs the folder."""
    try:
        os.unlink(path)
    except FileNotFoundError:
        return
    sync_folder(path)
