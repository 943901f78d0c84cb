"""The files of `renew`: records that are retired, and files that are put in their places as a
whole. What was begun and interrupted is found again, and goes on."""

import errno
import os
import stat

from ..files import LASTING, Refused, text_of_fault
from ..record import LOG_HEADER, RETIRED, Damaged, Reader, owner_of, read_record
from ..watch import node_at, node_processes


def retired_name(path, session):
    return f"{path}.retired-{session}"


def stone_of(session, path):
    """What stands in the place of a record of this session that is retired: no record, so that a
    node that is started there by old words is refused, and does not begin with an empty one."""
    name = os.path.basename(retired_name(path, session))
    return RETIRED + f"session {session} goes on in another one; its record is {name}\n".encode()


def place_of(word, session):
    """The path that a record has, or had before it was retired, by the path that was given. A
    symbolic link stands for the file that it leads to."""
    path, end = os.path.realpath(word), f".retired-{session}"
    return path[: -len(end)] if path.endswith(end) else path


def sync_folder(path):
    folder = os.open(os.path.dirname(path), os.O_RDONLY | os.O_DIRECTORY | os.O_CLOEXEC)
    try:
        os.fsync(folder)
    finally:
        os.close(folder)


def make_like(file, path):
    """Gives an open file the owner and the rights of another one."""
    then, now = os.stat(path), os.fstat(file)
    os.fchmod(file, stat.S_IMODE(then.st_mode))
    try:
        os.fchown(file, then.st_uid, then.st_gid)
    except PermissionError:
        # Another group is no harm; as another user the node could not write its record.
        if then.st_uid != now.st_uid:
            raise


def write_anew(path, data, like):
    """Writes a file with these bytes, and syncs it. It gets the owner and the rights of the file
    `like`. What a call that was interrupted has left there goes."""
    if os.path.lexists(path):
        os.unlink(path)
    file = os.open(path, os.O_WRONLY | os.O_CREAT | os.O_EXCL | os.O_CLOEXEC, 0o600)
    try:
        make_like(file, like)
        rest = memoryview(data)
        while rest:
            rest = rest[os.write(file, rest) :]
        os.fsync(file)
    except OSError as fault:
        # A write or a sync that fails has no name of its own.
        fault.filename = fault.filename or path
        raise
    finally:
        os.close(file)


def put(path, data, like):
    """Puts a file with these bytes in its place as a whole: by a second file, a sync, a rename, and
    a sync of the folder."""
    second = f"{path}.new"
    write_anew(second, data, like)
    os.rename(second, path)
    sync_folder(path)


def bytes_at(path, most=-1):
    """The bytes of a file, at most so many, or None where there is none."""
    try:
        with open(path, "rb") as file:
            return file.read(most)
    except FileNotFoundError:
        return None


def session_at(path):
    """The session of the record at a path, or None where there is none: no file, or what stands in
    the place of a retired one."""
    begin = bytes_at(path, LOG_HEADER)
    if begin is None or begin == RETIRED:
        return None
    try:
        return owner_of(Reader(begin))[1].session
    except Damaged as fault:
        raise Refused(f"{path} is damaged: {fault}")


def load(path):
    """The whole record at a path."""
    try:
        return read_record(path)
    except Damaged as fault:
        raise Refused(f"{path} is damaged: {fault}")


def check_stopped(path):
    """Refuses a record whose node runs, where this machine tells it."""
    pid, _ = node_at(path, node_processes())
    if pid is not None:
        raise Refused(f"the node of {path} runs, process {pid}: stop the group first")


class Source:
    """A record of the old session: where it was, and where it is once it is retired.

    It gets its second name before it loses the first one, so at each moment either the record is in
    its place or what no node takes for one: a node that is started meanwhile never begins with an
    empty record."""

    def __init__(self, word, session):
        self.session, self.place = session, place_of(word, session)
        self.retired = retired_name(self.place, session)
        self.is_retired = os.path.exists(self.retired)
        here = session_at(self.place)
        if self.is_retired and here == session:
            self.is_retired = False
            if not os.path.samefile(self.place, self.retired):
                raise Refused(
                    f"{self.place} and {self.retired} are both of session {session}: one is a "
                    "copy, or the node began anew without its record"
                )
        elif not self.is_retired and here is None:
            raise Refused(
                f"{self.place} is missing: mount its disk, or, if it is lost, leave it out and "
                "name the paths of all new records by --to"
            )
        elif not self.is_retired:
            self.check_session(here)

    def check_session(self, here):
        if here != self.session:
            raise Refused(
                f"{self.place} is of session {here}, and not of session {self.session}. If its "
                f"record of session {self.session} is lost, leave it out and name the paths of all "
                "new records by --to"
            )

    def path(self):
        """Where the record is now."""
        return self.retired if self.is_retired else self.place

    def retire(self):
        """Renames the record. Where that was done, nothing is."""
        if self.is_retired:
            return
        if not os.path.exists(self.retired):
            os.link(self.place, self.retired)
        sync_folder(self.place)
        put(self.place, stone_of(self.session, self.place), self.retired)
        self.is_retired = True


def text_with_help(fault):
    """What the system says of a fault, with the file's name, and what helps."""
    room = ": make room there" if fault.errno in (errno.ENOSPC, errno.EDQUOT) else ""
    first = "mend that, and " if fault.errno in LASTING else ""
    return f"{text_of_fault(fault)}{room}; {first}call it again"
