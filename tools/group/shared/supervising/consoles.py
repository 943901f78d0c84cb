"""The console of a supervised node: the file that gets its output, and how much of it is known to
be on the disk.

Where the power is cut, a file may keep its length and lose its bytes. By default ext4 has zeros in
their place: each sync of the node's record also keeps the console's length, whose bytes are written
up to half a minute later. So the console is synced now and then, and a note beside it,
CONSOLE.synced, says how many bytes that were, and in which boot of the machine. A node that is
started in that boot goes on behind all that is there. In another one, and where there is no note,
the console is cut to what was synced. The node writes the rest again: it runs the program from its
begin in any case, and --seen says how much of the output is there.

The console is synced before it is noted, and what is noted is never changed. So at each moment the
note is right, also an older one that comes back with a cut of the power. A console that is no
regular file, such as a terminal or a pipe, has none.

Of a frozen program the bytes that were written before it continued are never cut, as no node writes
them again: `renew` has synced them.

With a limit the oldest bytes are given back to the disk, as a hole in the file (fallocate), so that
its length still counts all that was written: no byte changes its place, for --seen and for those
who follow the console. The note says from where on the bytes are there, and is in its place before
the hole is made."""

import contextlib
import ctypes
import errno
import os
import stat
import threading

from ..files import text_of_fault
from ..synced import NO_BOOT, PIECE, Note, boot_of_machine, note_at, synced_path, text_of_note
from ..whole import put_whole, remove_whole

# The least time between two syncs, and how long the end of one is waited for, in seconds.
PAUSE, LONGEST = 2.0, 0.5
# Of how many whole bytes a hole is made.
BLOCK = 4096
# With a limit there may be so many times as many bytes before a hole is made.
MORE = 1.25
# Of fallocate: a hole, and the length stays.
HOLE = 3

def open_console(path):
    """Opens the file that gets the output, at its end. A new one is for its owner alone. A pipe
    that nobody reads is no fault that stays."""
    flags = os.O_WRONLY | os.O_APPEND | os.O_CREAT | os.O_NOCTTY | os.O_NONBLOCK | os.O_CLOEXEC
    try:
        console = os.open(path, flags, 0o600)
    except OSError as fault:
        if fault.errno == errno.ENXIO:
            raise BlockingIOError(errno.EAGAIN, "nobody reads this console", path)
        raise
    os.set_blocking(console, True)
    return console


def nuls_in(path, first, last):
    """How many of these bytes of a file are 0. A console that may not be read has none."""
    count = 0
    with contextlib.suppress(PermissionError), open(path, "rb") as file:
        file.seek(first)
        for at in range(first, last, PIECE):
            count += file.read(min(PIECE, last - at)).count(0)
    return count


def make_hole(file, length):
    """Gives the first bytes of a file back to the disk. They read as zeros then."""
    fallocate = ctypes.CDLL(None, use_errno=True).fallocate64
    fallocate.argtypes = [ctypes.c_int, ctypes.c_int, ctypes.c_int64, ctypes.c_int64]
    if fallocate(file, HOLE, 0, length):
        number = ctypes.get_errno()
        raise OSError(number, os.strerror(number))


class Console:
    """The console at a path, of which at least the last `limit` bytes stay, or all. It is opened
    anew for each process of the node."""

    def __init__(self, path, limit=None):
        self.path, self.place, self.limit = path, None, limit
        self.file = self.noted = self.fault = None
        self.boot, self.due, self.syncing = boot_of_machine(), 0.0, None
        self.cannot_cut = False
        self.cuts = 0  # how often it was cut here
        self.before = 0  # how many bytes were written before the program continued

    def open(self, before=0):
        """Opens it and cuts what is not trusted, once no process writes to it; but not what was
        written before the program continued. Returns what is said of a cut, or None."""
        self.before = before
        if self.is_syncing(LONGEST):
            raise BlockingIOError(errno.EAGAIN, "waits for its disk", self.path)
        self.close()
        self.file = open_console(self.path)
        self.due, self.place, self.cannot_cut = 0.0, None, False
        if not stat.S_ISREG(os.fstat(self.file).st_mode):
            return None
        self.place = synced_path(self.path)
        self.noted = note_at(self.place)
        return self.mend()

    def known_length(self):
        """How many bytes were written to it, or None where that is not known."""
        return self.length() if self.file is not None and self.place is not None else None

    def length(self):
        return os.fstat(self.file).st_size

    def seen(self):
        """How many bytes of the program's own output it has, or None where it lacks some of what
        was written before."""
        if self.place is None:
            return 0  # It is a terminal or a pipe.
        length = self.length()
        return length - self.before if length >= self.before else None

    def mend(self):
        """Cuts the file to what is trusted, unless that is all of it."""
        length, note = self.length(), self.noted
        is_there = note is not None and note.length <= length
        is_followed = is_there and note.boot == self.boot != NO_BOOT
        before = min(self.before, length)
        kept = max(note.length if is_there else 0, before)
        nuls = nuls_in(self.path, kept, length)
        if is_followed and not nuls:
            return None
        first = note.first if note and kept else 0
        if not is_followed and nuls_in(self.path, first, kept):
            nuls, kept = nuls_in(self.path, first, length), before
        if note and note.length != kept:
            remove_whole(self.place)
        self.noted = note if note and note.length == kept else None
        if kept == length:
            return None
        os.ftruncate(self.file, kept)
        self.cuts += 1
        lost = f", and {nuls} of the others were NULs" if nuls else ""
        return (
            f"cuts the console {self.path} from {length} to {kept} bytes: no more of it is known "
            f"to have been synced{lost}; the node writes the rest again"
        )

    def is_due(self):
        """Whether there is more than what was noted, or more than there may be."""
        if self.place is None:
            return False
        length, noted = self.length(), self.noted
        return noted is None or noted != Note(length, self.boot, self.first_at(length))

    def first_at(self, length):
        """From where on the bytes stay, where there are so many."""
        first = self.noted.first if self.noted else 0
        if self.limit is None or self.cannot_cut or length - first <= MORE * self.limit:
            return first
        return max(first, (length - self.limit) // BLOCK * BLOCK)

    def tend(self, now):
        """Lets it be synced where it has grown, now and then. Nothing waits for that: a disk may
        take its time, and the heartbeats go on."""
        if now < self.due or self.is_syncing() or not self.is_due():
            return
        self.due = now + PAUSE
        # Without memory for that it is done later.
        with contextlib.suppress(RuntimeError):
            syncing = threading.Thread(target=self.sync, daemon=True)
            syncing.start()
            self.syncing = syncing

    def is_syncing(self, seconds=0):
        """Whether a sync is under way, and still so after these seconds."""
        if self.syncing is not None:
            self.syncing.join(seconds)
        return self.syncing is not None and self.syncing.is_alive()

    def sync(self):
        """Syncs the file, and notes the length that it had before."""
        try:
            length = self.length()
            if self.noted and length < self.noted.length:
                # Somebody else has cut it: the next process of the node writes it anew.
                remove_whole(self.place)
                self.place = None
            else:
                self.sync_file()
                self.note_from(length, self.first_at(length))
        except OSError as fault:
            more = "after a cut of the power more of it is written again"
            self.fault = f"cannot sync its console: {text_of_fault(fault)}; {more}"

    def note_from(self, length, first):
        """Notes that all was synced, and gives back to the disk what is before this byte."""
        before = self.noted.first if self.noted else 0
        self.note(Note(length, self.boot, first))
        if first == before:
            return
        try:
            make_hole(self.file, first)
        except OSError as fault:
            # It is not tried again for this process.
            self.cannot_cut = True
            self.note(Note(length, self.boot, before))
            self.fault = f"keeps all of its console {self.path}: {fault.strerror}"

    def sync_file(self):
        try:
            os.fsync(self.file)
        except OSError as fault:
            # What was written may be lost, though it can still be read.
            self.boot, fault.filename = NO_BOOT, self.path
            raise

    def note(self, note):
        put_whole(self.place, text_of_note(note))
        self.noted = note

    def finish(self):
        """Syncs what the node has written, which has ended, and closes the file."""
        if not self.is_syncing(LONGEST) and self.is_due():
            self.sync()
        self.close()

    def close(self):
        """Closes the file, unless a sync of it is under way."""
        if self.file is not None and not self.is_syncing():
            os.close(self.file)
            self.file = self.place = None
