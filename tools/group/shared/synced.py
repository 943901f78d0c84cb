"""What a supervisor notes beside the console of its node, in CONSOLE.synced: how many bytes of it
were synced, in which boot of the machine, and from which byte on they are kept.

A cut of the power may leave zeros in place of text. Before a supervisor starts its node again it
cuts the console to what was synced. Who shows a console before that shows no more either."""

import collections
import functools
import os
import re
import stat
import time

# How many bytes were synced; the boot in which nothing else was done to the console; and the first
# byte that is kept: those before it may read as zeros.
Note = collections.namedtuple("Note", "length boot first", defaults=(0,))
NOTE = re.compile(
    rb"pgroup console synced (\d{1,19}) boot ([0-9a-f-]{1,64})(?: from (\d{1,19}))?\n"
)


BOOT = "/proc/sys/kernel/random/boot_id"
# A boot that is no other's, and not trusted.
NO_BOOT = "-"
# How many bytes of a console are read at once.
PIECE = 1 << 20


def boot_of_machine():
    """What the system calls its present boot."""
    try:
        with open(BOOT, encoding="ascii") as file:
            return file.read().strip() or NO_BOOT
    except (OSError, ValueError):
        return NO_BOOT


def synced_path(console):
    return os.path.realpath(console) + ".synced"


def text_of_note(note):
    more = f" from {note.first}" if note.first else ""
    return f"pgroup console synced {note.length} boot {note.boot}{more}\n".encode("ascii")


def note_at(path):
    """The note in a file, or None where it cannot be read."""
    try:
        with open(path, "rb") as file:
            found = NOTE.fullmatch(file.read(128))
    except OSError:
        return None
    if not found or int(found[3] or 0) > int(found[1]):
        return None
    return Note(int(found[1]), found[2].decode("ascii"), int(found[3] or 0))


def first_kept(console):
    """The first byte of a console that is kept."""
    note = note_at(synced_path(console))
    return note.first if note else 0


def trusted_size(console):
    """How many bytes of a console are to be shown. A file that was changed in this boot has all of
    them, as its supervisor was there first. Of another one what was synced is shown or, without a
    note, what is before the first zero."""
    it = os.stat(console)
    begun = time.time() - time.clock_gettime(time.CLOCK_BOOTTIME)
    if not stat.S_ISREG(it.st_mode) or it.st_mtime >= begun:
        return it.st_size
    note = note_at(synced_path(console))
    if note and note.boot == boot_of_machine() != NO_BOOT:
        return it.st_size
    if note and note.length <= it.st_size:
        return note.length
    return before_zero(console, (it.st_ino, it.st_size, it.st_mtime_ns))


@functools.lru_cache(maxsize=16)
def before_zero(path, _state):
    """How many bytes a file has before its first zero. It is read once in each state."""
    count = 0
    with open(path, "rb") as file:
        for data in iter(lambda: file.read(PIECE), b""):
            at = data.find(0)
            if at >= 0:
                return count + at
            count += len(data)
    return count
