"""A disk that writes down what is written on it, and what a power cut may leave of it: for
tests/power.

The disk is a file system with the one file `disk`, which this module serves over /dev/fuse as a
process of its own. A loop device over the file carries a file system of the kernel. Each write and
each flush of that device comes here in turn, and is noted with its time.

What was written before a flush stays when the power fails. Of what was written after the last flush
a drive may keep any part in any order, but writes each sector of 512 bytes as a whole or not at
all."""

import bisect
import collections
import contextlib
import errno
import os
import signal
import struct
import subprocess
import sys
import tempfile
import time

from ..mounts import LIBRARY, check_status, mount
from ..program import TESTS, Broken, system

SECTOR = 512
BLOCK = 4096
# A write or a flush. `data` is None for a flush.
Write = collections.namedtuple("Write", "time offset data")
# What stands before each of them in the file of notes: the time, the offset and the length.
NOTE = struct.Struct("<dQI")
FLUSH = 0xFFFFFFFF

# The numbers of the kernel's FUSE protocol, from linux/fuse.h.
LOOKUP, FORGET, GETATTR, SETATTR, OPEN, READ, WRITE, STATFS = 1, 2, 3, 4, 14, 15, 16, 17
RELEASE, FSYNC, FLUSH_FILE, INIT, OPENDIR, RELEASEDIR = 18, 20, 25, 26, 27, 29
INTERRUPT, DESTROY, BATCH_FORGET = 36, 38, 42
VERSION = (7, 31)
BIG_WRITES, MAX_PAGES = 1 << 5, 1 << 22
MOST = 131072  # bytes of one read or write
# Length, operation, number of the request, file; then 16 bytes that nobody needs here.
REQUEST = struct.Struct("<IIQQ")
HEADER = 40
PLACE = struct.Struct("<QQI")  # handle, offset, size
TOP, DISK = 1, 2  # the files: the folder, and `disk` in it
LONG = 3600  # seconds for which the kernel need not ask again

# From linux/prctl.h.
PR_SET_PDEATHSIG, PR_SET_IO_FLUSHER = 1, 57


class Server:
    """The file system of the one file `disk`."""

    def __init__(self, folder, size, notes):
        self.size = size
        self.content = tempfile.TemporaryFile(dir=os.path.dirname(notes))
        self.content.truncate(size)
        self.notes = open(notes, "wb", buffering=1 << 20)
        self.fuse = os.open("/dev/fuse", os.O_RDWR)
        options = f"fd={self.fuse},rootmode=40000,user_id=0,group_id=0,max_read={MOST}"
        status = mount(b"power", os.fsencode(folder), b"fuse", 0, options.encode())
        check_status(status, f"nothing can be mounted on {folder}")
        self.answers = {
            INIT: self.begin, LOOKUP: self.find, GETATTR: self.attributes, SETATTR: self.attributes,
            OPEN: self.open, OPENDIR: self.open, READ: self.read, WRITE: self.write,
            FSYNC: self.flush, STATFS: self.room,
            **{it: lambda file, body: b"" for it in (FLUSH_FILE, RELEASE, RELEASEDIR, DESTROY)},
        }

    def begin(self, file, body):
        return struct.pack(
            "<4I2H2I2HI28x", *VERSION, MOST, BIG_WRITES | MAX_PAGES, 64, 48, MOST, 1, MOST // BLOCK,
            0, 0,
        )

    def described(self, file):
        """What fuse_attr has: number, size, blocks, three times, their parts of a second, mode,
        links, owner, device and block size."""
        size, mode = (0, 0o40755) if file == TOP else (self.size, 0o100600)
        return struct.pack(
            "<6Q10I", file, size, size // SECTOR, 0, 0, 0, 0, 0, 0, mode, 1, 0, 0, 0, BLOCK, 0
        )

    def find(self, file, body):
        if body.rstrip(b"\0") != b"disk":
            return -errno.ENOENT
        return struct.pack("<4Q2I", DISK, 0, LONG, LONG, 0, 0) + self.described(DISK)

    def attributes(self, file, body):
        return struct.pack("<Q2I", LONG, 0, 0) + self.described(file)

    def open(self, file, body):
        return struct.pack("<Q2I", 1, 0, 0)

    def read(self, file, body):
        _, offset, size = PLACE.unpack_from(body)
        return os.pread(self.content.fileno(), size, offset)

    def write(self, file, body):
        _, offset, size = PLACE.unpack_from(body)
        data = body[40 : 40 + size]
        os.pwrite(self.content.fileno(), data, offset)
        self.notes.write(NOTE.pack(time.monotonic(), offset, size) + data)
        return struct.pack("<2I", size, 0)

    def flush(self, file, body):
        self.notes.write(NOTE.pack(time.monotonic(), 0, FLUSH))
        return b""

    def room(self, file, body):
        return struct.pack("<5Q4I24x", self.size // BLOCK, 0, 0, 2, 0, BLOCK, 255, BLOCK, 0)

    def answer(self, request):
        length, operation, number, file = REQUEST.unpack_from(request)
        if operation in (FORGET, BATCH_FORGET, INTERRUPT):
            return
        answer = self.answers.get(operation, lambda file, body: -errno.ENOSYS)
        done = answer(file, request[HEADER:length])
        status, data = (done, b"") if isinstance(done, int) else (0, done)
        # It may be interrupted, and then nobody waits for the answer.
        with contextlib.suppress(FileNotFoundError):
            os.write(self.fuse, struct.pack("<IiQ", 16 + len(data), status, number) + data)

    def serve(self):
        """Answers requests until the file system is unmounted."""
        while True:
            try:
                request = os.read(self.fuse, 2 * MOST)
            except FileNotFoundError:
                continue  # The request was interrupted.
            except OSError as fault:
                if fault.errno == errno.ENODEV:
                    break
                raise
            self.answer(request)
        self.notes.close()


def is_mounted(folder):
    """Whether something is mounted on this folder, even where nobody serves it any more."""
    with open("/proc/self/mounts", encoding="utf-8") as mounts:
        return any(line.split()[1] == folder.replace(" ", "\\040") for line in mounts)


def unmount(folder):
    """Unmounts what is mounted on this folder, if anything is. The last user of it may need a
    moment to end."""
    for _ in range(100):
        if not is_mounted(folder):
            return
        subprocess.run(["umount", folder], check=False, stderr=subprocess.DEVNULL)
        if is_mounted(folder):
            time.sleep(0.05)
    system("umount", "--lazy", folder)


@contextlib.contextmanager
def mounted(kind, options, path, folder):
    """Has the file system in this file mounted on the folder. The loop device between them goes
    away with the mount."""
    try:
        system("mount", "-t", kind, "-o", f"loop,{options}", path, folder)
        yield
    finally:
        unmount(folder)


@contextlib.contextmanager
def served_disk(room, size):
    """Has a disk of this many bytes served, in a folder of `room`. Gives the path of its file. When
    it has ended, all is in the notes."""
    folder = os.path.join(room, "served")
    os.makedirs(folder, exist_ok=True)
    words = [sys.executable, "-B", "-m", "parts.power.disk", folder, str(size), notes_in(room)]
    # Ctrl-C must not reach the process while a file system is mounted on what it serves.
    server = subprocess.Popen(
        words, cwd=TESTS, stdin=subprocess.DEVNULL, stdout=subprocess.PIPE, text=True,
        start_new_session=True,
    )
    said = None
    try:
        said = server.stdout.readline().strip()
        if said != "ready":
            raise Broken(said or "the disk of the test has ended")
        yield os.path.join(folder, "disk")
    finally:
        if said != "ready":
            server.kill()  # It might mount only after the next line.
            server.wait()
        unmount(folder)
        try:
            server.wait(20)
        except subprocess.TimeoutExpired:
            server.kill()
            server.wait()
        server.stdout.close()


def notes_in(room):
    return os.path.join(room, "writes")


def writes_in(room):
    """Returns all writes and flushes of the disk that was served in this room, in order."""
    with open(notes_in(room), "rb") as file:
        notes = memoryview(file.read())
    writes, at = [], 0
    while at < len(notes):
        moment, offset, size = NOTE.unpack_from(notes, at)
        at += NOTE.size
        if size == FLUSH:
            writes.append(Write(moment, 0, None))
        else:
            writes.append(Write(moment, offset, notes[at : at + size]))
            at += size
    return writes


def runs_of(writes):
    """Returns the parts of a disk that these writes touch, each as an offset and the one behind its
    last byte."""
    runs = []
    ends = [(it.offset, it.offset + len(it.data)) for it in writes if it.data is not None]
    for first, last in sorted(ends):
        if runs and first <= runs[-1][1]:
            runs[-1] = runs[-1][0], max(last, runs[-1][1])
        else:
            runs.append((first, last))
    return runs


class Images:
    """What power cuts may leave of a disk, for one cut after the other in the order of time."""

    WAYS = ("all", "none", "writes", "sectors", "sectors")

    def __init__(self, writes, size, superblock):
        self.writes, self.size, self.superblock = writes, size, superblock
        self.flushes = [index for index, it in enumerate(writes) if it.data is None]
        self.runs = runs_of(writes)
        self.stays = bytearray(size)  # what was flushed, with all writes before this index
        self.until = 0

    def pieces(self, cut, draw):
        """Draws a way, and what is on the disk if the power fails before the write with the index
        `cut`. Returns the way, and offsets with bytes, in order: these stay besides all that was
        flushed by then."""
        before = bisect.bisect_left(self.flushes, cut)
        flush = self.flushes[before - 1] if before else 0
        for it in self.writes[self.until : flush]:
            if it.data is not None:
                self.stays[it.offset : it.offset + len(it.data)] = it.data
        self.until = max(self.until, flush)
        way = draw.choice(self.WAYS)
        there = [it for it in self.writes[flush:cut] if it.data is not None]
        if way == "sectors":
            return way, [piece for it in there for piece in self.sectors(it, draw)]
        share = {"all": 1, "none": 0, "writes": draw.choice((0.2, 0.5, 0.8))}[way]
        return way, [(it.offset, it.data) for it in there if draw.random() < share]

    def sectors(self, write, draw):
        """Draws the sectors of a write that stay. All of the superblock stays, or nothing of it."""
        share = draw.choice((0.2, 0.5, 0.8))
        stays = False
        for at in range(0, len(write.data), SECTOR):
            if write.offset + at not in self.superblock[1:]:
                stays = draw.random() < share
            if stays:
                yield write.offset + at, write.data[at : at + SECTOR]

    def put(self, path, pieces):
        """Makes the file an image of the disk with these pieces. It is a new one: a loop device may
        still let go of the last."""
        with contextlib.suppress(FileNotFoundError):
            os.unlink(path)
        with open(path, "wb") as file:
            file.truncate(self.size)
            whole = memoryview(self.stays)
            for first, last in self.runs:
                os.pwrite(file.fileno(), whole[first:last], first)
            for offset, data in pieces:
                os.pwrite(file.fileno(), data, offset)


def main():
    folder, size, notes = sys.argv[1:]
    signal.signal(signal.SIGINT, signal.SIG_IGN)
    # It ends with the test, and memory that it asks for is never had by writing to the file system
    # that stands on it.
    LIBRARY.prctl(PR_SET_PDEATHSIG, signal.SIGKILL, 0, 0, 0)
    LIBRARY.prctl(PR_SET_IO_FLUSHER, 1, 0, 0, 0)
    try:
        server = Server(folder, int(size), notes)
    except (Broken, OSError) as fault:
        print(fault, flush=True)
        return 1
    print("ready", flush=True)
    server.serve()
    return 0


if __name__ == "__main__":
    sys.exit(main())
