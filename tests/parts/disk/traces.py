"""Reads the calls that tests/parts/disk/calls.c has written down, and refuses them where a record
is not kept as docs/FORMATS.md says.

A model of the disk makes the calls again. It knows what was synced, so it also knows what a cut of
the power may leave after each call: the file that had the name when the folder was synced last, or
one that got the name since, and of each what was synced and the first bytes of what was not."""

import collections
import errno
import functools
import os

from shared.record import Damaged, record_of

from .. import readers
from ..program import Broken, must

# A line of the trace. `number` is None for what is sent or shown, `done` is None where the call was
# not made.
Call = collections.namedtuple("Call", "number name words told done")

CHANGES = os.O_WRONLY | os.O_RDWR | os.O_CREAT | os.O_TRUNC
# Where one of these fails, the save or the load has failed. A call that was interrupted has not.
NEEDED = ("open", "read", "write", "fsync", "fdatasync", "rename")
# What the name of the lock's file ends with. A record may be loaded without it, and it is opened
# again before the first save.
LOCK = ".lock"


def call_of(line):
    front, back = line.split(" = ")
    number, name, *words = front.split(" ")
    told, done = back.split(" ")
    number, done = (None if it == "-" else int(it) for it in (number, done))
    return Call(number, name, words, int(told), done)


def is_of_lock(call):
    return call.name == "open" and call.words[0].endswith(LOCK)


def is_needed(call):
    """Whether a save or the load fails where the call does."""
    return call.name in NEEDED and not is_of_lock(call)


def calls_in(path):
    with open(path, encoding="utf-8") as file:
        return [call_of(it) for it in file.read().splitlines()]


def line_of(call):
    number, done = ("-" if it is None else it for it in (call.number, call.done))
    return " ".join([str(number), call.name, *call.words, "=", str(call.told), str(done)])


def text_of(calls):
    return "\n".join(map(line_of, calls))


class File:
    """A file: its bytes, those that were synced, and the descriptors that have written to it
    since."""

    def __init__(self, data):
        self.data = bytearray(data)
        self.synced = bytes(data)
        self.writers = set()
        self.is_whole = True  # on the disk with its length, as fsync leaves it

    def left(self):
        """Returns what a cut of the power may leave of it."""
        return [bytes(self.data[:length]) for length in range(len(self.synced), len(self.data) + 1)]


class Handle:
    """A descriptor of a file, or of the folder if it has none."""

    def __init__(self, file, is_writer=False, is_append=False):
        self.file, self.is_writer, self.is_append = file, is_writer, is_append
        self.at = 0
        self.is_used = False


class Needs:
    """What a node has told to others, or shown, and its record must have from then on."""

    def __init__(self, size, starts):
        self.size, self.starts = size, starts
        self.is_out = False
        self.promised = None
        self.votes = {}
        self.shown = b""

    def show(self, data):
        """A node that is alone shows keys once it has voted for them. Others learn what a majority
        has voted for."""
        self.is_out = True
        if self.size == 1:
            self.shown += data

    def tell(self, message):
        self.is_out = True
        fields = message.fields
        if message.kind in ("prepare", "promise", "accept", "accepted"):
            self.promised = max(self.promised or (0, 0), fields["ballot"])
        if message.kind == "refused":
            self.promised = max(self.promised or (0, 0), fields["promised"])
        if message.kind == "accepted":
            self.vote(fields["place"], fields["ballot"], fields["value"])
        for place, ballot, value in fields.get("votes", []):
            self.vote(place, ballot, value)

    def vote(self, place, ballot, value):
        if place not in self.votes or self.votes[place][0] <= ballot:
            self.votes[place] = (ballot, value)

    def fault_of(self, record):
        """Returns what a record lacks, or None. There is no record before the file exists."""
        if not self.is_out:
            return None
        if record is None or record.starts < self.starts:
            return f"start {self.starts}"
        if self.promised and (record.promised is None or record.promised < self.promised):
            return f"the promise of {self.promised}"
        for place, (ballot, value) in self.votes.items():
            there = record.votes.get(place, ((0, 0), None))
            if there[0] < ballot or there[0] == ballot and there[1] != value:
                return f"the vote at place {place} under {ballot} for {value}"
        chosen = b"".join(value.characters for _, value in record.votes.values() if value)
        return None if chosen.startswith(self.shown) else f"the keys that were shown: {self.shown}"


@functools.lru_cache(4096)
def record_in(data):
    return None if data is None else record_of(data)


class Disk:
    """The folder of a record as the calls so far have left it, and the saves so far."""

    def __init__(self, path, before, group, is_thorough=False):
        """`path` leads from the folder of the trace to the record. `before` has the bytes of the
        record, or None; `group` the size and the session. A thorough look is at all that a cut of
        the power may leave, and another one at the least and the most."""
        self.path, self.fresh, self.folder = path, path + ".new", os.path.dirname(path) or "."
        self.lock, self.is_locked = path + LOCK, False
        self.names = {} if before is None else {path: File(before)}
        self.handles = {}
        self.possible = [self.names.get(path)]
        self.group, self.is_thorough = group, is_thorough
        first = record_in(before)
        self.needs = Needs(group[0], 1 + (first.starts if first else 0))
        self.last, self.record = before, first
        self.saves = []
        self.failed = None
        self.is_put = False  # the file was written anew since the last save
        self.is_named = True  # the folder was synced since the name was given
        self.loading = {"the file", "the folder"} if before is not None else set()

    def make(self, call):
        """Makes a call again, and refuses it if no save may make it there."""
        try:
            must(hasattr(self, "do_" + call.name), "no save makes this call")
            getattr(self, "do_" + call.name)(call)
            if call.name in ("write", "rename", "send", "show", "fsync", "fdatasync"):
                self.check_left()
        except Damaged as fault:
            raise Broken(f"the record is damaged: {fault}: at {line_of(call)}")
        except Broken as fault:
            raise Broken(f"{fault}: at {line_of(call)}")
        is_of_it = call.name == "open" and call.words[0] == self.path
        is_missing = is_of_it and call.told == -errno.ENOENT
        if is_needed(call) and call.told < 0 and call.told != -errno.EINTR and not is_missing:
            self.failed = self.failed or call

    def must_go_on(self):
        which = self.failed and line_of(self.failed)
        must(not self.failed, f"nothing may follow the call that failed, {which}")

    def data(self):
        file = self.names.get(self.path)
        return bytes(file.data) if file else None

    def is_settled(self):
        return self.is_named and not any(it.writers for it in self.names.values())

    def left(self):
        """Yields what a cut of the power may leave of the record, the least of it first."""
        for file in self.possible:
            if file is None:
                yield None
            else:
                ends = dict.fromkeys([file.synced, bytes(file.data)])
                yield from file.left() if self.is_thorough else ends

    def check_left(self):
        for data in self.left():
            lacking = self.needs.fault_of(record_in(data))
            must(not lacking, f"a cut of the power may leave a record without {lacking}")

    def do_open(self, call):
        path, flags = os.path.normpath(call.words[0]), int(call.words[1])
        if path == self.lock:
            self.open_lock(call, flags)
            return
        must(path in (self.path, self.fresh, self.folder), "another file of the folder is opened")
        is_change = bool(flags & CHANGES)
        if is_change:
            self.must_go_on()
            which = " and ".join(sorted(self.loading))
            must(self.saves or not self.loading, f"the load has not synced {which}")
            must(path == self.fresh, "the record is opened for more than to be read")
            must(self.is_locked, "the second file is begun without the lock")
        if path == self.fresh:
            must(flags & os.O_CREAT and flags & os.O_TRUNC, "the second file is not begun anew")
        if call.done is None or call.done < 0:
            return
        if path == self.fresh:
            self.names[path] = File(b"")
        if call.told >= 0:
            is_append = bool(flags & os.O_APPEND)
            self.handles[call.told] = Handle(self.names.get(path), is_change, is_append)

    def open_lock(self, call, flags):
        """The file of the lock is made and never written. Without it a record may be loaded."""
        must(flags & CHANGES == os.O_WRONLY | os.O_CREAT, "the lock is opened otherwise")
        if call.told >= 0:
            self.is_locked = True
            self.handles[call.told] = Handle(None, False, False)

    def do_read(self, call):
        self.handles[int(call.words[0])].is_used = True

    def do_stat(self, call):
        pass

    def do_close(self, call):
        if call.done == 0:
            del self.handles[int(call.words[0])]

    def do_write(self, call):
        self.must_go_on()
        number, text = call.words
        handle = self.handles[int(number)]
        must(handle.is_writer, "the descriptor is not one that writes")
        file = handle.file
        if call.done is not None and call.done > 0:
            at = len(file.data) if handle.is_append else handle.at
            must(at == len(file.data), "a write that does not append at the end")
            file.data += bytes.fromhex(text)[: call.done]
            handle.at = len(file.data)
            handle.is_used = True
            file.writers.add(handle)
            file.is_whole = False

    def do_fsync(self, call):
        self.must_go_on()
        handle = self.handles[int(call.words[0])]
        if call.told == 0 and handle.file is None:
            self.possible, self.is_named = [self.names.get(self.path)], True
            self.loading.discard("the folder")
        elif call.told == 0:
            self.sync(handle)
            handle.file.is_whole = handle.file.is_whole or not handle.file.writers
        self.note_save()

    def do_fdatasync(self, call):
        self.must_go_on()
        handle = self.handles[int(call.words[0])]
        must(handle.file, "a folder is synced without its names")
        if call.told == 0:
            self.sync(handle)
        self.note_save()

    def sync(self, handle):
        """A sync by a descriptor answers for what was written by it, and for what was read by it
        when the record was loaded."""
        must(handle.is_used, "a file was opened again to be synced")
        if handle.file is self.names.get(self.path):
            self.loading.discard("the file")
        handle.file.writers.discard(handle)
        if not handle.file.writers:
            handle.file.synced = bytes(handle.file.data)

    def do_rename(self, call):
        self.must_go_on()
        old, new = map(os.path.normpath, call.words)
        must((old, new) == (self.fresh, self.path), "another name is given")
        file = self.names[old]
        is_synced = not file.writers and file.is_whole and file.data
        must(is_synced, "the second file gets the name before it is synced")
        if call.done == 0:
            self.names[new] = self.names.pop(old)
            self.possible.append(file)
            self.is_named, self.is_put = False, True

    def note_save(self):
        """Notes a save, once all of it is synced. The first save after a start writes the file
        anew. So does one before which no ballot was promised, and each one of a whole record; the
        others append."""
        data = self.data()
        if data == self.last or not self.is_settled():
            return
        is_whole = self.last is not None and self.last.startswith(b"PR")
        is_anew = not self.saves or self.record.promised is None or is_whole
        does = "write the file anew" if is_anew else "append"
        must(is_anew == self.is_put, f"a save that has to {does}")
        self.last, self.record, self.is_put = data, record_in(data), False
        self.saves.append(self.record)

    def check_out(self):
        """Nothing leaves the node while a save goes on, or after one that has failed."""
        self.must_go_on()
        must(self.is_named, "this leaves before the folder is synced")
        must(self.is_settled(), "this leaves before all that was written is synced")

    def do_send(self, call):
        if call.told >= 0:
            self.check_out()
            self.needs.tell(readers.datagram(bytes.fromhex(call.words[1]), *self.group))

    def do_show(self, call):
        if call.told >= 0:
            self.check_out()
            self.needs.show(bytes.fromhex(call.words[1])[: call.told])


def replay(calls, *words, **more):
    """Returns the disk after these calls. Raises Broken at the first that may not be made."""
    disk = Disk(*words, **more)
    for call in calls:
        disk.make(call)
    return disk
