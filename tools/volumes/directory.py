"""The directory of a p-System's volume: blocks 2 to 5, with 78 entries of 26 bytes.

The first entry is the volume's own. Words have their low or their high byte first, as the machine
that wrote them had.
"""

import struct
from typing import List, NamedTuple

BLOCK = 512
DIRECTORY = 2 * BLOCK  # where it begins
ENTRY = 26
MOST_FILES = 77
FIRST_FREE = 6  # the first block behind a directory of four blocks
ENDS = (6, 10)  # of a directory; the second where it is kept twice
KINDS = ("volume", "bad", "code", "text", "info", "data", "graf", "foto", "securedir")
CODE, TEXT, DATA = 2, 3, 5
MOST_VOLUME_NAME, MOST_NAME = 7, 15


class File(NamedTuple):
    """A file: its blocks from `first` to before `last`, and how many bytes of the last are its."""

    name: str
    first: int
    last: int
    kind: int
    last_bytes: int
    date: int

    def bytes_in(self, volume):
        """Its bytes. A text file is whole blocks."""
        data = volume[self.first * BLOCK:self.last * BLOCK]
        return data if self.kind == TEXT else data[:len(data) - BLOCK + self.last_bytes]

    def kind_name(self):
        return KINDS[self.kind] if self.kind < len(KINDS) else f"kind {self.kind}"

    def day(self):
        """The date, as the p-System keeps it: a month, a day, and a year of the century."""
        month, day, year = self.date & 15, self.date >> 4 & 31, self.date >> 9
        return f"{year:02d}-{month:02d}-{day:02d}" if month and day else "--"


class Directory(NamedTuple):
    name: str
    blocks: int  # of the volume, as it says itself
    files: List[File]
    damages: List[str]  # each with its block and entry


def text_at(data, at, most):
    """A name: a byte with its length, and its characters. None where that is none."""
    name = data[at + 1:at + 1 + data[at]]
    is_name = 1 <= data[at] <= most and all(32 < byte < 127 for byte in name)
    return name.decode("ascii") if is_name else None


def order_of(data, at=0):
    """The order of the bytes in the words of a volume that begins at a byte, as struct has it. None
    where no volume begins."""
    start = at + DIRECTORY
    if at < 0 or start + ENTRY > len(data):
        return None
    for order in "<>":
        first, last, kind = struct.unpack_from(order + "HHH", data, start)
        if (first, kind & 15) == (0, 0) and last in ENDS:
            return order if text_at(data, start + 6, MOST_VOLUME_NAME) else None
    return None


def read(volume, order):
    """The directory of a volume."""
    blocks, count = struct.unpack_from(order + "HH", volume, DIRECTORY + 14)
    name = text_at(volume, DIRECTORY + 6, MOST_VOLUME_NAME)
    files, damages, used = [], [], struct.unpack_from(order + "H", volume, DIRECTORY + 2)[0]
    if count > MOST_FILES:
        damages.append(f"block 2, entry 0: it says that there are {count} files, and {MOST_FILES} "
                       "are the most")
    for number in range(1, min(count, MOST_FILES) + 1):
        at = DIRECTORY + ENTRY * number
        where = f"block {at // BLOCK}, entry {number}"
        if at + ENTRY > len(volume):
            damages.append(f"{where}: the image ends before it")
            break
        file = entry_at(volume, order, at)
        why = damage_of(file, blocks, len(volume), used)
        if why:
            damages.append(f"{where}: {why}")
        else:
            files.append(file)
            used = file.last
    return Directory(name, blocks, files, damages)


def entry_at(volume, order, at):
    first, last, kind = struct.unpack_from(order + "HHH", volume, at)
    last_bytes, date = struct.unpack_from(order + "HH", volume, at + 22)
    return File(text_at(volume, at + 6, MOST_NAME), first, last, kind & 15, last_bytes, date)


def damage_of(file, blocks, size, used):
    """What is wrong with an entry, if anything is."""
    if file.name is None:
        return f"its name is no name of 1 to {MOST_NAME} characters"
    if file.first >= file.last:
        return f"{file.name} ends at block {file.last}, and begins at {file.first}"
    if file.first < used:
        return f"{file.name} begins at block {file.first}, which is not free: {used} is the next"
    if file.last > blocks:
        return f"{file.name} ends at block {file.last}, and the volume at {blocks}"
    if file.last * BLOCK > size:
        return f"{file.name} ends at block {file.last}, and the image at {size // BLOCK}"
    if not 1 <= file.last_bytes <= BLOCK:
        return f"{file.name} has {file.last_bytes} bytes in its last block, of 1 to {BLOCK}"
    return None


def make(name, blocks, contents):
    """A volume of so many blocks, its low bytes first. `contents` has a name, a kind and bytes for
    each file. None if they do not fit."""
    volume, free = bytearray(BLOCK * blocks), FIRST_FREE
    for number, (title, kind, data) in enumerate(contents, 1):
        first, free = free, free + max(1, -(-len(data) // BLOCK))
        if free > blocks or number > MOST_FILES:
            return None
        at = DIRECTORY + ENTRY * number
        struct.pack_into("<HHH", volume, at, first, free, kind)
        volume[at + 6:at + 7 + len(title)] = bytes([len(title)]) + title.encode("ascii")
        struct.pack_into("<HH", volume, at + 22, len(data) - BLOCK * (free - first - 1), 0)
        volume[first * BLOCK:first * BLOCK + len(data)] = data
    struct.pack_into("<HHH", volume, DIRECTORY, 0, FIRST_FREE, 0)
    volume[DIRECTORY + 6:DIRECTORY + 7 + len(name)] = bytes([len(name)]) + name.encode("ascii")
    struct.pack_into("<HH", volume, DIRECTORY + 14, blocks, len(contents))
    return bytes(volume)
