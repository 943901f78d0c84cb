"""What a frozen code file has behind its segment: which place of it is which one of the original
program, the original file, and what was read and written so far.

No loader reads it. It is not compressed, so that the same bytes are made everywhere: their checksum
is the session."""

import struct
from typing import Any, List, NamedTuple

from pcode.instructions import BLOCK

from .refused import Refused

MAGIC = b"PGFROZEN1\n"
ROW = struct.Struct("<5H")
FOOTER = struct.Struct("<QQIII10s")


class Row(NamedTuple):
    """The offsets of a procedure from `begin` up to `end` are those of `of` from `back` on."""

    number: int
    begin: int
    end: int
    of: int
    back: int


class Frozen(NamedTuple):
    """What a frozen file says of itself."""

    rows: List[Row]
    original: bytes
    read: int  # bytes, from the start of the original on
    wrote: int
    times: int  # how often it was frozen

    def trailer(self):
        rows = b"".join(ROW.pack(*it) for it in self.rows)
        footer = FOOTER.pack(self.read, self.wrote, self.times, len(self.rows),
                             len(self.original), MAGIC)
        return rows + self.original + footer

    def told(self):
        """How often it was frozen, and after what."""
        times = "once" if self.times == 1 else f"{self.times:,} times"
        keys = f"{self.read:,} key" + "s" * (self.read != 1)
        return f"frozen {times}, after {keys} and {self.wrote:,} bytes"


def is_frozen(data):
    return len(data) >= BLOCK + FOOTER.size and data.endswith(MAGIC)


def frozen_in(data) -> Any:
    """What the bytes of a code file say. None if it was never frozen."""
    if not is_frozen(data):
        return None
    at = len(data) - FOOTER.size
    read, wrote, times, count, length, _ = FOOTER.unpack_from(data, at)
    middle = at - length
    begin = middle - ROW.size * count
    if begin < BLOCK or length < BLOCK or times == 0:
        raise Refused("damaged", "its end says that it was frozen, and has no whole file of the "
                      "original program: take a copy of the file that was made")
    rows = [Row(*it) for it in ROW.iter_unpack(data[begin:middle])]
    return Frozen(rows, data[middle:at], read, wrote, times)


def original_of(data):
    """The original program of a code file: its own bytes if it was never frozen."""
    frozen = frozen_in(data)
    return frozen.original if frozen else data


class Places:
    """The places of a frozen file, and those of the original that they are."""

    def __init__(self, rows):
        self.rows = {}
        for it in rows:
            self.rows.setdefault(it.number, []).append(it)

    def procedure(self, number):
        """The procedure of the original."""
        return self.rows[number][0].of if number in self.rows else number

    def place(self, number, offset):
        """The procedure and the offset of the original."""
        for it in self.rows.get(number, ()):
            if it.begin <= offset < it.end:
                return it.of, offset - it.begin + it.back
        return number, offset
