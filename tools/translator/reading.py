"""Reads a code file: its dictionary, its segments and the tables of their procedures."""

import struct
from typing import Any, Dict, NamedTuple

from pcode.faults import Fault
from pcode.fields import Fields
from pcode.instructions import BLOCK

ENTRIES = 16
KINDS = ("LINKED", "HOSTSEG", "SEGPROC", "UNITSEG", "SEPRTSEG", "UNLINKED INTRINSIC",
         "LINKED INTRINSIC", "DATASEG")
WITH_CODE = (0, 2, 6)  # kinds of segments whose code is whole
DATA_SEGMENT = 7
MACHINES = {3: "PDP-11", 4: "8080", 5: "Z-80", 7: "6502", 8: "6800", 9: "9900"}
TABLE = 8  # bytes of a procedure's table in front of JTAB
DEEPEST = 127


class Place(NamedTuple):
    """Where something stands in a code file, as a fault tells it."""

    file: str
    segment: Any = None
    procedure: Any = None
    offset: Any = None

    def __str__(self):
        parts = [self.file]
        if self.segment is not None:
            parts.append(f"segment {self.segment}")
        if self.procedure is not None:
            parts.append(f"procedure {self.procedure}")
        if self.offset is not None:
            parts.append(f"at {self.offset}")
        return ", ".join(parts[:1] + [" ".join(parts[1:])] if parts[1:] else parts)


class Procedure(Fields):
    """A procedure, by its attribute table. Offsets count from the start of its segment."""

    number: int
    level: int
    jtab: int
    low: int  # where its part of the segment begins
    enter: int
    exit: int
    params: int  # in words
    data: int


class Segment(Fields):
    number: int
    name: str
    kind: int
    code: bytes
    order: str  # of the bytes in its words, as struct has it
    place: Place
    procedures: Dict[int, Procedure] = dict
    words: int = 0  # of a data segment

    def word(self, at):
        return struct.unpack_from(self.order + "H", self.code, at)[0]

    def signed(self, at):
        return struct.unpack_from(self.order + "h", self.code, at)[0]

    def pointer(self, at):
        """Where the self-relative word at an offset leads."""
        return at - self.word(at)


class CodeFile(Fields):
    file: str
    order: str
    is_apple: bool  # its dictionary has the words of Apple Pascal 1.1
    segments: Dict[int, Segment] = dict

    def version(self):
        return "Apple Pascal 1.1" if self.is_apple else "UCSD Pascal II.0"


class Entry(NamedTuple):
    """An entry of block 0."""

    index: int
    block: int
    length: int
    name: str
    kind: int
    info: int

    def is_used(self):
        return self.length != 0

    def end(self):
        return self.block * BLOCK + self.length


def entries_of(data, order):
    for index in range(ENTRIES):
        block, length = struct.unpack_from(order + "HH", data, 4 * index)
        name = data[64 + 8 * index:72 + 8 * index].decode("latin-1").strip()
        kind, = struct.unpack_from(order + "H", data, 192 + 2 * index)
        info, = struct.unpack_from(order + "H", data, 256 + 2 * index)
        clean = "".join(it if " " <= it <= "~" else "?" for it in name)
        yield Entry(index, block, length, clean, kind, info)


def faults_in(entries, size):
    """How many of the entries contradict themselves or the size of the file."""
    used = [it for it in entries if it.is_used()]
    wrong = sum(it.kind >= len(KINDS) or it.kind != DATA_SEGMENT and
                (it.block == 0 or it.end() > size or it.length % 2) for it in used)
    return wrong + (not used)


def order_of(data):
    """The order of the bytes: the one in which the dictionary makes more sense."""
    return min("<>", key=lambda order: faults_in(list(entries_of(data, order)), len(data)))


def read(data, file):
    """Reads a code file. What contradicts itself is a Fault."""
    place = Place(file)
    if len(data) < BLOCK:
        raise Fault(f"it has {len(data)} bytes, and a code file has {BLOCK} or more", place)
    order = order_of(data)
    entries = [it for it in entries_of(data, order) if it.is_used()]
    if not entries:
        raise Fault("block 0 names no segment: it is no code file", place)
    is_apple = any(it.info for it in entries)
    found = CodeFile(file, order, is_apple)
    for entry in entries:
        segment = segment_of(data, entry, found)
        if segment.number in found.segments:
            raise Fault("two segments have this number", segment.place)
        found.segments[segment.number] = segment
    return found


def segment_of(data, entry, found):
    """The segment of an entry, with its procedures if it has code."""
    place = Place(found.file, f"{entry.index} {entry.name}".strip())
    if entry.kind >= len(KINDS):
        raise Fault(f"its kind is {entry.kind}: block 0 is that of no code file", place)
    if entry.kind == DATA_SEGMENT:
        number = entry.info & 255 or entry.index
        return Segment(number, entry.name, entry.kind, b"", found.order, place, {},
                       (entry.length + 1) // 2)
    if entry.kind not in WITH_CODE:
        raise Fault(f"it is {KINDS[entry.kind]}: the file is not linked, or is a library", place)
    if entry.block == 0 or entry.end() > len(data):
        raise Fault(f"it has {entry.length} bytes from block {entry.block} on, and the file has "
                    f"{len(data)} bytes", place)
    code = data[entry.block * BLOCK:entry.end()]
    if entry.length % 2 or entry.length < 2:
        raise Fault(f"it has {entry.length} bytes, and an even number is wanted", place)
    low, high = (-2, -1) if found.order == "<" else (-1, -2)
    number = code[low] or entry.index
    place = Place(found.file, f"{number} {entry.name}".strip())
    segment = Segment(number, entry.name, entry.kind, code, found.order, place)
    read_procedures(segment, code[high])
    return segment


def read_procedures(segment, count):
    """Reads the attribute tables, and says where the part of each procedure begins."""
    end = len(segment.code) - 2 - 2 * count
    if count == 0 or end < 0:
        raise Fault(f"it has {len(segment.code)} bytes, and says that it has {count} procedures",
                    segment.place)
    tables = {i: segment.pointer(len(segment.code) - 2 - 2 * i) for i in range(1, count + 1)}
    for i, jtab in tables.items():
        place = segment.place._replace(procedure=i)
        if jtab % 2 or not TABLE <= jtab <= end - 2:
            raise Fault(f"its table is at {jtab}, outside the segment", place)
    for i, jtab in tables.items():
        below = [it for it in tables.values() if it < jtab]
        low = max(below) + 2 if below else 0
        segment.procedures[i] = procedure_of(segment, i, jtab, low)


def procedure_of(segment, number, jtab, low):
    place = segment.place._replace(procedure=number)
    word = segment.word(jtab)
    if word & 255 == 0:
        raise Fault("it is in native code", place)
    if word & 255 != number:
        raise Fault(f"its table has the number {word & 255}", place)
    level = word >> 8
    if level > DEEPEST:
        raise Fault("its lex level is below 0: it is a part of the system itself", place)
    params, data = segment.word(jtab - 6), segment.word(jtab - 8)
    if params % 2 or data % 2:
        raise Fault("a size of it is an odd number of bytes", place)
    enter, leave = segment.pointer(jtab - 2), segment.pointer(jtab - 4)
    for what, at in (("ENTER", enter), ("EXIT", leave)):
        if not low <= at < jtab - TABLE:
            raise Fault(f"its {what} leads to {at}, out of the procedure", place)
    return Procedure(number, level, jtab, low, enter, leave, params // 2, data // 2)
