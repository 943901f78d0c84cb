"""A reader of code files, apart from the program's, as docs/FORMATS.md describes them, and records,
ballots and values that are written by hand. Datagrams and records are read by tools/group/shared,
and a datagram's names are here too."""

import collections

from shared.record import PLACES
from shared.replica.datagram import BytesRefused, Message, bytes_of, refuse_unless, text_of_message
from shared.replica.datagram import message_of as datagram

from .files import number

# Where a segment is in its file, its number, and how many procedures it has.
Segment = collections.namedtuple("Segment", "begin length number count")
# The record of node 2 in a group of size 3 and session 7 of one start, which has promised 1.1 and
# voted at place 0 under it for the key H: whole and as a log in version 2, and so in version 1.
RECORD = bytes.fromhex("""
    50 52 02 02 03 00 00 00 07  00 00 00 01  00 00 00 01 01  00 00 00 01
    00 00 00 00  00 00 00 01 01  01 02 00 00 00 01 00 00 00 01 01 48""")
LOG = bytes.fromhex("""
    50 4C 02 02 03 00 00 00 07  01  02 00 00 00 01 01
    03 00 00 00 00  00 00 00 01 01  01 02 00 00 00 01 00 00 00 01 01 48""")
OLD_RECORD = bytes.fromhex("""
    50 52 01 02 03 00 00 00 07  00 00 00 01  00 00 00 01 01  00 00 00 01
    00 00 00 00  00 00 00 01 01  01 02 00 00 00 01 00 00 00 01 48""")
OLD_LOG = bytes.fromhex("""
    50 4C 01 02 03 00 00 00 07  01  02 00 00 00 01 01
    03 00 00 00 00  00 00 00 01 01  01 02 00 00 00 01 00 00 00 01 48""")


def ballot_bytes(ballot):
    """A ballot as a record has it; zeros where there is none."""
    return number(ballot.round) + number(ballot.node, 1) if ballot else bytes(5)


def value_bytes(value):
    """A value as a record has it."""
    if value is None:
        return bytes(1)
    head = bytes([1, value.node]) + number(value.start) + number(value.first)
    return head + bytes([len(value.characters)]) + value.characters


def word(data, at):
    """The word at an offset, its low byte first."""
    return data[at] | data[at + 1] << 8


def segment_of(data):
    """Where the segment is, by block 0."""
    refuse_unless(len(data) >= 512, "F1")
    entries = [it for it in range(16) if word(data, 4 * it + 2)]
    refuse_unless(entries, "F2")
    refuse_unless(len(entries) == 1, "F3")
    entry, = entries
    refuse_unless(word(data, 192 + 2 * entry) == 0, "F4")
    block, length = word(data, 4 * entry), word(data, 4 * entry + 2)
    refuse_unless(block and 512 * block + length <= len(data), "F5")
    refuse_unless(length % 2 == 0, "F10 procedure 0")
    number, count = data[512 * block + length - 2], data[512 * block + length - 1]
    refuse_unless(count and 2 + 2 * count <= length, "F6")
    return Segment(512 * block, length, number, count)


def table_of(code, end, number):
    """JTAB of a procedure: the checks of its pointer and of its attribute table. `end` is where the
    dictionary begins."""
    at = len(code) - 2 - 2 * number
    jtab = at - word(code, at)
    refuse_unless(jtab % 2 == 0 and 8 <= jtab <= end - 2, f"F7 procedure {number}")
    refuse_unless(code[jtab], f"F8 procedure {number}")
    refuse_unless(code[jtab] == number, f"F7 procedure {number}")
    level = code[jtab + 1]
    refuse_unless(level == 0 if number == 1 else 1 <= level <= 127, f"F9 procedure {number}")
    sizes = word(code, jtab - 6), word(code, jtab - 8)
    refuse_unless(all(it % 2 == 0 for it in sizes), f"F10 procedure {number}")
    return jtab


def check_part(code, tables, number):
    """The checks of the part of a procedure, its ENTER and its EXIT. `tables` are all JTABs."""
    jtab = tables[number - 1]
    low = max((it + 2 for it in tables if it < jtab), default=0)
    inside = [low <= at - word(code, at) < jtab - 8 for at in (jtab - 2, jtab - 4)]
    refuse_unless(low <= jtab - 8 and all(inside), f"F7 procedure {number}")


def code_file(data):
    """The segment of a code file, or BytesRefused with F1 to F10."""
    segment = segment_of(data)
    code = data[segment.begin : segment.begin + segment.length]
    numbers = range(1, segment.count + 1)
    end = segment.length - 2 - 2 * segment.count
    tables = [table_of(code, end, it) for it in numbers]
    for it in numbers:
        check_part(code, tables, it)
    return segment
