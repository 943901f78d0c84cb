"""Makes a code file of procedures."""

import struct

from .encoder import Encoder, byte, word
from .faults import TooLarge
from .instructions import BLOCK, MOST_BYTES


def code_file(name, number, procedures, file, encoder=Encoder):
    """The code file of one linked segment: block 0, and the segment from block 1 on.

    The segment has a name and a number. A fault that no procedure is at is the file's.
    """
    segment, tables = b"", {}
    for procedure in procedures:
        part, jtab = encoder(procedure, len(segment)).part()
        segment += part
        tables[procedure.number] = jtab
    if len(segment) + 2 * len(tables) + 2 > MOST_BYTES:
        raise TooLarge(f"the segment has more than {MOST_BYTES} bytes", file)
    for it in sorted(tables, reverse=True):
        segment += word(len(segment) - tables[it])
    segment += byte(number) + byte(len(tables))
    block = bytearray(BLOCK)
    struct.pack_into("<HH", block, 4, 1, len(segment))
    block[72:80] = name.encode("ascii").ljust(8)
    return bytes(block) + segment + bytes(-len(segment) % BLOCK)
