"""Images of disks: how the blocks of a volume lie in a file."""

from pcode.faults import Fault

from .directory import BLOCK, order_of

SECTOR, SECTORS, TRACKS = 256, 16, 35
TRACK = SECTOR * SECTORS
DISK = TRACK * TRACKS  # of 140 KB
# Where the halves of a track's blocks lie in the order of DOS 3.3.
DOS = (0, 14, 13, 12, 11, 10, 9, 8, 7, 6, 5, 4, 3, 2, 1, 15)


def in_blocks(data):
    """An image in the order of DOS 3.3 in that of blocks."""
    return b"".join(data[track + SECTOR * at:track + SECTOR * (at + 1)]
                    for track in range(0, DISK, TRACK) for at in DOS)


def in_sectors(data):
    """An image in the order of blocks in that of DOS 3.3."""
    image = bytearray(DISK)
    halves = [(track, at) for track in range(0, DISK, TRACK) for at in DOS]
    for number, (track, at) in enumerate(halves):
        half = data[SECTOR * number:SECTOR * (number + 1)]
        image[track + SECTOR * at:track + SECTOR * (at + 1)] = half
    return bytes(image)


def volumes_in(data):
    """The blocks at which volumes begin in an image."""
    return [at // BLOCK for at in range(0, len(data), BLOCK) if order_of(data, at)]


def volume_of(data, block, file):
    """The volume of an image, from its first byte on, and the order of its bytes. `block` is where
    it begins, or None."""
    if block is None and not order_of(data) and len(data) == DISK:
        sorted_data = in_blocks(data)
        data = sorted_data if order_of(sorted_data) else data
    if block is None and order_of(data):
        block = 0
    if block is None:
        found = volumes_in(data)
        if len(found) > 1:
            raise Fault(f"it has {len(found)} volumes, at the blocks {', '.join(map(str, found))}: "
                        "choose one by --at", file)
        if not found:
            raise Fault("it has no volume of a p-System: no directory stands in the block 2 of any",
                        file)
        block, = found
    order = order_of(data, block * BLOCK)
    if not order:
        raise Fault(f"no volume begins at its block {block}", file)
    return data[block * BLOCK:], order
