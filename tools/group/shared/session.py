"""The session that belongs to a program: a checksum of its code file, so that nodes with different
programs are of different groups."""


def table_of(polynomial=0x04C11DB7):
    table = []
    for crc in range(256):
        crc <<= 24
        for _ in range(8):
            crc = crc << 1 ^ (polynomial if crc & 0x80000000 else 0)
            crc &= 0xFFFFFFFF
        table.append(crc)
    return table


TABLE = table_of()


def checksum(data):
    """What `cksum` of POSIX prints for these bytes."""
    size = len(data)
    crc = 0
    for byte in data + size.to_bytes((size.bit_length() + 7) // 8, "little"):
        crc = crc << 8 & 0xFFFFFFFF ^ TABLE[crc >> 24 ^ byte]
    return crc ^ 0xFFFFFFFF


def session_of(data, generation):
    """The session of the first, second .. group with this program. From the second on, the number
    and a line feed follow the program's bytes."""
    return checksum(data if generation == 1 else data + b"%d\n" % generation)
