"""Writes a node's log as the store of the program does, byte for byte (docs/FORMATS.md)."""

from ..record import MOST_KEYS, PROMISE, SECTOR, START, VOTE, Ballot, Batch
from ..replica.datagram import ballot_bytes, number, value_bytes

# The ballot under which a renewed session has voted, and the start of node 1 that has its keys.
FIRST = Ballot(1, 1)


def vote_bytes(place, ballot, batch):
    return number(VOTE, 1) + number(place, 4) + ballot_bytes(ballot) + value_bytes(batch)


def is_torn_by_sector(at, entry):
    """Whether a sector begins at the value of a vote that is appended at this offset, or at one of
    its characters: what a crash leaves of it could then be read as another vote."""
    return any((at + it) % SECTOR == 0 for it in (10, *range(21, len(entry))))


def appended(at, entry, promise):
    """What is appended at this offset: the vote, and before it as many promises, which change
    nothing, as it takes that no sector tears it."""
    before = 0
    while is_torn_by_sector(at + before, entry):
        before += len(promise)
    return promise * (before // len(promise)) + entry


def batches_of(characters):
    """The batches of these characters, typed at node 1 in its first start: full ones, but the
    last."""
    return [
        Batch(1, 1, first + 1, characters[first : first + MOST_KEYS])
        for first in range(0, len(characters), MOST_KEYS)
    ]


def log_of(node, size, session, characters):
    """The log of a node after its first start, in a group whose node 1 has led under ballot 1.1, if
    these characters were typed there and all nodes have accepted them in full batches."""
    promise = number(PROMISE, 1) + ballot_bytes(FIRST)
    head = b"PL" + bytes([2, node, size]) + number(session, 4)
    log = bytearray(head + number(START, 1) + promise)
    for place, batch in enumerate(batches_of(characters)):
        log += appended(len(log), vote_bytes(place, FIRST, batch), promise)
    return bytes(log)
