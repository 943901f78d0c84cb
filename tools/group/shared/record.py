"""Reads a node's record, whole or as a log, of version 1 or 2, as docs/FORMATS.md describes it, and
refuses all that is none. What is in order, which may be very many votes, is read by struct; what is
not is left to a reader that takes field by field, and says what is wrong."""

import collections
import hashlib
import os
import struct

# `promised` is a ballot or None; `votes` has a ballot and a value for each place with a vote.
Record = collections.namedtuple("Record", "version node size session starts promised votes")
# Ordered as ballots are: by round, then by node.
Ballot = collections.namedtuple("Ballot", "round node")
# The characters that were typed at a node in one of its starts, with serials from `first` on.
Batch = collections.namedtuple("Batch", "node start first characters")
# A value without keys.
NOOP = None

PLACES = 65536
MOST_KEYS = 32
LAST_SERIAL = 4294967295
LAST_START = 4294967295
# The bytes of a whole record before its votes, and of a log before its entries.
HEADER = 22
LOG_HEADER = 9
# The tags of a log's entries.
START, PROMISE, VOTE = 1, 2, 3
# What a file begins with that `renew` has put in the place of a retired record.
RETIRED = b"retired: "
# The bytes of a sector, and the most that a save appends.
SECTOR, MOST_APPENDED = 512, 89
# A ballot; a vote up to the tag of its value; and a batch up to its count. In version 1 a batch has
# no count, and in that place its only character.
BALLOT, VOTE_BEGIN, BATCH_BEGIN = map(struct.Struct, (">IB", ">IIBB", ">BIIB"))


class Damaged(Exception):
    """What is wrong with a record."""


class Reader:
    """Takes numbers off the front of a record's bytes."""

    def __init__(self, data):
        self.data = data
        self.at = 0

    def take(self, size):
        data = self.data[self.at : self.at + size]
        if len(data) < size:
            raise Damaged(f"it ends within a field, after {len(self.data)} bytes")
        self.at += size
        return data

    def number(self, size):
        return int.from_bytes(self.take(size), "big")


def sha256(data):
    return hashlib.sha256(data).digest()


def must(holds, text):
    if not holds:
        raise Damaged(text)


def keys_in(value):
    """The keys of a value: node, start, serial and character."""
    if value is NOOP:
        return []
    first = enumerate(value.characters, value.first)
    return [(value.node, value.start, serial, character) for serial, character in first]


def ballot_of(reader, size):
    ballot = Ballot(reader.number(4), reader.number(1))
    is_one = ballot.round >= 1 and 1 <= ballot.node <= size
    must(is_one, f"{text_of_ballot(ballot)} is no ballot of {size} nodes")
    return ballot


def promised_of(reader, size):
    """The promised ballot, or None where its bytes are zeros."""
    zeros = bytes(5)
    if reader.data[reader.at : reader.at + 5] == zeros:
        reader.take(5)
        return None
    return ballot_of(reader, size)


def batch_of(reader, version, size):
    node, start, first = reader.number(1), reader.number(4), reader.number(4)
    count = reader.number(1) if version == 2 else 1
    is_one = 1 <= node <= size and start >= 1 and first >= 1 and 1 <= count <= MOST_KEYS
    must(is_one, f"a batch of {count} keys from {first} on of start {start} of node {node}")
    must(first + count - 1 <= LAST_SERIAL, f"a batch of {count} keys from {first} on")
    return Batch(node, start, first, reader.take(count))


def value_of(reader, version, size):
    tag = reader.number(1)
    must(tag in (0, 1), f"a value with the tag {tag}")
    return batch_of(reader, version, size) if tag else NOOP


def vote_at(data, at, version, size):
    """The place, the ballot and the value of the vote that begins there, and where it ends, or None
    unless all of it is there and in its ranges."""
    if len(data) < at + 10:
        return None
    place, first, second, tag = VOTE_BEGIN.unpack_from(data, at)
    if place >= PLACES or not first or not 1 <= second <= size:
        return None
    at += 10
    if tag == 0:
        return place, Ballot(first, second), NOOP, at
    if tag != 1 or len(data) < at + 10:
        return None
    node, start, serial, count = BATCH_BEGIN.unpack_from(data, at)
    count, at = (count, at + 10) if version == 2 else (1, at + 9)
    is_one = 1 <= node <= size and start and serial and 1 <= count <= MOST_KEYS
    if not is_one or serial + count - 1 > LAST_SERIAL or len(data) < at + count:
        return None
    value = Batch(node, start, serial, data[at : at + count])
    return place, Ballot(first, second), value, at + count


def plain_votes(reader, count, version, size, promised):
    """The votes that a whole record begins with, as far as they are in order."""
    votes, last, at = {}, -1, reader.at
    while len(votes) < count:
        vote = vote_at(reader.data, at, version, size)
        if vote is None or vote[0] <= last or promised is None or vote[1] > promised:
            break
        last, ballot, value, at = vote
        votes[last] = ballot, value
    reader.at = at
    return votes, last


def votes_of(reader, version, size, promised):
    count = reader.number(4)
    votes, last = plain_votes(reader, count, version, size, promised)
    for _ in range(count - len(votes)):
        place = reader.number(4)
        must(last < place < PLACES, f"a vote at place {place} after one at place {last}")
        ballot = ballot_of(reader, size)
        is_promised = promised is not None and ballot <= promised
        under, other = text_of_ballot(ballot), text_of_ballot(promised)
        must(is_promised, f"a vote under {under}, and promised is {other}")
        votes[place] = (ballot, value_of(reader, version, size))
        last = place
    return votes


def owner_of(reader):
    """The letters that a record begins with, its version, node, size and session."""
    must(not reader.data.startswith(RETIRED), "it was retired, as the session was renewed")
    letters = reader.take(2)
    must(letters in (b"PR", b"PL"), "it begins with neither PR nor PL")
    version = reader.number(1)
    must(version in (1, 2), f"version {version}")
    node, size = reader.number(1), reader.number(1)
    must(size in (1, 3, 5, 7, 9) and 1 <= node <= size, f"node {node} of {size}")
    return letters, Record(version, node, size, reader.number(4), 0, None, {})


def head_of(reader, record):
    """A whole record without its votes, of which at least the bytes before these are given."""
    reader.at = LOG_HEADER
    starts = reader.number(4)
    return record._replace(starts=starts, promised=promised_of(reader, record.size))


def is_cut_at(data, at, version):
    """Whether bytes are missing at the end of the entry there, whatever its others are."""
    size = len(data) - at
    if size == 0 or data[at] == PROMISE:
        return size < 6
    if data[at] != VOTE or size < 11:
        return data[at] == VOTE
    if data[at + 10] != 1 or size < 21:
        return data[at + 10] == 1
    return version == 2 and 0 < data[at + 20] <= MOST_KEYS and size < 21 + data[at + 20]


def entry_of(reader, record):
    """The next entry of the record's log: its tag, and its place, ballot and value, if any."""
    tag = reader.number(1)
    must(tag in (START, PROMISE, VOTE), f"an entry with the tag {tag}")
    if tag == START:
        return tag, None, None, NOOP
    place = reader.number(4) if tag == VOTE else 0
    must(place < PLACES, f"a vote at place {place}")
    ballot = ballot_of(reader, record.size)
    value = value_of(reader, record.version, record.size) if tag == VOTE else NOOP
    return tag, place, ballot, value


def with_entry(record, tag, place, ballot, value):
    """The record with the change of an entry."""
    if tag == START:
        must(record.starts < LAST_START, f"a start after {LAST_START}")
        return record._replace(starts=record.starts + 1)
    is_below = record.promised is not None and ballot < record.promised
    under, before = text_of_ballot(ballot), text_of_ballot(record.promised)
    must(not is_below, f"an entry under {under} after {before}")
    if tag == VOTE:
        record.votes[place] = (ballot, value)
    return record._replace(promised=ballot)


def is_torn(end, at, version):
    """Whether a crash may have left these bytes, which begin with no entry, of an append to a log
    of `at` bytes: those up to the next sector are zeros, or those from there on."""
    edge = SECTOR - at % SECTOR
    is_lost = not any(end[:edge]) or (len(end) > edge and not any(end[edge:]))
    return version == 2 and len(end) <= MOST_APPENDED and is_lost


def plain_entry(data, at, version, size):
    """The place, the ballot and the value of the next entry of a log, as far as it has them, and
    where it ends, or None unless all of it is there and in its ranges."""
    tag = data[at] if at < len(data) else 0
    if tag == VOTE:
        return vote_at(data, at + 1, version, size)
    if tag == START:
        return None, None, NOOP, at + 1
    if tag != PROMISE or len(data) < at + 6:
        return None
    first, second = BALLOT.unpack_from(data, at + 1)
    return (None, Ballot(first, second), NOOP, at + 6) if first and 1 <= second <= size else None


def with_plain_entries(reader, record, note):
    """The record with the changes of the next entries, as far as they are in order."""
    data, version, size, votes = reader.data, record.version, record.size, record.votes
    starts, promised, at = record.starts, record.promised, reader.at
    while True:
        entry = plain_entry(data, at, version, size)
        if entry is None:
            break
        place, ballot, value, end = entry
        if starts == LAST_START if ballot is None else promised and ballot < promised:
            break
        note(starts, promised, data[at], ballot)
        if ballot is None:
            starts += 1
        elif ballot != promised:
            promised = ballot
        if place is not None:
            votes[place] = promised, value
        at = end
    reader.at = at
    return record._replace(starts=starts, promised=promised)


def with_entries(reader, record, offset, note=lambda starts, promised, tag, ballot: None):
    """The record with the changes of all whole entries. What a crash may have left of an append is
    left. The reader's bytes begin at this offset of the log. `note` is given the starts and the
    promised ballot before each entry, and the entry's tag and ballot."""
    record = with_plain_entries(reader, record, note)
    while not is_cut_at(reader.data, reader.at, record.version):
        at = reader.at
        try:
            entry = entry_of(reader, record)
        except Damaged:
            reader.at = at
            if is_torn(reader.data[at:], offset + at, record.version):
                return record
            raise
        note(record.starts, record.promised, entry[0], entry[2])
        record = with_entry(record, *entry)
    return record


def record_of(data):
    """The record whose bytes these are, all of them but what a crash may have left at the end."""
    reader = Reader(data)
    letters, record = owner_of(reader)
    if letters == b"PL":
        record = with_entries(reader, record, 0)
        return record._replace(votes=dict(sorted(record.votes.items())))
    head = head_of(reader, record)
    record = head._replace(votes=votes_of(reader, head.version, head.size, head.promised))
    must(reader.at == len(data), f"{len(data) - reader.at} bytes follow the last vote")
    return record


def read_record(path):
    """The record of a file. Damaged where it is none, and OSError where the file cannot be read."""
    with open(path, "rb") as file:
        return record_of(file.read())


class Head:
    """The record of a file without its votes, again and again: of a log each time only what was
    appended is read, also if the log was written anew with the same beginning, as by each start of
    a node; and of a whole record its votes only if that is asked. So it takes no longer where there
    are many. `under` counts the votes of a log under the ballot that it has promised. `before_last`
    has the starts, the promised ballot and `under` before the log's last entry, and `places` how
    many places there are up to the last one with a vote; None of a whole record."""

    has_votes = False  # Whether a whole record is read with its votes each time.

    def __init__(self, path):
        self.path = path
        self.inode = None  # of the log that was read, up to `at`, and has this record up to there
        self.at, self.record, self.under, self.before_last = 0, None, 0, (0, None, 0)
        # The checksum of the log's bytes up to `at`; and that of the whole record that was read
        # with its votes, with its head and `under`.
        self.places, self.sum, self.known = None, None, (None, None, 0)

    def read(self, is_all=False):
        """The record. If all is asked, what was changed in place is noticed, and a whole record is
        read with its votes, as once before a node starts."""
        is_with_votes = is_all or self.has_votes
        with open(self.path, "rb") as file:
            inode, size = os.fstat(file.fileno()).st_ino, file.seek(0, os.SEEK_END)
            if inode == self.inode and size >= self.at and not is_all:
                file.seek(self.at)
                return self.follow(file.read())
            file.seek(0)
            data = file.read(HEADER)
            letters, record = owner_of(Reader(data[:LOG_HEADER]))
            if letters == b"PL" or is_with_votes:
                data += file.read()
        if letters == b"PR":
            self.inode, self.places, self.under = None, None, 0
            return self.whole(data) if is_with_votes else head_of(Reader(data), record)
        begin = data[: self.at]
        if not self.sum or len(begin) < self.at or sha256(begin) != self.sum.digest():
            self.at, self.record, self.under, self.places = LOG_HEADER, record, 0, 0
            self.before_last, self.sum = (0, None, 0), hashlib.sha256(data[:LOG_HEADER])
        self.inode = inode
        return self.follow(data[self.at :])

    def whole(self, data):
        """The record of these bytes, which are of a whole one."""
        digest = sha256(data)
        if digest != self.known[0]:
            it = record_of(data)
            under = sum(ballot == it.promised for ballot, _ in it.votes.values())
            self.known = digest, it._replace(votes={}), under
        _, record, self.under = self.known
        return record

    def note(self, starts, promised, tag, ballot):
        """The log has an entry of this tag and ballot over a record with these starts and this
        promised ballot."""
        self.before_last = starts, promised, self.under
        if tag != START and (promised is None or promised < ballot):
            self.under = 0
        self.under += tag == VOTE

    def follow(self, data):
        """The record with what follows it in its log."""
        reader = Reader(data)
        try:
            self.record = with_entries(reader, self.record, self.at, self.note)
        except Damaged:
            self.inode = self.sum = None
            raise
        self.at += reader.at
        self.sum.update(data[: reader.at])
        self.places = max([self.places, *(it + 1 for it in self.record.votes)])
        return self.kept(self.record)

    def kept(self, record):
        record.votes.clear()
        return record


def read_head(path):
    """The record of a file without its votes."""
    return Head(path).read()


def text_of_ballot(ballot):
    return "-" if ballot is None else f"{ballot.round}.{ballot.node}"


def places_of(record):
    """At how many places of the session a record has voted, and which share of all that is."""
    taken = len(record.votes)
    return f"{taken} of {PLACES}, {100 * taken / PLACES:.1f} %"
