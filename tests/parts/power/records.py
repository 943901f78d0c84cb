"""What a node has told of its record before the power failed, and what a restart finds of it: for
tests/power."""

import bisect
import collections
import os
import subprocess
from itertools import zip_longest

from shared.nodes import command_of, free_addresses
from shared.record import LOG_HEADER, PROMISE, START, VOTE, Damaged, record_of

from ..files import bytes_of
from ..program import PROGRAM, Broken
from ..scripts import session_of

# From some time on so many bytes of the record must not be lost, and why: "synced", or "answered"
# since the node sent or showed something.
Claim = collections.namedtuple("Claim", "time length why")
# What a restart does with a record: the program's status, what it said, and the record that it
# left, with its own start.
Restart = collections.namedtuple("Restart", "status said left")
# A record in an image: its kind, how many changes of the final record are read from it, and a text
# for what must not be.
Finding = collections.namedtuple("Finding", "kind read fault")


def claims_of(notes, record):
    """Returns the claims of the notes that tests/parts/power/sync.c has made for a record. A file
    that got the record's name has it for sure when the folder is synced, and its bytes when they
    were synced under either name."""
    synced, is_named, claims = {}, False, []
    for moment, kind, length, path in notes:
        if kind == "answer":
            claims.append(Claim(moment, length, "answered"))
        elif kind == "rename" and path == record:
            synced[record], is_named = synced.pop(f"{record}.new", 0), False
        elif kind == "sync":
            synced[path] = length
            is_named = is_named or path == os.path.dirname(record)
            if is_named:
                claims.append(Claim(moment, synced.get(record, 0), "synced"))
    return claims


def notes_of(path):
    """Returns the notes in a file, in their order."""
    notes = []
    with open(path, encoding="utf-8") as file:
        for line in file:
            moment, kind, length, name = line.rstrip("\n").split(" ", 3)
            notes.append((float(moment), kind, int(length), name))
    return notes


def size_of_entry(log, at):
    """Returns the bytes of the log's entry there, as docs/FORMATS.md has them, or None where it is
    cut before its length is known."""
    if log[at] == START:
        return 1
    if log[at] == PROMISE:
        return 6
    if log[at] != VOTE:
        raise Damaged(f"an entry with the tag {log[at]}")
    if at + 11 > len(log):
        return None
    if log[at + 10] == 0:
        return 11
    return 21 + log[at + 20] if at + 21 <= len(log) else None


def entries_of(log):
    """Returns the whole entries of a log, each with its end."""
    entries, at = [], LOG_HEADER
    while at < len(log):
        size = size_of_entry(log, at)
        if size is None or at + size > len(log):
            break
        at += size
        entries.append((at, log[at - size : at]))
    return entries


def changes_of(log):
    """Returns the changes of a log in their order, each as its entry with its end. A promise of the
    ballot that is promised changes nothing: the program puts such ones before votes."""
    changes, promised = [], None
    for end, entry in entries_of(log):
        ballot = {PROMISE: entry[1:6], VOTE: entry[5:10]}.get(entry[0])
        if entry[0] != PROMISE or ballot != promised:
            changes.append((end, entry))
        promised = ballot or promised
    return changes


# How many bytes of a record are shown where it differs: more than an entry has.
MOST_SHOWN = 64


class Restarts:
    """Starts the built program on copies of records, each content once."""

    def __init__(self, room, file):
        self.copy, self.file = os.path.join(room, "copy"), file
        self.session, self.known = session_of(file), {}

    def restart(self, data, node):
        """Starts a node on a record with these bytes, for no turn: it loads the record, and saves
        its start."""
        if data not in self.known:
            with open(self.copy, "wb") as file:
                file.write(data)
            addresses = free_addresses(len(node.nodes))
            words = command_of(
                PROGRAM, self.file, node.number, self.session, self.copy, addresses, turns=0
            )
            done = subprocess.run(
                words, check=False, stdin=subprocess.DEVNULL, capture_output=True, text=True,
                timeout=60,
            )
            if "socket" in done.stderr:
                raise Broken("a fault of the test: an address was taken")
            self.known[data] = Restart(done.returncode, done.stderr.strip(), bytes_of(self.copy))
        return self.known[data]


class Record:
    """The record of one node: its last bytes, what they hold, and the claims."""

    def __init__(self, node, final, notes):
        self.node, self.final = node, final
        self.claims = claims_of(notes, node.record)
        try:
            record_of(final)
        except Damaged as fault:
            what = f"the record of node {node.number} is damaged, though no power was cut"
            raise Broken(f"{what}: {fault}")
        self.edges = {LOG_HEADER, *(end for end, _ in entries_of(final))}
        changes = changes_of(final)
        self.ends, self.changes = [end for end, _ in changes], [entry for _, entry in changes]

    def read_from(self, left):
        """Returns the finding without its kind for a start that left this record: it is that start
        behind what was read."""
        try:
            record_of(left)
            changes = [entry for _, entry in changes_of(left)]
        except Damaged as fault:
            return Finding("other", 0, f"the start has left a record that is damaged: {fault}")
        if changes[-1:] != [bytes([START])]:
            text = "the start is not the last change of the record that it has left"
            return Finding("other", 0, text)
        for index, (read, was) in enumerate(zip_longest(changes[:-1], self.changes)):
            if read != was and read is not None:
                of = "no other" if was is None else was.hex()
                text = f"change {index + 1} is read as {read.hex()}, and was {of}"
                return Finding("other", index, text)
        return Finding(None, len(changes) - 1, None)

    def count_at(self, length):
        """Returns how many changes the first `length` bytes of the final record have."""
        return bisect.bisect_right(self.ends, length)

    def difference(self, data):
        """Says where these bytes differ from the final record."""
        if data is None:
            return "there is no file"
        same = len(os.path.commonprefix([data, self.final]))
        if same == len(data):
            return f"it has {same} bytes, the first ones of the final record"
        read, was = (it[same : same + MOST_SHOWN].hex() for it in (data, self.final))
        return f"it has {len(data)} bytes, and from {same} on {read} in place of {was}"

    def kind_of(self, data, restarts):
        """Returns what a restart finds in these bytes, and the program does with them, but not yet
        whether something is lost."""
        is_begin = data == self.final[: len(data)]
        if is_begin and len(data) in self.edges:
            return Finding("whole", self.count_at(len(data)), None)
        done = restarts.restart(data, self.node)
        if done.status != 0:
            return Finding("refused", 0, f"the program says: {done.said}")
        found = self.read_from(done.left)
        return found._replace(kind=found.kind or ("cut" if is_begin else "torn"))

    def finding(self, data, moment, restarts):
        """Returns the finding for the bytes of this record in an image, or None for no record,
        where the power failed at this moment."""
        found = Finding("none", 0, None) if data is None else self.kind_of(data, restarts)
        if found.fault:
            return found
        for why in ("synced", "answered"):
            before = [it for it in self.claims if it.time <= moment and it.why == why]
            length = max((it.length for it in before), default=0)
            if found.read < self.count_at(length):
                fault = f"{self.count_at(length)} changes were {why}, and {found.read} are read"
                return Finding("lost", found.read, fault)
        return found
