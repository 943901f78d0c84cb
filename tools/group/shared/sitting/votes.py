"""What the records of a group say of typed keys: which of them a record has, and which are
chosen."""

import os

from ..record import PLACES, Damaged, keys_in
from ..watch import Whole


class Votes(Whole):
    """The record of a file, whose votes are handed on as they come."""

    def __init__(self, path):
        super().__init__(path)
        self.stamp, self.fresh, self.now = None, [], None

    def kept(self, record):
        self.fresh.extend(record.votes.items())
        record.votes.clear()
        return record

    def whole(self, file, record):
        return self.kept(super().whole(file, record))

    def forget(self):
        """Lets the next look read all of the record."""
        self.stamp, self.inode, self.fresh = None, None, []

    def look(self):
        """Reads what has come. Whether the file has changed. `now` is the record without its votes,
        or None where it cannot be read."""
        try:
            it = os.stat(self.path)
            stamp = it.st_ino, it.st_size, it.st_mtime_ns
            if stamp == self.stamp:
                return False
            self.stamp, self.now = stamp, self.read()
        except (OSError, Damaged):
            is_new, self.stamp, self.now = self.now is not None, None, None
            return is_new
        return True


class Tally:
    """The votes of all records, of one session. A key is its node, start and serial. Keys of the
    starts that somebody follows are kept, and of all others the greatest serial alone."""

    def __init__(self, size):
        self.size = size
        # Who has voted at a place that is not decided, under a ballot, and for what.
        self.voters, self.values = {}, {}
        self.decided = bytearray(PLACES)
        self.greatest = {}
        # Of each start that is followed: the characters that some record has, by their serials, and
        # the serial from which on they are kept.
        self.followed, self.floors = {}, {}
        # Of keys of these: which are chosen, and at which places that are not decided they have
        # votes.
        self.chosen, self.places = set(), {}

    def follow(self, node, start, floor=0):
        """Follows the keys of a start behind this serial."""
        of = node, start
        self.followed.setdefault(of, {})
        self.floors[of] = floor

    def is_full(self):
        """Whether all places of the session are taken: nothing more is chosen in it."""
        return self.decided.count(1) == PLACES

    def forget(self, node, start, floor):
        """Forgets the keys up to this serial of a start that is followed."""
        of = node, start
        for serial in [it for it in self.followed[of] if it <= floor]:
            del self.followed[of][serial]
            self.chosen.discard((*of, serial))
        self.floors[of] = floor

    def is_followed(self, key):
        return key[2] > self.floors.get(key[:2], 1 << 32)

    def note(self, voter, place, ballot, value):
        """A record has this vote."""
        keys = keys_in(value)
        if keys:
            of, last = keys[-1][:2], keys[-1][2]
            self.greatest[of] = max(self.greatest.get(of, 0), last)
        mine = [key for key in keys if self.is_followed(key)]
        for *of, serial, character in mine:
            self.followed[tuple(of)][serial] = character
        if self.decided[place]:
            return
        for key in mine:
            self.places.setdefault(key[:3], set()).add(place)
        voters = self.voters.setdefault(place, {}).setdefault(ballot, set())
        voters.add(voter)
        if 2 * len(voters) > self.size:
            self.decide(place, keys)

    def decide(self, place, keys):
        """A majority has voted for these keys under one ballot: no others are chosen here."""
        self.decided[place] = 1
        del self.voters[place]
        self.chosen.update(key[:3] for key in keys if self.is_followed(key))
        for key in [key for key, places in self.places.items() if place in places]:
            self.places[key].discard(place)
            if not self.places[key]:
                del self.places[key]
