"""What was typed at one run of a node, and what has become of each key."""

CHOSEN, VOTED, ABSENT = "chosen", "voted", "absent"


def pairs_of(ours, theirs):
    """For each of our keys the index of the same one in a record's keys, or None. As long as nobody
    else types there, the one begins with the other. Else as many are paired as can be in order, so
    that no key that is there is taken for lost."""
    count = min(len(ours), len(theirs))
    if ours[:count] == theirs[:count]:
        return list(range(count)) + [None] * (len(ours) - count)
    lengths = common_lengths(ours, theirs)
    found, at, other = [None] * len(ours), 0, 0
    while at < len(ours) and other < len(theirs):
        if ours[at] == theirs[other]:
            found[at], at, other = other, at + 1, other + 1
        elif lengths[at][other + 1] >= lengths[at + 1][other]:
            other += 1  # Of equal keys the first ones are there: what is lost is the end.
        else:
            at += 1
    return found


def common_lengths(ours, theirs):
    """For each two places the length of the longest common subsequence from there on."""
    below = [0] * (len(theirs) + 1)
    rows = [below]
    for key in reversed(ours):
        row, behind = [0] * (len(theirs) + 1), 0
        for other in range(len(theirs) - 1, -1, -1):
            is_same = key == theirs[other]
            behind = below[other + 1] + 1 if is_same else max(behind, below[other])
            row[other] = behind
        rows.append(row)
        below = row
    return rows[::-1]


class Stay:
    """The keys that were typed at a node while one process of it ran, but for those of which it is
    known that they are chosen.

    The process has the start `low`, or a later one up to `high`: a node hears keys before its
    record has counted the start. The first serials of `low`, up to `base`, are not ours."""

    def __init__(self, at, node, process, starts, tally):
        self.at, self.node, self.process = at, node, process
        self.low, self.high = starts, starts + 1
        self.base = tally.greatest.get((node, starts), 0)
        tally.follow(node, starts, self.base)
        tally.follow(node, starts + 1, tally.greatest.get((node, starts + 1), 0))
        self.numbers, self.keys = [], bytearray()
        # When the session went on elsewhere, what was told of it then, and the keys that were
        # called lost.
        self.left, self.told, self.named = None, None, set()
        # The other nodes that have been at rest since then, or have ended: they have done all that
        # they had heard of these keys.
        self.rested = set()
        # Whether another process may have got the last keys.
        self.is_unsure = False
        # What was paired last, and how.
        self.paired, self.pairs = None, []

    def narrow(self, starts, is_running):
        """Notes what the record counts: while the process runs, or since it has ended."""
        if self.low < self.high and starts == self.low and not is_running:
            self.high = self.high if self.is_unsure else self.low
        elif self.low < self.high and starts == self.high and is_running:
            self.low, self.base = self.high, 0

    def add(self, keys):
        self.numbers += [number for number, _ in keys]
        self.keys += bytes(it for _, it in keys)

    def identities(self, tally):
        """For each key its start and serial where a record has it, or None."""
        theirs = [
            (start, serial, character)
            for start in range(self.low, self.high + 1)
            for serial, character in sorted(tally.followed.get((self.node, start), {}).items())
            if start > self.low or serial > self.base
        ]
        paired = bytes(self.keys), bytes(it[2] for it in theirs)
        if paired != self.paired:
            self.paired, self.pairs = paired, pairs_of(*paired)
        return [None if it is None else theirs[it][:2] for it in self.pairs]

    def fates(self, tally):
        """For each key whether it is chosen, has votes that still count, or neither."""
        found = []
        for it in self.identities(tally):
            key = it and (self.node, *it)
            is_voted = key and key in tally.places
            found.append(CHOSEN if key in tally.chosen else VOTED if is_voted else ABSENT)
        return found

    def settle(self, tally):
        """Forgets the first keys of which it is known that they are chosen."""
        identities, fates = self.identities(tally), self.fates(tally)
        count = 0
        while count < len(fates) and fates[count] == CHOSEN:
            count += 1
        if count:
            self.low, self.base = identities[count - 1]
            # A process has one start.
            self.high = self.high if self.is_unsure else self.low
            tally.forget(self.node, self.low, self.base)
            self.named.difference_update(self.numbers[:count])
            del self.numbers[:count], self.keys[:count]
