"""The messages that a group has sent, by their numbers, in memory that does not grow with them: the
last ones are kept whole, and of each older one eight bytes in a file."""

import collections
import os
import struct
import tempfile

from .protocol import ALL

# How many messages are kept whole, and how many entries of the file are read at once.
KEPT, PIECE = 32768, 131072
ENTRY = struct.Struct("<q")
# An equal message that was not heard before is taken only if fewer than so many were sent after it:
# an older one was lost, and it is the last that came twice.
RECENT = 60


class Messages:
    """The messages, as a list is that only grows. An older one has no content here: who asks for
    its number by its content says what it was, by `recall`. If `keeps_all` is said all are kept."""

    def __init__(self, keeps_all=False):
        # The last messages, from the number `first` on, and how many there are in all.
        self.last, self.first, self.count = collections.deque(), 0, 0
        self.numbers = collections.defaultdict(dict)  # of the last, by whom and content
        self.to_all = self.numbers[ALL]
        # Older ones that are there again, by their numbers; and which a node hears next.
        self.recalled, self.awaited = {}, {}
        # By nodes the numbers of recent messages that they have heard.
        self.heard = collections.defaultdict(set)
        self.keeps_all = keeps_all
        self.older = None if keeps_all else tempfile.TemporaryFile()

    def __len__(self):
        return self.count

    def __getitem__(self, number):
        return self.last[number - self.first] if number >= self.first else self.recalled[number]

    def extend(self, messages):
        number = self.count
        for it in messages:
            numbers, data = self.numbers[it.to], it.data
            before = numbers.get(data)
            # Those that are not recent are found by the last one alone.
            recent = [old for old in before if old + RECENT >= number] if before else []
            recent.append(number)
            numbers[data] = recent
            number += 1
        self.last.extend(messages)
        self.count = number
        if not self.keeps_all and len(self.last) > 2 * KEPT:
            self.let_go()

    def let_go(self):
        """Writes the older half of what is kept into the file."""
        entries = bytearray()
        for _ in range(KEPT):
            it = self.last.popleft()
            numbers = self.numbers[it.to]
            if numbers[it.data][-1] == self.first:
                del numbers[it.data]
            entries += ENTRY.pack(hash((it.to, it.data)))
            self.first += 1
        self.older.seek(0, os.SEEK_END)
        self.older.write(entries)
        self.recalled.clear()

    def kept_for(self, node):
        """The messages that are kept, by their content: those to all, and those to this node."""
        return self.to_all, self.numbers[node]

    def heard_by(self, node, data):
        """The number of the message that a node has heard now, and the message, or None if it is
        neither kept nor recalled for it. Of equal ones it is the last that the node has not heard,
        if it is a recent one, or else the last."""
        if node in self.awaited:
            number, self.recalled[number] = found = self.awaited.pop(node)
            return found
        numbers = self.to_all.get(data) or self.numbers[node].get(data)
        if numbers is None:
            return None
        heard, found = self.heard[node], numbers[-1]
        if found in heard:
            for number in reversed(numbers):
                if number + RECENT < self.count:
                    break
                if number not in heard:
                    found = number
                    break
        heard.add(found)
        if len(heard) > 16 * RECENT:
            heard.difference_update([it for it in heard if it + RECENT < self.count])
        return found, self.last[found - self.first]

    def recall(self, node, sent):
        """Whether an older message was this one, to all or to this node. Then it is there again
        under its number, until others are let go, and is what this node hears next."""
        wanted = {ENTRY.pack(hash((to, sent.data))) for to in (ALL, node)}
        number = self.last_of(wanted)
        self.awaited.pop(node, None)
        if number is not None:
            self.awaited[node] = number, sent
        return number is not None

    def last_of(self, wanted):
        """The last number of an entry of the file that is one of these."""
        size, end = ENTRY.size, self.first * ENTRY.size
        while end > 0:
            begin = max(0, end - PIECE * size)
            self.older.seek(begin)
            data = self.older.read(end - begin)
            found = [last_in(data, it) for it in wanted]
            if max(found) >= 0:
                return begin // size + max(found)
            end = begin
        return None


def last_in(data, entry):
    """The number of the last entry in some data that is this one, or -1."""
    at = data.rfind(entry)
    while at >= 0 and at % ENTRY.size:
        at = data.rfind(entry, 0, at + ENTRY.size - 1)
    return -1 if at < 0 else at // ENTRY.size
