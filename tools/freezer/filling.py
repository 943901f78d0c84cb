"""Code that gives memory its words, of which all are zero before it. The words of the main frame
reach all that is live (docs/FORMATS.md, Execution)."""

from pcode.encoder import big, byte, word
from pcode.instructions import BIG, BYTE, LDCI

LITERALS = 250  # words of an STM, which all stand on the stack before it
MOST_ZEROS = 5  # so many zeros in a block are shorter than a second block
KEY = 4  # so many words have to be there already before a copy is looked for
TRIES = 32  # places that are looked at for the longest copy


def push(value):
    return byte(value) if value < 128 else byte(LDCI) + word(value)


def cost(words):
    """The bytes that push these words."""
    return sum(1 if it < 128 else 3 for it in words)


def address(at):
    return byte(BIG["LAO"]) + big(at)


def literal(memory, at, end):
    """Code that stores the words from `at` up to `end`, of which the last is not 0."""
    if end - at == 1:
        return push(memory[at]) + byte(BIG["SRO"]) + big(at)
    pushes = b"".join(push(it) for it in reversed(memory[at:end]))
    return address(at) + pushes + byte(BYTE["STM"]) + byte(end - at)


def block_end(memory, at, end):
    """Where a block of words that begins with the one at `at` ends."""
    last = now = at
    while now < end and now - at < LITERALS and now - last <= MOST_ZEROS:
        now += 1
        if memory[now - 1]:
            last = now
    return last


def literals(memory, at, end):
    """Code for the words from `at` up to `end`, none of which is copied."""
    out = bytearray()
    while at < end:
        if memory[at] == 0:
            at += 1
            continue
        last = block_end(memory, at, end)
        out += literal(memory, at, last)
        at = last
    return bytes(out)


class Copied:
    """The words that are there already, by the first ones of each place."""

    def __init__(self, memory):
        self.memory, self.places = memory, {}

    def add(self, last):
        """A word is there from now on."""
        first = last - KEY + 1
        if first > 0:
            self.places.setdefault(tuple(self.memory[first:last + 1]), []).append(first)

    def length(self, source, at):
        """How many words from `source` on are those from `at` on, of those that are there."""
        memory, count = self.memory, 0
        most = min(at - source, len(memory) - at)
        while count < most and memory[source + count] == memory[at + count]:
            count += 1
        return count

    def longest(self, at):
        """From where the most words can be copied to `at`, and how many. Zeros at their end are
        there without."""
        memory = self.memory
        sources = self.places.get(tuple(memory[at:at + KEY]), [])[-TRIES:]
        if not sources or not any(memory[at:at + KEY]):
            return 0, 0
        count, source = max((self.length(it, at), it) for it in sources)
        while memory[at + count - 1] == 0:
            count -= 1
        return source, count


def filling(memory):
    """Code for all words. It writes them upwards, and copies from what is there already if that is
    shorter."""
    out, copied, at, begin = bytearray(), Copied(memory), 1, 1
    while at < len(memory):
        source, count = copied.longest(at)
        code = address(at) + address(source) + byte(BIG["MOV"]) + big(count)
        if count and cost(memory[at:at + count]) > len(code) + MOST_ZEROS:
            out += literals(memory, begin, at) + code
            begin = at + count
        else:
            count = 1
        for it in range(at, at + count):
            copied.add(it)
        at += count
    return bytes(out + literals(memory, begin, len(memory)))
