"""Strings and sets, which have several words."""

from ..checking import tree
from ..checking.types import LONG
from .texts import with_length
from .values import Values


class Blocks(Values):
    # Strings

    def string(self, value):
        """Pushes the address of a string."""
        makers = {tree.TextValue: self.known_string, tree.Concatenation: self.concatenation,
                  tree.Copied: self.copied}
        if type(value) in makers:
            makers[type(value)](value)
        else:
            self.push_address(self.place(value.location))

    def known_string(self, value):
        self.text(with_length(value.text))

    def concatenation(self, value):
        room = self.temporary(value.type.size)
        for k, part in enumerate(value.parts):
            self.push_address(room)
            self.string(part)
            self.code.number(value.type.most)
            self.call_library("APPEND" if k else "ASSIGN")
        self.push_address(room)

    def copied(self, value):
        room = self.temporary(value.type.size)
        self.push_address(room)
        self.string(value.text)
        self.push(value.at)
        self.push(value.count)
        self.call_library("COPYTEXT")
        self.push_address(room)

    # Sets

    def set_address(self, value, words):
        """Pushes the address of a set of so many words."""
        if isinstance(value, tree.Load) and value.type.size >= words:
            self.push_address(self.place(value.location))
            return
        room = self.temporary(words)
        self.make_set(value, room, words)
        self.push_address(room)

    def make_set(self, value, room, words):
        """Makes a set in a temporary."""
        if isinstance(value, tree.SetOperation):
            self.make_set(value.left, room, words)
            self.push_address(room)
            self.set_address(value.right, words)
            self.code.number(words)
            self.enter(value.routine)
        elif isinstance(value, tree.SetValue):
            self.make_brackets(value.parts, room, words)
        else:
            size = value.type.size
            if size < words:
                self.store_words(room, [0] * words)
            self.push_address(room)
            self.push_address(self.place(value.location))
            self.code.emit("MOV", min(size, words))

    def make_brackets(self, parts, room, words):
        known, rest = [0] * words, []
        for low, high in parts:
            is_known = isinstance(low, tree.Constant) and isinstance(high or low, tree.Constant)
            last = (high or low).value if is_known else None
            if is_known and (last < 16 * words or last < low.value):
                for element in range(low.value, last + 1):
                    known[element // 16] |= 1 << element % 16
            else:
                rest.append((low, high))
        self.store_words(room, known)
        for low, high in rest:
            self.push_address(room)
            self.push(low)
            if high:
                self.push(high)
            self.code.number(16 * words - 1)
            if high:
                self.call_library("INCLUDE")
            else:
                self.code.number(1)
                self.call_library("PUTELEME")

    # Long integers

    def long_address(self, value):
        """Pushes the address of a long integer of all digits."""
        room = self.temporary(LONG.size)
        self.make_long(value, room)
        self.push_address(room)

    def make_long(self, value, room):
        """Makes a long integer in a temporary."""
        if isinstance(value, tree.LongOperation):
            self.make_long(value.left, room)
            self.push_address(room)
            self.long_address(value.right)
            self.enter(value.routine)
        elif isinstance(value, tree.LongNegative):
            self.make_long(value.value, room)
            self.push_address(room)
            self.call_library("NEGATELO")
        elif isinstance(value, tree.LongRead):
            self.push(value.file)
            self.push_address(room)
            self.call_library("READLONG")
        else:
            self.make_simple(value, room)

    def make_simple(self, value, room):
        if isinstance(value, tree.LongValue) and not -32768 <= value.value <= 32767:
            size = abs(value.value)
            digits = [size // 100 ** k % 100 for k in range(LONG.size - 1)]
            self.store_words(room, [65535 * (value.value < 0)] + digits)
            return
        self.push_address(room)
        if isinstance(value, tree.LongValue):
            self.code.number(value.value)
            self.call_library("LONGOF")
        elif isinstance(value, tree.LongOf):
            self.push(value.value)
            self.call_library("LONGOF")
        else:
            self.push_address(self.place(value.location))
            self.code.number(value.type.size - 1)
            self.call_library("WIDEN")

    def long_fitted(self, node):
        room = self.temporary(node.kind.size)
        self.push_address(room)
        self.long_address(node.value)
        self.code.number(node.kind.size - 1)
        self.code.number(9 if node.kind.most % 2 else 99)
        self.enter(node.routine)
        self.push_address(room)
