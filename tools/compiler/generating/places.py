"""Locations: what is pushed for one, and how it is loaded and stored then."""

from __future__ import annotations

from pcode.fields import Fields

from ..checking import tree
from .code import ADDRESSES, LOADS, STORES, Code


class Frame(Fields):
    """A word of a frame: nothing is pushed."""

    routine: object
    offset: int

    def moved(self, words):
        return Frame(self.routine, self.offset + words)


class Pointer(Fields):
    """An address is pushed, and the word lies so many words behind it."""

    offset: int = 0

    def moved(self, words):
        return Pointer(self.offset + words)


class Bytes:
    """A base and an index of a byte are pushed."""


class Packed:
    """A packed pointer is pushed: an address, a width and the lowest bit."""

# The method for each location.
PLACES = {tree.VariableAt: "variable_place", tree.Opened: "opened_place",
          tree.Target: "target_place", tree.FieldAt: "field_place",
          tree.ElementAt: "element_place", tree.CharacterAt: "character_place",
          tree.WindowAt: "window_place"}


class Places:
    """The part of the generator for locations. `code` is that of the procedure."""

    code: Code

    def place(self, location):
        """Pushes what is needed for a location, and answers which place it is."""
        return getattr(self, PLACES[type(location)])(location)

    def window_place(self, location):
        return self.place(location.base).moved(1)

    def variable_place(self, location):
        variable = location.variable
        place = Frame(variable.routine, self.offset_of(variable))
        if not variable.is_address:
            return place
        self.load(place)
        return Pointer()

    def opened_place(self, location):
        place = location.opening.temporary
        if location.opening.is_frame:
            return place
        self.load(place)
        return Pointer()

    def target_place(self, location):
        self.push(location.pointer)
        return Pointer()

    def field_place(self, location):
        field = location.field
        place = self.place(location.base).moved(field.word)
        if not field.is_packed:
            return place
        self.push_address(place)
        self.code.number(field.bits)
        self.code.number(field.right)
        return Packed()

    def element_place(self, location):
        array = location.base.type
        base = self.place(location.base)
        index = location.index
        is_known = isinstance(index, tree.Constant)
        if is_known and array.per_word == 1:
            return base.moved((index.value - array.index.low) * array.element.size)
        self.push_address(base)
        if is_known:
            self.code.number(index.value - array.index.low)
        else:
            self.push(index)
            self.subtract(array.index.low)
        if array.is_bytes:
            return Bytes()
        if array.per_word > 1:
            self.code.emit("IXP", array.per_word, array.bits)
            return Packed()
        self.code.emit("IXA", array.element.size)
        return Pointer()

    def subtract(self, number):
        if number:
            self.code.number(abs(number))
            self.code.emit("SBI" if number > 0 else "ADI")

    def character_place(self, location):
        """A character of a string. With checks the index is from 1 to the present length."""
        base = self.place(location.base)
        is_checked = location.is_checked
        if is_checked and not isinstance(base, Frame):
            self.push_address(base)
            kept = self.temporary(1)
            self.store(kept)
            self.load(kept)
        else:
            self.push_address(base)
            kept = None
        self.push(location.index)
        if is_checked:
            self.code.number(1)
            if kept:
                self.load(kept)
            else:
                self.push_address(base)
            self.code.number(0)
            self.code.emit("LDB")
            self.code.emit("CHK")
        return Bytes()

    # What a place is for

    def load(self, place):
        if isinstance(place, Frame):
            self.code.frame(LOADS, place.routine, place.offset)
        elif isinstance(place, Pointer):
            self.code.indirect(place.offset)
        else:
            self.code.emit("LDB" if isinstance(place, Bytes) else "LDP")

    def load_words(self, place, words):
        """Loads some words, the first of which is on top then."""
        if isinstance(place, Frame):
            for word in reversed(range(words)):
                self.load(place.moved(word))
        else:
            self.prepare(place)
            self.code.emit("LDM", words)

    def store_words_of(self, place, words):
        """Stores them. Behind an address it is pushed in front of them."""
        if isinstance(place, Frame):
            for word in range(words):
                self.store(place.moved(word))
        else:
            self.code.emit("STM", words)

    def prepare(self, place):
        """What a store needs in front of the value."""
        if isinstance(place, Pointer) and place.offset:
            self.code.emit("INC", place.offset)

    def store(self, place):
        if isinstance(place, Frame):
            self.code.frame(STORES, place.routine, place.offset)
        elif isinstance(place, Pointer):
            self.code.emit("STO")
        else:
            self.code.emit("STB" if isinstance(place, Bytes) else "STP")

    def push_address(self, place):
        if isinstance(place, Frame):
            self.code.frame(ADDRESSES, place.routine, place.offset)
        else:
            self.prepare(place)

    def push_bytes(self, location):
        """A base and an index of a byte."""
        place = self.place(location)
        if not isinstance(place, Bytes):
            self.push_address(place)
            self.code.number(0)
