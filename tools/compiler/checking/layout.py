"""Where the fields of a record lie."""

from .types import WORD, Field, Ordinal


class Layout:
    """The word and bit that are free, and the field that is alone in its word so far."""

    def __init__(self, record, word=0, bit=0):
        self.record = record
        self.word, self.bit = word, bit
        self.alone = None

    def copy(self):
        """The same, for a variant."""
        return Layout(self.record, self.word, self.bit)

    def close(self):
        """Goes to the next whole word. A packed field that has a word for itself becomes whole."""
        if self.bit:
            self.word, self.bit = self.word + 1, 0
            if self.alone:
                self.alone.bits = WORD
        self.alone = None

    def put(self, kind) -> Field:
        """The next field, of a type."""
        is_packed = self.record.is_packed and isinstance(kind, Ordinal)
        bits = kind.bits if is_packed else WORD
        if bits == WORD or self.bit + bits > WORD:
            self.close()
        if bits == WORD:
            field = Field(kind, self.word)
            self.word += kind.size
        else:
            field = Field(kind, self.word, bits, self.bit)
            self.alone = field if self.bit == 0 else None
            self.bit += bits
        self.record.size = max(self.record.size, self.word + (self.bit > 0))
        return field
