"""What a person's own terminal is given of a console: all that shows something, and nothing that
the terminal would answer, or that would make it type by itself. Such an answer would be typed as
keys, by everybody who shows the console, and again whenever it is shown anew."""

import codecs

from .plain import plain
from .terminal import Pieces

# The signs of the sequences that move the cursor, erase, or change how characters look.
SIGNS = "ABCDEFGHJKLMPSTX@d`fmrsu"
ESCAPES = "78DEMc"
# The modes that are only about what is shown: the wrap at the last column, and the cursor.
MODES = ("7", "25")
CONTROLS = "\a\b\t\n\v\f\r"


def is_harmless(piece):
    kind = piece.lastgroup
    if kind == "sign" and piece["private"]:
        return piece["private"] == "?" and piece["numbers"] in MODES and piece["sign"] in "hl"
    if kind == "sign":
        # With more numbers a T follows the mouse.
        is_plain = not piece["between"] and not (piece["sign"] in "ST" and ";" in piece["numbers"])
        return is_plain and piece["sign"] in SIGNS
    if kind == "escape":
        return not piece["middle"] and piece["escape"] in ESCAPES
    return kind == "text" or piece[0] in CONTROLS


def shown_of(piece):
    return plain(piece[0]) if piece.lastgroup == "text" else piece[0]


class Harmless:
    """Passes bytes on to a terminal, of UTF-8 or of single bytes."""

    def __init__(self, is_utf8):
        self.name = "utf-8" if is_utf8 else "latin-1"
        self.decoder = codecs.getincrementaldecoder(self.name)("surrogateescape")
        self.pieces = Pieces()

    def passed(self, data):
        pieces = self.pieces.of(self.decoder.decode(data))
        # A byte that is no UTF-8 would be a control of 8 bits to some terminals.
        text = "".join(shown_of(it) for it in pieces if is_harmless(it))
        return text.encode(self.name)
