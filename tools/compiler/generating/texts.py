"""Texts that are known: one that is written or stored again stands in a procedure of its own, and
if those that are written are to be packed three characters stand in a word."""

from ..checking import tree
from ..checking.symbols import Routine, Variable
from ..checking.types import String

PROCEDURE = 16  # bytes that a procedure adds to a segment
CALL = 2
ADDRESS, STORE = 1, 2  # bytes of a parameter's load, and of what stores words
MOST_ROUTINES = 200  # above it no text gets a procedure
# What a symbol of 5 bits is: nothing, 26 letters, and these. SHIFT makes the next letter one of the
# other case, and twice all that follow; OTHER leads to the characters from 33 to 63.
BLANK, POINT, END, SHIFT, OTHER = 27, 28, 29, 30, 31
FEWEST = 3  # letters of the other case for which it is changed


def cost(words):
    """The bytes of the instructions that push words."""
    return sum(1 if word <= 127 else 3 for word in words)


def is_other_case(character, is_small):
    return character.isalpha() and character.islower() != is_small


def symbols_of(text, line_end):
    """The symbols of a text, or None if it has a character that has none."""
    out, is_small = [], False
    for at, character in enumerate(text):
        if is_other_case(character, is_small):
            letters = [it for it in text[at:] if it.isalpha()][:FEWEST]
            is_changed = all(is_other_case(it, is_small) for it in letters)
            out += [SHIFT, SHIFT] if is_changed and len(letters) == FEWEST else [SHIFT]
            is_small ^= len(out) > 1 and out[-2:] == [SHIFT, SHIFT]
        if "A" <= character.upper() <= "Z":
            out.append(ord(character.upper()) - 64)
        elif character in " ." or ord(character) == line_end:
            out.append(BLANK if character == " " else POINT if character == "." else END)
        elif 33 <= ord(character) <= 63:
            out += [OTHER, ord(character) - 32]
        else:
            return None
    return out


def packed(text, line_end):
    """The words of a packed text, the first symbol in the lowest bits. None if it has none."""
    symbols = symbols_of(text, line_end)
    if symbols is None:
        return None
    symbols += [0] * (-len(symbols) % 3)
    return [a + 32 * b + 1024 * c for a, b, c in zip(*[iter(symbols)] * 3)]


def with_length(text):
    """The characters of a string: its length is the first."""
    return chr(len(text)) + text


def words_of(text):
    """The words of characters."""
    data = text.encode("latin-1")
    data += bytes(len(data) % 2)
    return [int.from_bytes(data[k:k + 2], "little") for k in range(0, len(data), 2)]


def stored_texts(nodes):
    """How often each text is stored by nodes of a checked tree: in a variable, or where a string is
    pushed."""
    counts = {}
    for node in nodes:
        if isinstance(node, tree.StoreText):
            texts = [node.text]
        elif isinstance(node, tree.Concatenation):
            texts = known_strings(node.parts)
        elif isinstance(node, tree.StringAddress):
            texts = known_strings([node.value])
        elif isinstance(node, tree.Copied):
            texts = known_strings([node.text])
        else:
            continue
        for text in texts:
            counts[text] = counts.get(text, 0) + 1
    return counts


def known_strings(values):
    """The texts among values that are strings, each with its length."""
    return [with_length(it.text) for it in values if isinstance(it, tree.TextValue)]


class Texts:
    """The procedures of texts that are written, or stored, more than once. `written` and `stored`
    say how often each is."""

    def __init__(self, written, stored):
        self.written, self.stored = written, stored
        self.writers, self.storers = {}, {}

    def writer(self, node, size, count):
        """The procedure that writes a text of so many bytes, if that makes the program smaller.
        The program has so many procedures now."""
        text = node.text
        if text not in self.writers:
            saved = (self.written.get(text, 0) - 1) * (size - CALL) - PROCEDURE
            is_new = saved > 0 and count < MOST_ROUTINES
            self.writers[text] = self.made(node) if is_new else None
        return self.writers[text]

    def made(self, node):
        body = tree.Block([tree.WriteText(node.place, node.text)])
        return Routine("TEXT", 1, None, node.place, True, body=body)

    def storer(self, text, words, place, count):
        """The procedure that stores the words of a text at an address, if that makes the program
        smaller. A text of one word has none, since it takes a step or two where it stands."""
        if text not in self.storers:
            size = cost(words) + STORE
            saved = (self.stored.get(text, 0) - 1) * (size - CALL) - CALL - ADDRESS - PROCEDURE
            is_new = len(words) > 1 and saved > 0 and count < MOST_ROUTINES
            self.storers[text] = self.storing(text, place) if is_new else None
        return self.storers[text]

    def storing(self, text, place):
        routine = Routine("TEXT", 1, None, place, True, words=1, parameter_words=1)
        where = Variable(String(len(text)), routine, 1, True)
        location = tree.VariableAt(where.type, where)
        routine.body = tree.Block([tree.StoreText(place, location, text)])
        return routine
