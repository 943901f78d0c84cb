"""Checks sets."""

from . import tree
from .context import low_bit, number
from .types import BOOLEAN, CHAR, INTEGER, MOST_ELEMENT, WORD, Set, is_ordinal, with_article
from .values import Values

ROUTINES = {"+": "UNITE", "-": "REMOVE", "*": "MEET"}
# Words of a set in brackets with elements that are not known, where no other set tells: 0 to 255.
WORDS = 16


class Sets(Values):
    def set_of(self, node):
        parts, host = [], None
        for low, high in node.parts:
            pair = []
            for it in (low, high):
                value = self.ordered(it) if it else None
                if value and host and value.type.host is not host:
                    self.refuse_type(it, value.type, with_article(host))
                host = value.type.host if value else host
                if isinstance(value, tree.Constant) and not 0 <= value.value <= MOST_ELEMENT:
                    self.refuse(f"the elements of a set are from 0 to {MOST_ELEMENT}, and "
                                f"{value.value} is not", it.place)
                pair.append(value)
            parts.append(tuple(pair))
        return tree.SetValue(Set(host, words_of(parts, host)), parts)

    def need_set(self, node, value, wanted):
        if value.type.base and wanted.base and value.type.base.host is not wanted.base.host:
            self.refuse_type(node, value.type, with_article(wanted))

    def set_operation(self, node, left, right):
        self.need_set(node.right, right, left.type)
        kind = Set(left.type.base or right.type.base, shared_words(left, right))
        return tree.SetOperation(kind, self.library[ROUTINES[node.operator]], left, right)

    def compared_sets(self, node, left, right):
        self.need_set(node.right, right, left.type)
        if node.operator in ("<", ">"):
            self.refuse(f"sets are compared by =, <>, <= and >=, and not by {node.operator}",
                        node.place)
        words = shared_words(left, right)
        if node.operator == ">=":
            left, right = right, left
        name = "SAMEWORDS" if node.operator in ("=", "<>") else "WITHIN"
        holds = self.call_library(name, tree.SetAddress(left, words),
                                  tree.SetAddress(right, words), number(words))
        return tree.Operation(BOOLEAN, ("LNOT",), [holds]) if node.operator == "<>" else holds

    def membership(self, node, left, right):
        if not isinstance(right.type, Set):
            self.refuse_type(node.right, right.type, "a set")
        if not is_ordinal(left.type):
            self.refuse_type(node.left, left.type, "an element")
        base = right.type.base
        if base and base.host is not left.type.host:
            self.refuse_type(node.left, left.type, with_article(base.host))
        left = low_bit(left)
        if isinstance(right, tree.SetValue):
            return tree.Among(BOOLEAN, left, right.parts)
        words = right.type.size
        return self.call_library("HAS", tree.SetAddress(right, words), left,
                                 number(WORD * words - 1))


def words_of(parts, host):
    """The words of a set in brackets."""
    values = [value for part in parts for value in part if value]
    known = [value.value for value in values if isinstance(value, tree.Constant)]
    words = max(known, default=0) // WORD + 1
    if len(known) == len(values):
        return words
    return max(words, WORDS if host in (INTEGER, CHAR) else host.high // WORD + 1)


def shared_words(left, right):
    """The words in which two sets meet. Where one of them comes of a variable, all elements have to
    lie in its words, but for those that are known."""
    if is_declared(left) or is_declared(right):
        return max(known_words(left), known_words(right))
    return max(left.type.size, right.type.size)


def is_declared(value):
    """Whether a set comes of a variable, and is not of brackets alone."""
    if isinstance(value, tree.SetOperation):
        return is_declared(value.left) or is_declared(value.right)
    return not isinstance(value, tree.SetValue)


def known_words(value):
    """The words of a set, as far as its elements are known."""
    if isinstance(value, tree.SetOperation):
        return max(known_words(value.left), known_words(value.right))
    if not isinstance(value, tree.SetValue):
        return value.type.size
    known = [part for part in value.parts if all(
        it is None or isinstance(it, tree.Constant) for it in part)]
    return words_of(known, value.type.base)
