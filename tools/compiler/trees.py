"""The library's procedures and declarations with their syntax trees, which an earlier run has kept:
reading them takes a fifth of the time of parsing. They count only if the compiler and its library
have the sum of what they were made of.

A node is kept as a tuple of its class's number, its line and its other fields, in the form of
`marshal`: `pickle` would take a tenth of the time of a small program to be loaded. Of places in the
library nothing but the line and the options is ever looked at, so that no column is kept."""

import marshal
import os
import zlib

from pcode.faults import Fault
from pcode.fields import Fields
from pcode.files import write_whole
from pcode.kept import kept_path, once

from .faults import Place
from .parsing import syntax

HERE = os.path.dirname(os.path.abspath(__file__))
# What a tree is made of: the folders and files of which the sum is taken.
MADE_OF = ("library", "parsing", "faults.py", "parts.py", "runtime.py", "trees.py",
           os.path.join(os.pardir, "pcode", "faults.py"),
           os.path.join(os.pardir, "pcode", "fields.py"))
PATH = os.path.join(HERE, "library.trees")
CLASSES = [it for _, it in sorted(vars(syntax).items())
           if isinstance(it, type) and issubclass(it, syntax.Node)]
NUMBERS = {it: number for number, it in enumerate(CLASSES)}
PAIR = -1  # in place of a class's number: the tuple is one of the tree itself


def sources():
    for name in MADE_OF:
        path = os.path.join(HERE, name)
        if os.path.isdir(path):
            yield from (os.path.join(path, it) for it in sorted(os.listdir(path))
                        if it.endswith((".py", ".pas")))
        else:
            yield path


@once
def own_sum():
    """The sum of the place and the text of all files that a tree is made of."""
    total = zlib.crc32(HERE.encode("utf-8", "surrogateescape"))
    for path in sources():
        with open(path, "rb") as file:
            data = file.read()
        total = zlib.crc32(b"%d %s" % (len(data), os.path.basename(path).encode()), total)
        total = zlib.crc32(data, total)
    return total


@once
def kept():
    """What an earlier run kept: the parts, and the trees by file and line. None if there is nothing
    of this compiler."""
    path = kept_path(PATH)
    if path is None:
        return None
    try:
        with open(path, "rb") as file:
            total, parts, trees = marshal.loads(file.read())
    except (OSError, ValueError, EOFError, TypeError):
        return None
    return (parts, trees) if total == own_sum() else None


def kept_tree(part):
    """The tree of a part, or None."""
    data = kept()[1].get((part.file, part.line)) if kept() else None
    return Reader(part.file).tree(marshal.loads(data)) if data else None


def keep(parts, trees):
    """Keeps all of it for the next run. `trees` is made only if it can be kept; if it cannot, that
    is no fault."""
    path = kept_path(PATH)
    if path is None:
        return
    folder = os.path.dirname(path)
    try:
        os.makedirs(folder, exist_ok=True)
        if os.access(folder, os.W_OK):
            found = {(part.file, part.line): marshal.dumps(simple(tree)) for part, tree in trees}
            write_whole(path, marshal.dumps((own_sum(), parts, found)))
    except (OSError, Fault):
        pass


def simple(value):
    """A node, or what is in a field of one, in the form that `marshal` takes."""
    if isinstance(value, Fields):
        place, *others = Fields.fields(value)  # a RecordType has `fields` of its own
        flags = 2 * place.is_checked + place.is_io_checked
        return (NUMBERS[type(value)], 4 * place.line + flags, *map(simple, others))
    if isinstance(value, tuple):
        return (PAIR, *map(simple, value))
    return list(map(simple, value)) if isinstance(value, list) else value


class Reader:
    """Makes the nodes of a file again."""

    def __init__(self, file):
        self.file, self.places = file, {}

    def tree(self, value):
        kind = type(value)
        if kind is tuple:
            number, place, *others = value
            if number == PAIR:
                return tuple(map(self.tree, value[1:]))
            return CLASSES[number](self.place(place), *map(self.tree, others))
        return list(map(self.tree, value)) if kind is list else value

    def place(self, number):
        """The place of a line, of which all of its nodes have the same one."""
        if number not in self.places:
            line, flags = divmod(number, 4)
            self.places[number] = Place(self.file, line, 1, flags > 1, flags % 2 == 1)
        return self.places[number]
