"""The parts of the library's texts: its procedures, and what stands in front of those of a file.

The compiler loads this only if no earlier run has kept them."""

import re

from .parsing.lexer import fold
from .parsing.texts import read_text
from .runtime import FILES, Part, path_of

# A procedure begins at the first column of a line, as nothing else does with these words, and ends
# with an END; there.
ROUTINE = re.compile(r"^(?:PROCEDURE|FUNCTION) (\w+)", re.M)
END = "\nEND;"
COMMENT, NAME = re.compile(r"\{[^}]*\}"), re.compile(r"[A-Z]\w*")
# What begins a declaration of constants, types or variables.
DECLARED = re.compile(r"^ *((?:[A-Z]\w*,\s*)*[A-Z]\w*) *[:=]", re.M)


def parted(text, file):
    """A file of the library without its procedures, and these by their names."""
    rest, routines, at, line = [], {}, 0, 1
    for found in ROUTINE.finditer(text):
        end = text.index(END, found.start()) + len(END)
        between = text[at:found.start()]
        line += between.count("\n")
        routine = text[found.start():end]
        routines[fold(found[1])] = Part(file, line, routine)
        lines = routine.count("\n")
        rest += [between, "\n" * lines]
        at, line = end, line + lines
    rest.append(text[at:])
    return Part(file, 1, "".join(rest)), routines


def declared_in(rest):
    """The names that are declared in front of a file's procedures."""
    for names in DECLARED.findall(COMMENT.sub("", rest.text)):
        yield from map(fold, NAME.findall(names))


def parts_of_texts():
    rests, places, routines = [], {}, {}
    for number, name in enumerate(FILES):
        path = path_of(name)
        rest, own = parted(read_text(path), path)
        rests.append(rest)
        routines.update((it, (number, part)) for it, part in own.items())
        for it in declared_in(rest):
            places.setdefault(it, []).append(number)
    return rests, places, routines
