"""Which must-fail edits bend a definition: those whose old text stands in it, or which bend one
that it stands on and name it in their first line."""
import os
import re

from . import tree
from .tree import text_of

# The file of an edit, or a text that it takes out of that file.
PART = re.compile(r"^(file|old): ?(.*)$", re.M)
# A definition that an edit's first line names as bent: "Here `A` ..", "Here the definition `A`, and
# so `B`, ..".
NAMED = re.compile(r"(?:Here|definition|and so) `(\w+)`")


def taken_by(path):
    """What an edit takes out of the files of `specs`: pairs of a file's name and a text."""
    file = None
    for kind, text in PART.findall(text_of(path)):
        if kind == "file":
            file = text.strip()
        elif file.startswith("specs/") and text.strip():
            yield file, text.strip()


def named_by(path):
    """The definitions that an edit of `specs` names as bent."""
    head = text_of(path).partition("\nfile: ")[0]
    return set(NAMED.findall(head)) if any(taken_by(path)) else set()


def benders(crate, definitions):
    """For the name of each definition of a crate, the names of the edits that bend it."""
    found = {}
    for path in tree.files_below(f"crates/{crate}/must-fail", ".edit"):
        taken, named = list(taken_by(path)), named_by(path)
        for it in definitions:
            is_taken = any(
                it.path == f"crates/{crate}/{at}" and text in it.body for at, text in taken
            )
            if is_taken or it.name in named:
                found.setdefault(it.name, set()).add(os.path.basename(path)[: -len(".edit")])
    return found
