"""Frozen programs, as the scripts of groups know them. What a frozen file has behind its segment is
read by tools/freezer, which makes it.

A frozen program continues another one, and its output follows what that one has written. So the
bytes of a console that --seen counts are those behind `wrote`.

    frozen.py FILE TEXT

prints the end of a program that TEXT tells, if FILE was frozen: by the place in the original. For
`console`."""

import errno
import os
import re
import sys

TOOLS = os.path.join(os.path.dirname(os.path.realpath(__file__)), "..", "..")
sys.path.append(TOOLS)
from freezer.frozen import Places, frozen_in
from freezer.refused import Refused

PLACE = re.compile(r"in procedure (\d+) at (\d+)$")


def frozen_at(path):
    """What the code file at a path says of its freezing, or None if it was never frozen. One that
    was cut off is a file that cannot be read."""
    with open(path, "rb") as file:
        data = file.read()
    try:
        return frozen_in(data)
    except Refused as why:
        raise OSError(errno.EINVAL, str(why), path) from why


def told_of(path):
    """In a list of at most one text, how often the program of a code file was frozen, and after
    what. A file that is not known, or cannot be read, has none."""
    try:
        frozen = frozen_at(path) if path else None
    except OSError:
        return []
    return [f"program {frozen.told()}"] if frozen else []


def wrote_before(path):
    """How many bytes were written before the program of this file continued."""
    frozen = frozen_at(path)
    return frozen.wrote if frozen else 0


def end_in_original(path, end):
    """How the program has ended, with the place of the original program if it was frozen."""
    found = PLACE.search(end)
    try:
        frozen = frozen_at(path) if found else None
    except OSError:
        return end  # It was there when the node was started.
    if not frozen:
        return end
    number, offset = Places(frozen.rows).place(int(found[1]), int(found[2]))
    place = f"in procedure {number} at {offset} of the original program"
    return end[: found.start()] + place


def main():
    path, end = sys.argv[1:]
    told = end_in_original(path, end)
    if told != end:
        print(told)


if __name__ == "__main__":
    main()
