"""Records that are written by hand for tests/renew, and what `renew` has to make of them: an entry
is spelled here apart from the scripts, as docs/FORMATS.md describes it."""

import os

from ..echo_code import ECHO
from ..files import file_with, number
from .cut import renew_cut

OLD, NEW = 7, 8
# What `renew` makes of the characters HI for node N of three in session 8, by hand: the header, a
# start, the promise of 1.1, and the vote at place 0 for the keys 1 and 2 of the first start of
# node 1.
HI = "504C 02 {0:02x} 03 00000008  01  02 00000001 01  03 00000000 00000001 01"
HI += "01 01 00000001 00000001 02 4849"


def ballot(text):
    round_, node = text.split(".")
    return number(int(round_), 4) + number(int(node), 1)


def keys(node, start, first, characters):
    """A batch of keys as a value."""
    head = number(1, 1) + number(node, 1) + number(start, 4) + number(first, 4)
    return head + number(len(characters), 1) + characters


NOOP = bytes(1)


def vote(place, under, value):
    return number(3, 1) + number(place, 4) + ballot(under) + value


def log(node, *votes, size=3, session=OLD, version=2):
    """A log with one start and these votes."""
    head = b"PL" + bytes([version, node, size]) + number(session, 4)
    return head + number(1, 1) + b"".join(votes)


def records_in(folder, *logs):
    """Writes logs as the records 1 and so on of a folder. Returns their paths."""
    names = [f"record{it}" for it in range(1, len(logs) + 1)]
    return [file_with(folder, name, data) for name, data in zip(names, logs)]


def renew(*words):
    return renew_cut(0, *words)


def by_number(*words):
    """Renews the session 7 as 8 without being asked."""
    return renew("--sessions", OLD, NEW, "--yes", *words)


def by_file(*words):
    return renew("--file", ECHO, "--yes", *words)


def files_of(folder):
    """The files of a folder and their bytes, by their names; but for those of locks, which are
    empty, and stay where they were made."""
    found = {}
    for name in sorted(os.listdir(folder)):
        if name.endswith(".lock"):
            continue
        with open(os.path.join(folder, name), "rb") as file:
            found[name] = file.read()
    return found
