"""The trace of a supervised node, which PGROUP_TRACE names: before a start it is put aside, and the
oldest of what was put aside goes where all of it has more bytes than it may."""

import argparse
import os

from ..files import say, text_of_fault
from ..replica.trace import parts_of

# A trace that has less than this share of the limit is not put aside, so that there are few files.
SHARE = 4


def limit_of(text):
    """The word of --trace-limit."""
    if not text.isdigit() or int(text) < 1:
        raise argparse.ArgumentTypeError(f"{text} is no number of bytes")
    if not os.environ.get("PGROUP_TRACE"):
        raise argparse.ArgumentTypeError("PGROUP_TRACE names no trace")
    return int(text)


def size_of(path):
    try:
        return os.path.getsize(path)
    except FileNotFoundError:
        return 0


def put_aside(path, limit):
    """Renames a trace that is large enough to the next of its parts, TRACE.N, and removes the
    oldest ones but the last. Returns the part, or None, and what was removed."""
    parts = parts_of(path)[:-1]
    part = None
    if size_of(path) >= max(1, limit // SHARE):
        part = f"{path}.{1 + int(parts[-1].rpartition('.')[2]) if parts else 1}"
        os.rename(path, part)
        parts.append(part)
    removed, total = [], size_of(path) + sum(map(size_of, parts))
    while total > limit and len(parts) > 1:
        total -= size_of(parts[0])
        os.unlink(parts[0])
        removed.append(parts.pop(0))
    return part, removed


def limit_trace(words):
    """Keeps the trace of a node that is about to start within its limit. What is not possible is
    said, and stops nothing."""
    path = os.environ.get("PGROUP_TRACE")
    if not words.trace_limit or not path:
        return
    try:
        part, removed = put_aside(path, words.trace_limit)
    except OSError as fault:
        say(words, f"cannot put its trace aside: {text_of_fault(fault)}")
        return
    if part:
        say(words, f"its trace {path} is {part} now")
    if removed:
        say(words, f"removed what is oldest of its trace: {' '.join(removed)}")
