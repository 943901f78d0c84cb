"""The one filter for texts that go to a person's terminal. What comes from the network, or from a
file or a process of another user, may have anything in it: signs that move the cursor, change the
title or the clipboard, make the terminal answer, or turn the order of a line round."""

import re
import sys

# The controls of ASCII and of 8 bits; bytes that are no UTF-8, as Python has them; what ends a
# line, and what sets its direction.
UNSAFE = re.compile("[\x00-\x1f\x7f-\x9f\u061c\u200e\u200f\u2028-\u202e\u2066-\u2069\ud800-\udfff]")


def plain(text):
    """A text as a terminal may have it: a question mark stands for each unsafe sign."""
    return UNSAFE.sub("?", text)


class Filtered:
    """A stream of texts whose lines are plain. With Python's own streams replaced by such ones
    nothing that a script prints passes them by."""

    def __init__(self, stream):
        self.stream = stream

    def write(self, text):
        return self.stream.write("\n".join(map(plain, text.split("\n"))))

    def writelines(self, texts):
        for it in texts:
            self.write(it)

    def __getattr__(self, name):
        return getattr(self.stream, name)


def filter_streams():
    for name in ("stdout", "stderr"):
        stream = getattr(sys, name)
        if stream is not None and not isinstance(stream, Filtered):
            setattr(sys, name, Filtered(stream))
