"""The end of a console's file as a terminal shows it, also of a program that moves the cursor."""

import os

from .screens import Screen
from .synced import trusted_size
from .terminal import Terminal

# How many bytes before the end of a file it begins with, and how many it takes at once.
BEGIN, PIECE = 1 << 16, 1 << 18


def shown_as(character):
    return character if " " <= character <= "~" else "."


class View:
    """A console that is followed as it grows. Where it is another file, or was cut, it begins
    anew. With the name of a screen it has the codes of that old terminal."""

    def __init__(self, name=None):
        self.name, self.screen = name, None
        self.terminal, self.of, self.at = None, None, 0

    def look(self, path):
        """Reads what has come. OSError where that cannot be done."""
        with open(path, "rb") as file:
            size, inode = trusted_size(path), os.fstat(file.fileno()).st_ino
            if self.of != (path, inode) or size < self.at:
                self.of, self.at = (path, inode), max(0, size - BEGIN)
                self.terminal = Terminal(is_pair=True)
                # The terminal knows itself what begins a line.
                self.screen = Screen(self.name, is_lf=True) if self.name else None
            file.seek(self.at)
            for data in iter(lambda: file.read(min(PIECE, size - self.at)), b""):
                self.at += len(data)
                data = self.screen.translated(data) if self.screen else data
                self.terminal.write(data.decode("latin-1"))

    def lines(self, room):
        """At most so many lines: the last ones, or those from where the cursor is."""
        it = self.terminal
        lines = [text.rstrip() for text, _ in it.history[-room:] + it.lines]
        above = min(room, len(it.history))
        while lines and not lines[-1] and len(lines) > above:
            lines.pop()
        begin = min(max(0, len(lines) - room), above + it.y)
        return ["".join(map(shown_as, line)) for line in lines[begin : begin + room]]
