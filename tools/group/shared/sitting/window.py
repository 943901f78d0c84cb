"""A session on a person's terminal: the console as a terminal of 80 by 24 shows it, and what there
is to say below it, or over its last lines where there is no room. The console's own bytes never
reach the person's terminal, which so answers none of them."""

import os
import textwrap
import time

from ..plain import plain
from ..terminal import BOLD, INVERSE, UNDER

# How long a sentence is shown over the last lines, and how long if others wait for their turn, in
# seconds; and how many of the last ones get a turn.
FRESH, BRIEF, TURNS = 6.0, 4.0, 3
# How many lines it takes there at most.
LINES = 4
STYLES = ((BOLD, "1"), (UNDER, "4"), (INVERSE, "7"))


def style_of(look):
    """The sequence for how a character looks."""
    bits = ord(look) - 32
    numbers = "".join(f";{number}" for bit, number in STYLES if bits & bit)
    return f"\x1b[0{numbers}m"


def wrapped(text, width):
    """The lines of a sentence. A path in it is parted only if it is too long for a line."""
    return textwrap.wrap(text, max(1, width - 1), break_on_hyphens=False)


def rendered(text, looks, width):
    """A line of the screen for a terminal of this width."""
    text = text[:width]
    looks = looks[: len(text)]
    size = max(len(text.rstrip()), len(looks.rstrip()))
    out, look = [], " "
    for sign, its in zip(text[:size], looks):
        if its != look:
            out.append(style_of(its))
            look = its
        out.append(sign)
    if look != " ":
        out.append(style_of(" "))
    return "".join(out) + ("\x1b[K" if size < width else "")


class Window:
    def __init__(self, terminal, is_utf8):
        self.terminal, self.name = terminal, "utf-8" if is_utf8 else "ascii"
        self.size, self.rows, self.left = None, [], terminal.left
        self.sentences, self.status = [], ""
        # The sentence whose turn it is over the last lines, by its number, and since when.
        self.turn, self.since = -1, -FRESH
        self.at = ""

    def write(self, text):
        rest = text.encode(self.name, "replace")
        while rest:
            rest = rest[os.write(1, rest) :]

    def say(self, text):
        self.sentences.append(text)

    def has_room(self):
        """Whether there are lines below the console."""
        return self.size is not None and self.size[1] > self.terminal.rows

    def below(self, count, width):
        """What is to be said in so many lines: first the status, and below it the last
        sentences."""
        lines = [line for it in self.sentences[-count:] for line in wrapped(it, width)]
        lines = lines[-(count - 1) :] if count > 1 else []
        return [(self.status, "\x1b[0;7m"), *((it, "\x1b[0m") for it in lines)]

    def fresh(self):
        """The sentence that is to be read now, or nothing: one has its turn after the other."""
        now, last = time.monotonic(), len(self.sentences) - 1
        if self.turn < last and now - self.since >= BRIEF:
            self.turn, self.since = max(self.turn + 1, last + 1 - TURNS), now
        is_over = self.turn < 0 or self.turn == last and now - self.since >= FRESH
        return "" if is_over else self.sentences[self.turn]

    def over(self, width):
        """What is to be said over the last lines: a sentence, and what waits."""
        lines = wrapped(self.fresh(), width)[:LINES]
        return [(it, "\x1b[0;7m") for it in (*lines, self.status) if it]

    def wanted(self, height, width):
        """The lines that are to be seen, and the row of the first one of the console."""
        it, rows = self.terminal, self.terminal.rows
        lines = [rendered(*line, width) for line in it.lines]
        if height > rows:
            said = self.below(height - rows, width)
            first = 0
        else:
            said = self.over(width)[: max(1, height - 1)]
            # The line with the cursor is to be seen.
            room = height - len(said)
            first = min(max(0, it.y - room + 1), rows - room)
            lines = lines[first : first + room]
        for text, style in ((plain(text), style) for text, style in said):
            lines.append(f"{style}{text[: width - 1]}\x1b[0m\x1b[K" if text else "\x1b[K")
        return lines + ["\x1b[K"] * (height - len(lines)), first

    def draw(self):
        """Draws what has changed. Lines that have left the console go above the window, so that the
        person's terminal keeps them."""
        size = os.get_terminal_size(1)
        # A terminal that does not say its size has the usual one.
        width, height = max(2, size.columns or 80), max(2, size.lines or 24)
        out, it = [], self.terminal
        if self.size is None:
            out.append("\n" * height)
        if self.size != (width, height):
            self.size, self.rows = (width, height), []
        gone = it.history[-(it.left - self.left) :] if it.left > self.left else []
        self.left = it.left
        if gone and height > it.rows:
            self.rows = []
            for line in gone:
                out.append(f"\x1b[H{rendered(*line, width)}\x1b[{height};1H\n")
        lines, first = self.wanted(height, width)
        for row, line in enumerate(lines):
            if row >= len(self.rows) or self.rows[row] != line:
                out.append(f"\x1b[{row + 1};1H{line}")
        self.rows = lines
        if out or self.cursor(first) != self.at:
            self.at = self.cursor(first)
            self.write("\x1b[?25l" + "".join(out) + self.at)

    def cursor(self, first):
        it = self.terminal
        shown = "" if it.is_hidden else "\x1b[?25h"
        return f"\x1b[{it.y - first + 1};{it.x + 1}H{shown}"

    def end(self):
        """Leaves the window as it is, and goes below it."""
        if self.size:
            self.write(f"\x1b[0m\x1b[?25h\x1b[{self.size[1]};1H\x1b[K")
