#!/usr/bin/env python3
"""Shows the cursor codes of an old terminal on one of today.

    screens.py vt52|adm3a|soroc|apple [--lf]

It takes from standard input what a program wrote for that terminal, and writes the same for one of
today, as its bytes come. A 13 begins a new line, as `console` has it; with --lf it leads to the
line's begin. A code that the terminal has not is handed on.
"""

import os
import signal
import sys

ESCAPE = 27
HOME, CLEAR = b"\x1b[H", b"\x1b[H\x1b[2J"
TO_END, TO_LINE_END = b"\x1b[J", b"\x1b[K"
UP, DOWN, RIGHT, LEFT, BACK_LINE = b"\x1b[A", b"\x1b[B", b"\x1b[C", b"\x1b[D", b"\x1bM"
GOTO = "goto"  # then come the line and the column, each with 32 added
GOTO_X = "goto x"  # the column comes first
# What each code means, without and behind an escape; by the terminals' manuals.
CODES = {
    "vt52": ({}, {"A": UP, "B": DOWN, "C": RIGHT, "D": LEFT, "H": HOME, "I": BACK_LINE,
                  "J": TO_END, "K": TO_LINE_END, "Y": GOTO}),
    "adm3a": ({11: UP, 12: RIGHT, 26: CLEAR, 30: HOME}, {"=": GOTO}),
    "soroc": ({11: UP, 12: RIGHT, 30: HOME},
              {"=": GOTO, "*": CLEAR, "Y": TO_END, "y": TO_END, "T": TO_LINE_END,
               "t": TO_LINE_END}),
    "apple": ({11: TO_END, 12: CLEAR, 25: HOME, 28: RIGHT, 29: TO_LINE_END, 30: GOTO_X,
               31: BACK_LINE}, {}),
}


def add_screen(add):
    """The option --screen of a script."""
    add("--screen", metavar="TERMINAL", choices=sorted(CODES),
        help=f"shows the cursor codes of an old terminal: {', '.join(CODES)}")


class Screen:
    """What has come of a code that is not whole waits."""

    def __init__(self, name, is_lf=False):
        self.plain, escaped = CODES[name]
        self.escaped = {ord(key): code for key, code in escaped.items()}
        self.end_of_line = b"\r" if is_lf else b"\n"
        self.begun = b""  # an escape, or a GOTO and its first number
        self.order = None  # of a GOTO that waits for its numbers

    def translated(self, data):
        """The codes of today for bytes of the program."""
        return b"".join(map(self.next, data))

    def next(self, byte):
        if self.order:
            return self.number(byte)
        if self.begun:
            self.begun = b""
            return self.meant(self.escaped.get(byte), bytes([ESCAPE, byte]))
        if byte == ESCAPE and self.escaped:
            self.begun = b"\x1b"
            return b""
        return self.meant(self.plain.get(byte), self.end_of_line if byte == 13 else bytes([byte]))

    def meant(self, code, other):
        if code in (GOTO, GOTO_X):
            self.order = code
            return b""
        return other if code is None else code

    def number(self, byte):
        """A number of a GOTO."""
        if not self.begun:
            self.begun = bytes([byte])
            return b""
        line, column = self.begun[0], byte
        if self.order == GOTO_X:
            line, column = column, line
        self.begun, self.order = b"", None
        return b"\x1b[%d;%dH" % (max(1, line - 31), max(1, column - 31))


def main(words):
    if not words or words[0] not in CODES or words[1:] not in ([], ["--lf"]):
        print(f"usage: screens.py {'|'.join(CODES)} [--lf]", file=sys.stderr)
        return 2
    signal.signal(signal.SIGINT, signal.SIG_IGN)  # Ctrl-C is for the program
    screen = Screen(words[0], len(words) > 1)
    while True:
        data = os.read(0, 65536)
        if not data:
            return 0
        shown = screen.translated(data)
        while shown:
            shown = shown[os.write(1, shown):]


if __name__ == "__main__":
    sys.exit(main(sys.argv[1:]))
