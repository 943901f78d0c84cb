"""A terminal of 80 columns and 24 lines as text: what is written to it changes its lines. It knows
the codes that programs of tools/compile write (GOTOXY, PAGE, BS, CR, LF), and what is common in a
VT100. It never answers: each viewer would type an answer, and again whenever the output is shown
anew."""

import re
import unicodedata

# A text without controls, a control sequence, the begin of a string that is passed over, an escape,
# a control.
PIECE = re.compile(
    "(?P<text>[^\x00-\x1f\x7f-\x9f]+)"
    "|\x1b\\[(?P<private>[<-?]?)(?P<numbers>[0-9:;]*)(?P<between>[ -/]*)(?P<sign>[@-~])"
    "|\x1b(?P<string>[]PX^_])"
    "|\x1b(?P<middle>[ -/]*)(?P<escape>[0-OQ-WYZ`-~\\\\])"
    "|(?P<control>[\x00-\x1a\x1c-\x1f\x7f-\x9f])",
)
# What may become a sequence, or the end of a string, with what comes next.
BEGUN = re.compile("\x1b(?:\\[[<-?]?[0-9:;]*[ -/]*|[ -/]*)\\Z")
END_OF_STRING = re.compile("\x07|\x18|\x1a|\x9c|\x1b\\\\|\x1b(?!\\Z)")
# How long a sequence, and a string that is passed over, may be.
LONGEST, LONGEST_STRING = 300, 4096
# How many lines are kept that have left the screen.
HISTORY = 2000
BOLD, UNDER, INVERSE = 1, 2, 4
# For each number of a style: what it takes away, and what it adds.
STYLES = {
    0: (7, 0), 1: (0, BOLD), 4: (0, UNDER), 7: (0, INVERSE),
    22: (BOLD, 0), 24: (UNDER, 0), 27: (INVERSE, 0),
}
# How many numbers follow a 38 or 48, which are for colours, by the one behind it.
COLOURS = {5: 2, 2: 4}


class Pieces:
    """Takes texts apart into pieces, each a match of PIECE. A sequence that is cut waits for its
    rest, and strings are passed over."""

    def __init__(self):
        self.rest, self.passed = "", None

    def of(self, text):
        text, at = self.rest + text, 0
        self.rest = ""
        while at < len(text):
            if self.passed is not None:
                at = self.behind_string(text, at)
                continue
            found = PIECE.match(text, at)
            if found is None:
                if len(text) - at < LONGEST and BEGUN.match(text, at):
                    self.rest = text[at:]
                    return
                at += 1  # It is no sequence: what follows the escape stands for itself.
                continue
            at = found.end()
            if found.lastgroup == "string":
                self.passed = 0
            else:
                yield found

    def behind_string(self, text, at):
        """Where the string that is passed over ends: by its end, or since it is too long."""
        found = END_OF_STRING.search(text, at)
        if found is None:
            self.passed += len(text) - at
            if text.endswith("\x1b"):
                self.rest = "\x1b"
            if self.passed > LONGEST_STRING:
                self.passed = None
            return len(text)
        self.passed = None
        return found.start() if found[0] == "\x1b" else found.end()


def as_cells(text):
    """A text with a character for each column: one that is wider, or has no width, is shown as a
    question mark."""
    if text.isascii():
        return text
    return "".join(it if is_one_column(it) else "?" for it in text)


def is_one_column(sign):
    is_wide = unicodedata.east_asian_width(sign) in "WF"
    return sign.isprintable() and not is_wide and not unicodedata.combining(sign)


def numbers_of(text):
    """The numbers of a sequence. Of parts with colons the first counts, and none is 0."""
    return [int(it.split(":")[0][:9] or 0) for it in text.split(";")]


class Terminal:
    """The screen and where its cursor is. A line is a pair of texts: its characters, and for each
    of them how it looks, the character of 32 and BOLD, UNDER and INVERSE.

    A 13 begins a new line, and so does a 10; a 10 right behind a 13 begins no second one where
    `is_pair` is said. With `is_lf` a 13 only leads back to the line's begin."""

    def __init__(self, columns=80, rows=24, is_lf=False, is_pair=False):
        self.columns, self.rows, self.is_lf, self.is_pair = columns, rows, is_lf, is_pair
        self.blank = " " * columns, " " * columns
        # The lines that have left the screen, the last ones, and how many they have been.
        self.history, self.left = [], 0
        self.pieces = Pieces()
        self.reset()

    def reset(self):
        self.lines, self.style, self.saved = [self.blank] * self.rows, " ", (0, 0)
        self.x, self.y, self.top, self.bottom = 0, 0, 0, self.rows - 1
        # Whether the last column was written, so that the next character begins a line; whether the
        # last control was a 13; and whether the cursor is not to be seen.
        self.pending = self.was_return = self.is_hidden = False

    def write(self, text):
        for it in self.pieces.of(text):
            kind = it.lastgroup
            was_return, self.was_return = self.was_return, False
            if kind == "text":
                self.put(as_cells(it[0]))
            elif kind == "control":
                self.control(it[0], was_return)
            elif kind == "escape" and not it["middle"]:
                self.escape(it["escape"])
            elif kind == "sign" and it["private"] == "?" and it["numbers"] == "25":
                self.is_hidden = {"h": False, "l": True}.get(it["sign"], self.is_hidden)
            elif kind == "sign" and not it["private"] and not it["between"]:
                self.sequence(it["sign"], numbers_of(it["numbers"]))

    def put(self, text):
        while text:
            if self.pending:
                self.new_line()
            part, text = text[: self.columns - self.x], text[self.columns - self.x :]
            line, looks = self.lines[self.y]
            x, end = self.x, self.x + len(part)
            looks = looks[:x] + self.style * len(part) + looks[end:]
            self.lines[self.y] = line[:x] + part + line[end:], looks
            self.pending = end == self.columns
            self.x = min(end, self.columns - 1)

    def control(self, sign, was_return):
        if sign == "\b":
            self.go(self.y, self.x - 1)
        elif sign == "\t":
            self.go(self.y, (self.x | 7) + 1)
        elif sign == "\r":
            self.was_return = True
            self.go(self.y, 0) if self.is_lf else self.new_line()
        elif sign in "\n\v":
            if not (sign == "\n" and was_return and self.is_pair):
                self.new_line()
        elif sign == "\f":
            self.erase(0, 0, self.rows, 0)
            self.go(0, 0)

    def escape(self, sign):
        if sign == "7":
            self.saved = self.y, self.x
        elif sign == "8":
            self.go(*self.saved)
        elif sign == "D":
            self.down()
        elif sign == "E":
            self.new_line()
        elif sign == "M" and self.y == self.top:
            self.scroll(self.top, self.bottom, -1)
        elif sign == "M":
            self.go(self.y - 1, self.x)
        elif sign == "c":
            self.reset()

    def sequence(self, sign, numbers):
        n = min(max(numbers[0], 1), 999)
        second = numbers[1] if len(numbers) > 1 else 0
        if sign in "ABCDEFGHd`f":
            self.move(sign, n, second)
        elif sign in "JKX@P":
            self.change(sign, n, numbers[0])
        elif sign in "LM" and self.top <= self.y <= self.bottom:
            self.scroll(self.y, self.bottom, n if sign == "M" else -n)
            self.go(self.y, 0)
        elif sign in "ST" and len(numbers) == 1:
            self.scroll(self.top, self.bottom, n if sign == "S" else -n)
        elif sign == "r":
            top, bottom = n - 1, (second or self.rows) - 1
            if top < bottom < self.rows:
                self.top, self.bottom = top, bottom
                self.go(0, 0)
        elif sign == "m":
            self.look(numbers)
        elif sign == "s":
            self.saved = self.y, self.x
        elif sign == "u":
            self.go(*self.saved)

    def move(self, sign, n, second):
        """Moves the cursor. Up and down it stays within the margins, if it was there."""
        y, x = self.y, self.x
        if sign in "AF":
            y = max(self.top if y >= self.top else 0, y - n)
        elif sign in "BE":
            y = min(self.bottom if y <= self.bottom else self.rows, y + n)
        elif sign in "CD":
            x += n if sign == "C" else -n
        elif sign in "G`":
            x = n - 1
        else:
            y, x = n - 1, x if sign == "d" else max(second, 1) - 1
        self.go(y, 0 if sign in "EF" else x)

    def change(self, sign, n, which):
        """Erases, or moves characters within the line."""
        y, x, end = self.y, self.x, self.columns
        if sign == "J" and which < 3:
            ends = (y, x, self.rows, 0), (0, 0, y, x + 1), (0, 0, self.rows, 0)
            self.erase(*ends[which])
        elif sign == "K" and which < 3:
            self.erase(*((y, x, y, end), (y, 0, y, x + 1), (y, 0, y, end))[which])
        elif sign == "X":
            self.erase(y, x, y, min(end, x + n))
        elif sign in "@P":
            n = min(n, end - x)
            is_in, blank = sign == "@", " " * n
            self.edit(y, lambda it: it[:x] + (blank + it[x:-n] if is_in else it[x + n :] + blank))

    def look(self, numbers):
        numbers = list(numbers)
        while numbers:
            it = numbers.pop(0)
            if it in (38, 48):
                del numbers[: COLOURS.get(numbers[0] if numbers else None, 1)]
            off, on = STYLES.get(it, (0, 0))
            self.style = chr(32 + (ord(self.style) - 32 & ~off | on))

    def go(self, y, x):
        self.y, self.x = min(max(y, 0), self.rows - 1), min(max(x, 0), self.columns - 1)
        self.pending = False

    def down(self):
        self.pending = False
        if self.y == self.bottom:
            self.scroll(self.top, self.bottom, 1)
        else:
            self.y = min(self.rows - 1, self.y + 1)

    def new_line(self):
        self.x = 0
        self.down()

    def scroll(self, top, bottom, n):
        """Moves the lines from `top` to `bottom` up by so many, or down if it is below 0. What
        leaves the screen at its top is kept in the history."""
        for _ in range(min(abs(n), bottom - top + 1)):
            if n < 0:
                self.lines.pop(bottom)
                self.lines.insert(top, self.blank)
                continue
            gone = self.lines.pop(top)
            self.lines.insert(bottom, self.blank)
            if top == 0 and self.y == bottom:
                self.history.append(gone)
                self.left += 1
                del self.history[:-HISTORY]

    def erase(self, y, x, end_y, end_x):
        for at in range(y, min(end_y, self.rows - 1) + 1):
            begin, end = x if at == y else 0, end_x if at == end_y else self.columns
            if begin < end:
                self.edit(at, lambda it: it[:begin] + " " * (end - begin) + it[end:])
        self.pending = False

    def edit(self, y, change):
        self.lines[y] = tuple(map(change, self.lines[y]))
        self.pending = False
