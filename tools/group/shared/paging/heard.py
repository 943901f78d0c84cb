"""What those who hear a page are read of the console: each line once, when it is done. The words
by which a program waits in a line are read when nothing more comes, and of that line later only
what has come behind them."""

import collections

from ..terminal import Terminal

# How many lines are kept, how many of them are read at once, and how long nothing has to come until
# the words are read with which the console waits, in seconds.
KEPT, MOST, STILL = 200, 8, 0.5


def rest_of(text, heard):
    """What is to be read of a line of which `heard` was read before: not a part of a word."""
    is_same = text.startswith(heard)
    is_apart = not (heard[-1:].isalnum() and text[len(heard) :][:1].isalnum())
    return text[len(heard) :].strip() if is_same and is_apart else text


class HeardTerminal(Terminal):
    """A terminal that knows what was read of each line of its screen, wherever that line moves."""

    def __init__(self, *words, **more):
        # The lines that have left the screen and were not read, and how many they were.
        self.unread, self.missed = collections.deque(maxlen=KEPT), 0
        # By how many lines the screen has scrolled.
        self.scrolled = 0
        super().__init__(*words, **more)

    def reset(self):
        super().reset()
        self.heard = [""] * self.rows

    def scroll(self, top, bottom, n):
        for _ in range(min(abs(n), bottom - top + 1)):
            if n > 0:
                self.scrolled += 1
                self.note_left(rest_of(self.lines[top][0].strip(), self.heard.pop(top)))
                self.heard.insert(bottom, "")
            else:
                self.heard.pop(bottom)
                self.heard.insert(top, "")
            super().scroll(top, bottom, 1 if n > 0 else -1)

    def note_left(self, text):
        if text:
            self.missed += len(self.unread) == KEPT
            self.unread.append(text)

    def take(self, is_still=False):
        """How many new lines are passed over, and the texts of the others. The line of the cursor
        is not done: it is read if the console `is_still`, and once."""
        missed, texts = self.missed, list(self.unread)
        self.missed = 0
        self.unread.clear()
        for y, (line, _) in enumerate(self.lines):
            text, heard = line.strip(), self.heard[y]
            is_waiting = y == self.y and (heard or not is_still)
            if text == heard or text and is_waiting:
                continue
            if text and y == self.y and not any(map(str.isalnum, text)):
                continue  # A prompt without words.
            self.heard[y] = text
            texts += filter(None, [rest_of(text, heard)])
        return missed, texts


class Readings:
    """What was read, each text with its number. A browser that comes again says which it has heard
    last."""

    def __init__(self):
        self.kept, self.count = collections.deque(maxlen=KEPT), 0

    def add(self, missed, texts):
        self.count += missed
        for it in texts:
            self.count += 1
            self.kept.append((self.count, it))

    def since(self, number):
        """What is read to a browser that has heard this one last, or None if it is new here. Of
        many lines these are the last ones."""
        new = [it for it in self.kept if it[0] > (number or 0)][-MOST:]
        passed = self.count - len(new) - (number or 0)
        if number is None or not passed:
            return new
        return [(self.count - len(new), f"Lines on the page before these: {passed}."), *new]
