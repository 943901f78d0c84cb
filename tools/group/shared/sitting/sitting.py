"""A person at a session: what is typed goes to the nodes, and a window shows the console and what
there is to say."""

import codecs
import os
import select
import time

from ..screens import Screen
from ..terminal import Terminal
from ..watch import refusals_at
from .session import Session
from .window import Window

# How often the session looks: for some time after a key and while keys wait, and else, in seconds.
SOON, LATE, AWAKE = 0.002, 0.02, 0.5
# How often what waits is told anew, how long keys wait until that is told, and how long it is told
# that they are chosen.
STATUS, WAITS, CHOSEN = 0.05, 0.3, 2.0
# After how long it is told what a person has to know at the begin, in seconds.
UNREAD = 1.0
# How many keys are taken at once, and how many may wait here.
KEYS, MOST = 4096, 1 << 16


class Sitting:
    def __init__(self, seats, at, is_lf, is_utf8, screen=None):
        self.session = Session(seats, at)
        self.screen = Screen(screen, is_lf) if screen else None
        self.terminal = Terminal(is_lf=is_lf)
        self.window = Window(self.terminal, is_utf8)
        self.decoder = codecs.getincrementaldecoder("utf-8")("replace")
        self.typed, self.looked = -AWAKE, -STATUS
        self.count, self.since, self.chosen = 0, None, -CHOSEN
        self.begun, self.is_warned = time.monotonic(), False

    def tell(self, now):
        """Brings the line of the state up to date."""
        session = self.session
        if not self.is_warned and now - self.begun > UNREAD:
            self.is_warned = True
            self.warn()
        self.looked, self.count = now, session.waiting()
        text = ""
        if self.count:
            self.since = self.since or now
            if now - self.since > WAITS:
                what = "a key waits" if self.count == 1 else f"{self.count} keys wait"
                why = session.why_waiting()
                text = f"{what}: {why}" if why else what
        else:
            if self.since and now - self.since > WAITS:
                self.chosen = now
            self.since = None
            text = "chosen" if now - self.chosen < CHOSEN else ""
        if text or self.window.has_room():
            text = f"{session.name()}: {text}" if text else f"{session.name()}; Ctrl-C ends this"
        self.window.status = text

    def warn(self):
        """Says what a person has to know at the begin."""
        if self.session.tally is None:
            self.window.say("No record can be read here, so it cannot be said which keys wait, are "
                            "chosen or are lost.")
        address = self.session.seat().keys
        for why in refusals_at(address) if address else []:
            self.window.say(f"{self.session.name()}: {why}")

    def step(self):
        """Does what is due. For how long it may wait for keys then."""
        is_new = self.session.step()
        now = time.monotonic()
        said, self.session.said = self.session.said, []
        for _, text in said:
            self.window.say(text)
        data, self.session.output = bytes(self.session.output), bytearray()
        data = self.screen.translated(data) if self.screen else data
        self.terminal.write(self.decoder.decode(data))
        if now - self.looked > STATUS or said:
            self.tell(now)
        self.window.draw()
        is_awake = self.count or now - self.typed < AWAKE
        return 0 if is_new else SOON if is_awake else LATE

    def go_on(self):
        """Goes on until a signal comes, or the terminal is gone."""
        while True:
            wait = self.step()
            is_full = len(self.session.held) > MOST
            if select.select([] if is_full else [0], [], [], wait)[0]:
                keys = os.read(0, KEYS)
                if not keys:
                    return
                self.typed = time.monotonic()
                self.session.type(keys)

    def end(self):
        """What is to be said at the end: all sentences once more, and what waits."""
        self.window.end()
        self.session.close()
        waiting, held = self.session.waiting(), len(self.session.held)
        lines = list(self.window.sentences)
        if held:
            lines.append(f"{held} typed keys are given up: they were sent to no node.")
        if waiting > held:
            lines.append(f"{waiting - held} keys that were sent were not chosen yet.")
        return lines
