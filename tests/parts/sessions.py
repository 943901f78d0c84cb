"""A session of `attach` over several nodes at a terminal, for tests: what it has said, at which
node it is, and whether what is shown is what was typed but for the keys that were named."""

import concurrent.futures
import fcntl
import itertools
import random
import re
import struct
import termios
import time

from .checks import expect, passed
from .echo_code import ECHO
from .files import bytes_of
from .group import await_that, fault_of_end
from .program import Broken
from .scripts import path_of
from .terminals import Terminal

# A size at which no sentence takes two lines.
LINES, COLUMNS = 40, 1000
LOST = re.compile(r'^(?:attach: )?(?:A key|\d+ keys) that w(?:as|ere) typed at node \d, which has '
                  r'ended, (?:is|are) lost[^:]*: "(.*)"\.$')
# The echo ends at a full stop, and sentences have these signs around keys.
SIGNS = bytes(it for it in range(33, 127) if it not in b'."\\<')
# How many bytes have to be equal for a place in what was typed to be found again.
SURE = 10


class Attached(Terminal):
    """`attach` over several nodes."""

    def __init__(self, *words, around=()):
        """`around` are words that come before the command."""
        super().__init__([*around, path_of("attach"), *map(str, words)])
        fcntl.ioctl(self.keyboard, termios.TIOCSWINSZ, struct.pack("HHHH", LINES, COLUMNS, 0, 0))
        self.await_ready()

    def drain(self):
        """Reads what was shown, without waiting for more."""
        while self.look():
            pass

    def at(self):
        """The number of the node that has the session, by what was said last, or None."""
        found = re.findall(rb"continues at node (\d)|you type wait here", self.shown)
        return int(found[-1] or 0) or None if found else 1

    def finish(self):
        """Ends it by Ctrl-C. Returns the sentences that it has said, in order."""
        self.type(b"\x03")
        self.end(0)
        said = self.shown.decode("utf-8", "replace").replace("\r", "")
        return re.findall(r"^attach: (.*)$", said, re.M)


def lost_in(sentences):
    """The keys that are named as lost, a text for each sentence."""
    return [it[1] for it in map(LOST.match, sentences) if it]


def cuts_of(typed, shown):
    """What is missing of what was typed: pairs of a place and a length. Broken where what is shown
    is not what was typed with some of it left out."""
    found, at, place = [], 0, 0
    while at < len(shown):
        if place < len(typed) and typed[place] == shown[at]:
            at, place = at + 1, place + 1
            continue
        there = typed.find(shown[at : at + SURE], place)
        if there < 0:
            raise Broken(f"{shown[at - 20 : at + 20]} is shown, and was not typed so: typed was "
                         f"{typed[place - 20 : place + 60]}")
        found.append((place, there - place))
        place = there
    return found + ([(place, len(typed) - place)] if place < len(typed) else [])


def is_named(typed, place, size, names):
    """Whether these names together are what is missing there, in any order. Equal characters before
    and behind it may be taken for one another."""
    for back in range(min(place, size) + 1):
        begin = place - back
        if typed[begin:place] != typed[begin + size : place + size]:
            return False
        missing = typed[begin : begin + size].decode()
        if any("".join(it) == missing for it in itertools.permutations(names)):
            return True
    return False


def check_named(typed, shown, names):
    """Each key that is missing is named as lost, and no other."""
    names = list(names)
    for place, size in cuts_of(typed, shown):
        for count in range(1, len(names) + 1):
            if is_named(typed, place, size, names[:count]):
                del names[:count]
                break
        else:
            raise Broken(f"{typed[place : place + size]} is missing, and named is {names[:4]}")
    if names:
        raise Broken(f"{names} is called lost, and nothing of it is missing")


class Typist:
    """Types random keys at a session, and looks at what is shown."""

    def __init__(self, session, draw, signs=SIGNS):
        self.session, self.draw, self.signs, self.typed = session, draw, signs, bytearray()

    def type_for(self, seconds):
        end = time.monotonic() + seconds
        while time.monotonic() < end:
            size = self.draw.choice((1, 1, 1, 2, 5, 40))
            keys = bytes(self.draw.choice(self.signs) for _ in range(size))
            self.session.type(keys)
            self.typed += keys
            # In between what is shown is read, which waits up to some milliseconds for more.
            self.session.look()

    def watch_for(self, seconds):
        end = time.monotonic() + seconds
        while time.monotonic() < end:
            self.session.look()


def settled(group, typists):
    """Waits until the consoles are equal and show what was chosen. Returns what they show."""
    records, consoles = [it.record for it in group], [it.console for it in group]
    last = [None]

    def is_over():
        for it in typists:
            it.session.look()
        last[0] = fault_of_end(ECHO, records, consoles)
        return not isinstance(last[0], str)

    try:
        await_that(is_over, "the consoles are equal and show what was chosen")
    except Broken as broken:
        raise Broken(f"{broken}: {last[0]}")
    return bytes_of(group[0].console)


def together(typists, seconds, is_typing=True):
    """Each types at its session, or looks at it, at the same time."""
    with concurrent.futures.ThreadPoolExecutor(len(typists)) as beside:
        doing = [beside.submit(it.type_for if is_typing else it.watch_for, seconds)
                 for it in typists]
    for it in doing:
        it.result()


def lose(group, session, kill):
    """Kills the node of the session, once there is one."""
    found = [None]

    def is_there():
        at = session.at()
        found[0] = at and group[at - 1]
        return found[0] is not None and found[0].node() is not None

    try:
        await_that(is_there, "the session is at a node that runs")
    except Broken as broken:
        raise Broken(f"{broken}: {session.shown[-4000:]}")
    kill(found[0])


def play_kills(group, sessions, kill, words, pauses=(2, 3.5)):
    """Kills the node of the first session so often, while keys are typed at all, and checks what
    was shown and named. `kill` kills a node, which is started again by itself. Each session types
    characters of its own."""
    draw, count = random.Random(words.seed), len(sessions)
    typists = [Typist(it, random.Random(draw.random()), SIGNS[at::count])
               for at, it in enumerate(sessions)]
    together(typists, 1)
    with concurrent.futures.ThreadPoolExecutor(1) as beside:
        for _ in range(words.kills):
            # Keys are typed also while the node is being lost.
            killed = beside.submit(lose, group, sessions[0], kill)
            together(typists, draw.uniform(*pauses))
            killed.result()
    settled(group, typists)
    # What was lost is named some time after the last move, and what waits to be typed comes.
    together(typists, 4, False)
    shown = settled(group, typists)
    for it in typists:
        check_session(it, shown, it is typists[0] and words.kills > 0)


def check_session(typist, shown, must_move):
    sentences = typist.session.finish()
    words = ("the session continues at", "your session is at", "you now type at")
    moved = sum(any(it in text for it in words) for text in sentences)
    # On a busy machine a node may be killed once more before its end is seen.
    expect(f"the session went on at another node {moved} times", moved or not must_move, sentences)
    lost, shown = lost_in(sentences), bytes(it for it in shown[2:] if it in typist.signs)
    check_named(bytes(typist.typed), shown, lost)
    count = sum(map(len, lost))
    passed(f"{len(typist.typed)} keys: none twice, in order, {count} lost, each of them named")
