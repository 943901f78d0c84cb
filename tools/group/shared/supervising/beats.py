"""Heartbeats of supervisors: their text, and the socket where they come and go."""

import collections
import contextlib
import errno
import re
import select
import socket
import time

from ..asking.texts import ASK
from ..files import Refused
from ..record import Ballot
from ..seen import Said, said_in, text_of_said, took_of
from ..words import text_of_address
from .key import is_signed, is_signed_shortly, signed, signed_shortly
from .office import Beat

# The most bytes of a datagram that is read.
MOST = 4096
# After so many datagrams of a node of which none is signed, that is said.
MANY = 10
# How often it is said that a node is heard in another session; and for how long it has to be if
# that session was renewed here, where the other supervisors follow by themselves. In seconds.
MINUTE, FOLLOWS = 60.0, 10.0
# pgroup beat SESSION NODE ROUND NODE AGE LED HEARS: a ballot of round 0 is none, LED is 0 or 1, and
# HEARS has a digit for each node.
BEAT = re.compile(
    rb"pgroup beat (\d{1,10}) ([1-9]) (\d{1,10}) (\d) (\d{1,8}\.\d{3}) ([01]) ([1-9]{0,9})"
)
# With a key and with nothing else to say: the same, a counter, and 32 digits of a tag.
SHORT = re.compile(rb"(%s) (\d{1,20}) [0-9a-f]{32}" % BEAT.pattern)
TAKES_SHORT = "short"


def text_of_beat(it):
    promised = it.promised or Ballot(0, 0)
    numbers = f"{it.session} {it.node} {promised.round} {promised.node}"
    hears = "".join(str(node) for node in sorted(it.hears))
    return f"pgroup beat {numbers} {it.age:.3f} {int(it.is_led)} {hears}".encode()


def beat_of(data):
    """The heartbeat of a datagram, or None."""
    match = BEAT.fullmatch(data)
    if match is None:
        return None
    session, node, first, second = [int(it) for it in match.groups()[:4]]
    promised = Ballot(first, second) if first else None
    hears = frozenset(int(chr(it)) for it in match[7])
    return Beat(session, node, promised, float(match[5]), match[6] == b"1", hears)


def short_in(data):
    """What the short form of a heartbeat says, as if it stood in a longer datagram, or None."""
    match = SHORT.fullmatch(data)
    return match and Said(int(match[2]), int(match[3]), int(match[9]), [match[1]])


class Elsewhere:
    """The nodes whose supervisors are heard in another session of the group."""

    def __init__(self, earlier):
        self.earlier, self.heard = earlier, {}

    def note(self, node, session, now):
        """A supervisor of this node was heard in this session."""
        begun, last, said = self.heard.get((node, session), (now, now, None))
        begun = now if now - last > MINUTE else begun
        self.heard[node, session] = begun, now, said

    def due(self, now):
        """What is to be said now: each node with its session, at once and each minute."""
        for key, (begun, last, said) in self.heard.items():
            is_long = last - begun >= FOLLOWS or key[1] not in self.earlier
            if is_long and (said is None or last >= said + MINUTE):
                self.heard[key] = begun, last, now
                yield key


class Beats:
    """The socket of the supervisor of node `me`, at the address of its place in the list.

    A heartbeat is one line. What else is told follows in a datagram of its own, `pgroup seen`,
    which supervisors of earlier versions pass over. With a key the heartbeat stands in that
    datagram, which is signed, and what comes unsigned or once more counts for nothing. If there is
    nothing else to say, the heartbeat has a short form of its own, for those who say that they take
    it: supervisors up to 0.13.0 do not."""

    def __init__(self, session, me, addresses, key=None, earlier=()):
        """`earlier` are sessions that this one continues, as supervisors find by themselves."""
        self.session, self.me, self.addresses, self.key = session, me, addresses, key
        self.nodes = {it: node for node, it in enumerate(addresses, 1) if node != me}
        # The counter of the last datagram that was sent, and of the last that was taken of each
        # node. Whether one came whose counter is too small: its sender has to learn of that.
        self.counter, self.took, self.is_behind = 0, {}, False
        self.short = set()  # the nodes whose supervisors take the short form
        # Of each node, how many datagrams came since the last that was signed; and of which ones
        # that was said.
        self.unsigned, self.strangers = collections.Counter(), set()
        self.elsewhere = Elsewhere(earlier)
        # What is answered to a question of state: its bytes and source are given, and bytes or None
        # are returned.
        self.answer_to = lambda data, source: None
        self.socket = socket.socket(socket.AF_INET, socket.SOCK_DGRAM)
        self.socket.setblocking(False)

    def bind(self):
        """Takes its address. Answers why that cannot be done yet, or None."""
        address = self.addresses[self.me - 1]
        try:
            self.socket.bind(address)
        except OSError as fault:
            where = f"heartbeats at {text_of_address(address)}"
            if fault.errno == errno.EADDRINUSE:
                raise Refused(f"{where}: {fault.strerror}; is a supervisor there?")
            return f"{where}: {text_of_address_fault(fault)}"
        return None

    def remember(self, counter, took):
        """Takes the counters that were kept."""
        self.counter, self.took = counter, took

    def took_lines(self):
        return [f"took {node} {counter}" for node, counter in sorted(self.took.items())]

    def send(self, beat, lines=()):
        """Sends the heartbeat, and these lines, if there are any."""
        line, forms = text_of_beat(beat), {}
        # It only grows, over restarts too, whatever the clock does: see `note_took`.
        self.counter = max(self.counter + 1, time.time_ns())
        for address, node in self.nodes.items():
            is_short = not lines and node in self.short
            if is_short not in forms:
                forms[is_short] = self.datagrams(line, lines, is_short)
            for data in forms[is_short]:
                try:
                    self.socket.sendto(data, address)
                except OSError:
                    pass  # What is not sent is lost.

    def datagrams(self, line, lines, is_short=False):
        """The datagrams that say a heartbeat and these lines: with a key it is one."""
        if is_short:
            return [signed_shortly(b"%s %d" % (line, self.counter), self.key)]
        first = [line.decode("ascii"), TAKES_SHORT] if self.key else []
        text = text_of_said(self.session, self.me, self.counter, [*first, *lines])
        data = text.encode("ascii")
        if self.key:
            return [signed(data, self.key)]
        return [line, data] if lines else [line]

    def hear_until(self, end, also=()):
        """Yields what the other supervisors of the session send until then, or until one of these
        other files can be read: the node of each, and the heartbeat and what else is said, or
        None."""
        while True:
            left = end - time.monotonic()
            there = select.select([self.socket, *also], [], [], left)[0] if left > 0 else []
            if there != [self.socket]:
                return
            try:
                data, source = self.socket.recvfrom(MOST)
            except OSError:
                continue
            node = self.nodes.get(source)
            if data.startswith(ASK):
                self.answer(data, source)
            elif node:
                beat, said = self.checked(data, node) if self.key else self.plain(data, node)
                if beat or said:
                    yield node, beat, said

    def answer(self, data, source):
        answer = self.answer_to(data, source)
        if answer:
            with contextlib.suppress(OSError):  # What is not sent is lost.
                self.socket.sendto(answer, source)

    def mine(self, it, node):
        """A heartbeat or what else was said, if it is of this session and node."""
        if it is None or it.node != node:
            return None
        if it.session != self.session:
            self.elsewhere.note(node, it.session, time.monotonic())
            return None
        return it

    def plain(self, data, node):
        """Without a key. The heartbeat of one who has a key stands in what else is said."""
        beat = self.mine(beat_of(data), node)
        said = None if beat else self.mine(said_in(data) or short_in(data), node)
        return beat or said and self.mine(beat_of(said.lines[0]), node), said

    def checked(self, data, node):
        """With a key. What comes once more counts for nothing, but for runs: that a record was so
        far stays true."""
        short = short_in(data)
        said, is_so = short or said_in(data), is_signed_shortly if short else is_signed
        if said is None or not is_so(data, self.key):
            self.unsigned[node] += 1
            return None, None
        self.unsigned[node] = 0
        if self.mine(said, node) is None:
            return None, None
        self.strangers.discard(node)
        self.note_took(took_of(said.lines))
        if said.counter <= self.took.get(node, 0):
            self.is_behind = True
            return None, said._replace(lines=[it for it in said.lines if it.startswith(b"run ")])
        self.took[node] = said.counter
        takes_short = short or TAKES_SHORT.encode("ascii") in said.lines
        (self.short.add if takes_short else self.short.discard)(node)
        return self.mine(beat_of(said.lines[0]), node), said

    def new_strangers(self):
        """The nodes whose supervisors sign nothing, each once until it signs again."""
        if not self.unsigned:
            return []
        found = {node for node, count in self.unsigned.items() if count >= MANY} - self.strangers
        self.strangers |= found
        return sorted(found)

    def note_took(self, took):
        """What another has taken of this node. After a snapshot was put back and with a clock that
        is wrong, the counter is too small, and goes on behind that."""
        self.counter = max(self.counter, took.get(self.me, 0))


def text_of_address_fault(fault):
    if fault.errno == errno.EADDRNOTAVAIL:
        return "this machine does not have that address (yet)"
    return fault.strerror
