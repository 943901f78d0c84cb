"""Nodes that are none, for tests of a session: a socket where keys come, a console and a record
that the test writes. A session here has a clock of its own, which goes on at each look of a test
that waits, so that what comes after some seconds comes at once."""

import os
import socket
import struct
import time
import types

from shared.nodes import free_addresses
from shared.sitting import losses, seat, session
from shared.sitting.seat import Seat
from shared.sitting.session import Session
from shared.words import text_of_address

from ..files import bytes_of
from ..program import Broken

CLOCK = types.SimpleNamespace(seconds=100.0, monotonic=lambda: CLOCK.seconds)
for it in (losses, seat, session):
    it.time = CLOCK


class Made:
    """A node of a group of three, of session 7, as the test makes it."""

    def __init__(self, number, folder, has_record=True):
        self.number, self.address = number, free_addresses(1)[0]
        self.console = os.path.join(folder, f"console{number}")
        self.record = os.path.join(folder, f"record{number}") if has_record else None
        self.socket, self.got = None, b""
        self.show(b"> ")
        if has_record:
            self.begin(7)
        self.bind()

    def begin(self, session):
        """A new record, of this session, of a node that was started once. It is put in its place
        whole."""
        with open(f"{self.record}.new", "wb") as file:
            file.write(b"PL\2" + bytes([self.number, 3]) + struct.pack(">I", session) + b"\1")
        os.rename(f"{self.record}.new", self.record)

    def bind(self):
        self.socket = socket.socket(socket.AF_INET, socket.SOCK_DGRAM)
        self.socket.bind(self.address)
        self.socket.setblocking(False)

    def close(self):
        """The node is down: nobody has its port."""
        if self.socket:
            self.socket.close()
            self.socket = None

    def heard(self):
        """All keys that have come."""
        while self.socket:
            try:
                self.got += self.socket.recv(65536)
            except BlockingIOError:
                break
        return self.got

    def show(self, data):
        with open(self.console, "ab") as file:
            file.write(data)

    def give_back(self, first):
        """The bytes of the console before this one are no longer kept."""
        size = os.path.getsize(self.console)
        with open(self.console, "r+b") as file:
            file.write(bytes(first))
        with open(self.console + ".synced", "wb") as file:
            file.write(b"pgroup console synced %d boot 0-0 from %d\n" % (size, first))

    def write(self, entry):
        with open(self.record, "ab") as file:
            file.write(entry)

    def start(self):
        self.write(b"\1")

    def vote(self, place, ballot, keys=None):
        """A vote under ROUND, NODE for keys: node, start, first serial, characters. Or a no-op."""
        value = b"\0"
        if keys:
            node, start, first, characters = keys
            value = b"\1" + struct.pack(">BIIB", node, start, first, len(characters)) + characters
        self.write(b"\3" + struct.pack(">IIB", place, *ballot) + value)

    def word(self):
        """The node as a word of `attach`."""
        return ",".join([text_of_address(self.address), self.console, self.record])

    def seat(self):
        return Seat(self.record, self.address, self.console)


class Play:
    """A session over nodes that the test makes, step by step."""

    def __init__(self, nodes, at=0):
        self.nodes, self.shown = nodes, b""
        self.session = Session([it.seat() for it in nodes], at)
        self.step()

    def step(self):
        self.session.step()
        self.shown += bytes(self.session.output)
        self.session.output.clear()

    def type(self, keys):
        self.session.type(keys)
        self.step()

    def await_that(self, is_so, what):
        end = time.monotonic() + 60
        while not is_so():
            if time.monotonic() > end:
                known = f"{self.session.said}, shown {self.shown}"
                raise Broken(f"it did not come in 60 seconds: {what}: {known}")
            time.sleep(0.005)
            CLOCK.seconds += 0.05
            self.step()

    def await_said(self, text):
        self.await_that(lambda: any(text in it for _, it in self.session.said), f"it says {text}")

    def said(self):
        return [text for _, text in self.session.said]

    def heard(self):
        return [it.heard() for it in self.nodes]

    def close(self):
        self.session.close()
        for it in self.nodes:
            it.close()


def cut(path, size):
    os.truncate(path, size)
    return bytes_of(path)
