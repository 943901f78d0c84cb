"""A node as a session sees it from this machine: its process, its console, its record, and where
its keys come."""

import os
import re
import time
from argparse import ArgumentTypeError

from ..nodes import dropped_at, is_empty_at, stat_of
from ..ports import is_local, is_owners, owner_of, users_at
from ..synced import first_kept, trusted_size
from ..watch import file_of, has_keys_at, link_of, plain_words, record_word
from ..words import address_of
from .votes import Votes

SAID = re.compile(r"((?:\d+\.){3}\d+:\d+),([^,]+)(?:,(.+))?")
# For how long a node of which no process is seen counts as down once its port has refused a key, in
# seconds.
REFUSED = 5.0
ENDED, STOPPED = (None, "Z", "X"), ("T", "t")


def seat_of(text):
    """A node by the word that a person has typed: RECORD, or ADDR,CONSOLE or ADDR,CONSOLE,RECORD.
    argparse.ArgumentTypeError where the address is none."""
    said = SAID.fullmatch(text)
    if not said:
        return Seat(text, None, None)
    return Seat(said[3], address_of(said[1]), said[2])


def birth_of(pid):
    """When a process began: with its number that names it for ever. None where it has ended."""
    try:
        return stat_of(pid)[19]
    except OSError:
        return None


def port_of(words):
    """The port at which a node with these words hears the others, or None."""
    plain = plain_words(words)
    try:
        return address_of(plain[5 + int(plain[1])])[1]
    except (ArgumentTypeError, IndexError, ValueError):
        return None


class Seat:
    """What is not said is found by the node's process. `process` is its number and its birth."""

    def __init__(self, record, keys, console):
        self.votes = Votes(record) if record else None
        self.keys, self.console = keys, console
        self.are_keys_said, self.is_console_said = keys is not None, console is not None
        self.process, self.state, self.number, self.was_seen = None, None, None, False
        # When its port has refused a key, and the port at which it hears the others.
        self.refused_at, self.port = None, None

    def record(self):
        """The record as it was read last, without its votes, or None."""
        return self.votes and self.votes.now

    def name(self, at):
        it = self.record()
        return f"node {it.node if it else self.number or at + 1}"

    def is_of(self, pid, words):
        """Whether a process with these words after `node` is this node."""
        if not is_owners(pid, self.votes.path if self.votes else self.console):
            return False
        if self.votes is None or self.are_keys_said:
            return has_keys_at(words, self.keys)
        path = self.path_of(pid, words)
        return path is not None and path == os.path.realpath(self.votes.path)

    def path_of(self, pid, words):
        word = record_word(words)
        folder = link_of(f"/proc/{pid}/cwd")
        if word is None or (folder is None and not os.path.isabs(word)):
            return None
        return os.path.realpath(os.path.join(folder or "/", word))

    def find(self, processes):
        """Finds the node's process among these, unless it is known and runs."""
        if self.process and birth_of(self.process[0]) == self.process[1]:
            return
        mine = [(pid, words) for pid, words in processes.items() if self.is_of(pid, words)]
        found = [(pid, birth_of(pid), words) for pid, words in mine]
        found = [it for it in found if it[1] is not None]
        if not found:
            return
        pid, birth, words = found[0]
        self.process, self.was_seen, self.refused_at = (pid, birth), True, None
        self.number = int(words[1]) if words[1].isdigit() else None
        self.port = port_of(words)
        self.find_files(pid, words)
        self.look_at_state()

    def find_files(self, pid, words):
        if not self.is_console_said:
            self.console = file_of(pid, 1) or self.console
        if self.votes is None and self.path_of(pid, words):
            self.votes = Votes(self.path_of(pid, words))
        if not self.are_keys_said:
            said = [it.split("=", 1)[-1] for it in words if it.startswith("--keys=")]
            said += [after for word, after in zip(words, words[1:]) if word == "--keys"]
            self.keys = address_of(said[-1]) if said else None

    def look_at_state(self):
        """The state of the process now, or None where it has ended or is not known."""
        self.state = None
        if self.process:
            try:
                fields = stat_of(self.process[0])
                self.state = fields[0] if fields[19] == self.process[1] else None
            except OSError:
                pass
        return self.state

    def is_running(self, process):
        """Whether this process, as it was seen once, has not ended."""
        try:
            fields = stat_of(process[0])
        except OSError:
            return False
        return fields[19] == process[1] and fields[0] not in ENDED

    def is_gone(self):
        """Whether the node has ended. Where its process was never seen, it is taken to run until
        its port refuses a key."""
        if self.was_seen:
            return self.state in ENDED
        if self.keys and is_local(self.keys):
            return dropped_at(self.keys[1]) is None
        return self.was_refused(REFUSED)

    def was_refused(self, seconds):
        """Whether its port has refused a key in so many seconds."""
        return self.refused_at is not None and time.monotonic() - self.refused_at < seconds

    def has_port(self):
        """Whether the node has the port of the keys, as far as this machine can tell. The node may
        be in another network namespace. If its process is not seen, the port is the node's if it is
        that of the console's owner."""
        if self.process:
            try:
                return dropped_at(self.keys[1], self.sockets()) is not None
            except OSError:
                return False  # It has just ended.
        if not is_local(self.keys):
            return True
        users, owner = users_at(self.keys), owner_of(self.console)
        return bool(users) and (owner is None or users == {owner})

    def sockets(self):
        return f"/proc/{self.process[0]}/net/udp"

    def is_at_rest(self):
        """Whether the node waits for others, and has heard all that they have sent it so far. While
        it saves something it does not."""
        try:
            return bool(
                self.port and self.look_at_state() == "S" and is_empty_at(self.port, self.sockets())
                and self.look_at_state() == "S"
            )
        except OSError:
            return False

    def is_stopped(self):
        return self.state in STOPPED

    def is_up(self):
        return not self.is_gone() and not self.is_stopped()

    def may_lead(self):
        """The ballot under which it may lead: one of its own, of its present run."""
        it = self.record()
        is_own = it and it.promised and it.promised.node == it.node
        return it.promised if is_own and it.promised != self.votes.before and self.is_up() else None

    def size(self):
        """How many bytes the console has, or None where it cannot be seen."""
        try:
            return trusted_size(self.console) if self.console else None
        except OSError:
            return None

    def kept_from(self):
        """The first byte of the console that is kept: `supervise --console-limit` gives older ones
        back to the disk, and they read as zeros."""
        return first_kept(self.console) if self.console else 0

    def read(self, begin, most):
        """Bytes of the console, or None where it cannot be read."""
        try:
            with open(self.console, "rb") as file:
                file.seek(begin)
                return file.read(max(0, min(most, trusted_size(self.console) - begin)))
        except (OSError, TypeError):
            return None
