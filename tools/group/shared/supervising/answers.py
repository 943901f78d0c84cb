"""What a supervisor answers to a question of state: its own view of its node, and whom it hears.

Only machines of the list are answered: those of --beats, and those of --asked-by. Whoever asks for
a session that was renewed, with --renew-at, is told of the one that continues it. With a key the
question has to be signed, and the answer is. An answer is never longer than ten times the question,
and there are at most so many in a second: so nobody is flooded by answers to a false source."""

import hashlib
import os
import subprocess
import time

from ..asking.texts import State, answer, asked_in
from .key import is_signed, signed

# How many questions are answered in a second.
MOST = 50
# How many digits of a checksum are told.
DIGITS = 16


def sum_of(path):
    """The first digits of a file's SHA-256, or None where it cannot be read."""
    total = hashlib.sha256()
    try:
        with open(path, "rb") as file:
            for data in iter(lambda: file.read(1 << 20), b""):
                total.update(data)
    except OSError:
        return None
    return total.hexdigest()[:DIGITS]


def version_of(program):
    """What the program says of its version, or None."""
    try:
        done = subprocess.run([program, "--version"], check=False, stdin=subprocess.DEVNULL,
                              capture_output=True, timeout=60)
    except (OSError, subprocess.SubprocessError):
        return None
    lines = done.stdout.decode("utf-8", "replace").splitlines()
    return lines[0] if lines and done.returncode == 0 else None


class Answers:
    """What is answered for the node of these words."""

    def __init__(self, words, node, head, office, key):
        self.words, self.node, self.head, self.office, self.key = words, node, head, office, key
        self.hosts = {it[0] for it in words.beats} | set(words.asked_by)
        self.version, self.sums, self.summed = version_of(words.program), (None, None), None
        self.second, self.count = 0, 0

    def answer(self, data, source):
        """The answer to what has come from a source, or None."""
        asked = asked_in(data) if source[0] in self.hosts else None
        if asked is None or asked[0] not in (self.words.session, *self.words.earlier):
            return None
        if self.key and not is_signed(data, self.key) or self.is_too_much():
            return None
        sign = (lambda it: signed(it, self.key)) if self.key else None
        return answer(self.words.session, asked[1], self.state(time.monotonic()), sign)

    def is_too_much(self):
        second = int(time.monotonic())
        if second != self.second:
            self.second, self.count = second, 0
        self.count += 1
        return self.count > MOST

    def sums_now(self):
        """The checksums of the program and the code file, as they were when the node started."""
        if self.summed is not self.node.process or self.sums == (None, None):
            self.summed = self.node.process
            program = os.path.realpath(self.words.program)
            self.sums = sum_of(program), sum_of(self.words.file)
        return self.sums

    def state(self, now):
        node, record, leader = self.node, self.head.record, self.office.leader(now)
        is_up = node.process is not None
        is_held = is_up and now - node.moved >= self.words.silent
        others = self.office.fresh(now).items()
        program, code = self.sums_now()
        return State(
            self.words.id, self.words.size, time.time(),
            "held" if is_held else "up" if is_up else "down", node.process and node.process.pid,
            record and record.starts, record and record.promised, self.head.places,
            leader is not None and leader.node == self.words.id and is_up, leader,
            {it: (now - heard.at, heard.promised) for it, heard in others if it != self.words.id},
            node.console.known_length(), node.end, node.fault, self.version, program, code,
            float(self.words.silent), node.front, node.waiting,
        )
