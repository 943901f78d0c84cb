"""What a node says on standard error, as its supervisor hands it on."""

import os
import re
import sys

from ..journal import SPARING

# A line of a node's log, and what it says there.
NOTE = re.compile(r"\d+\.\d{3} node \d (.*)")


# What begins a line of counts there. A supervisor always asks for these.
COUNTS = "known front "


def is_log_asked():
    """Whether the environment asks for the lines of nodes' logs."""
    return os.environ.get("PGROUP_LOG") == "1"


def are_counts_asked():
    """Whether it asks for the counts in these logs too."""
    return os.environ.get("PGROUP_COUNTS") == "1"


def spared(line, note):
    """A line as it is to be written, or None where the journal has had it."""
    text = note[1] if note else line.decode("utf-8", "replace")
    passed = SPARING.passed(text)
    return None if passed is None else line + passed[len(text) :].encode("ascii")


class Speech:
    """A pipe from a node. Its lines are handed on to standard error as they come, those of its log
    only where `is_log_shown`. `note` is called with what each line of its log says, and the last
    line is kept: it says why the node has ended.

    The pipe is never waited for at either end. Where it is full, since this process was stopped,
    the node leaves a line out and goes on."""

    def __init__(self, is_log_shown, note):
        self.is_log_shown, self.note = is_log_shown, note
        self.end, self.begin = os.pipe2(os.O_NONBLOCK | os.O_CLOEXEC)
        self.rest, self.last = b"", ""

    def leave_to(self, start):
        """What `start` gives, which starts the node with the begin of the pipe. This process needs
        that no longer then."""
        try:
            return start(self.begin)
        except BaseException:
            os.close(self.end)
            raise
        finally:
            os.close(self.begin)

    def hand_on(self):
        """Hands on the lines that have come."""
        while True:
            try:
                data = os.read(self.end, 65536)
            except BlockingIOError:
                return
            if not data:
                return
            lines, _, self.rest = (self.rest + data).rpartition(b"\n")
            if lines:
                self.take(lines.split(b"\n"))

    def take(self, lines):
        texts = [it.decode("utf-8", "replace") for it in lines]
        notes = [NOTE.fullmatch(it) for it in texts]
        self.write([spared(it, note) for it, note in zip(lines, notes) if self.is_shown(note)])
        self.last = texts[-1]
        for it in filter(None, notes):
            self.note(it[1])

    def is_shown(self, note):
        """Whether a line with this note is handed on."""
        if not note:
            return True
        return self.is_log_shown and (are_counts_asked() or not note[1].startswith(COUNTS))

    def write(self, lines):
        """What cannot be written is left out."""
        try:
            sys.stderr.buffer.write(b"".join(it + b"\n" for it in lines if it is not None))
            sys.stderr.buffer.flush()
        except (OSError, ValueError, AttributeError):
            pass

    def close(self):
        """The node has ended."""
        self.hand_on()
        if self.rest:
            self.write([self.rest])
        os.close(self.end)
