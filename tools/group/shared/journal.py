"""What is told to systemd: lines of standard error, where that is the journal, and the status that
`systemctl status` shows.

In the journal a line that says the same as one before, but for its numbers, is written once a
minute at most. The next one then says how many were left out. Elsewhere each line is written."""

import contextlib
import os
import re
import socket
import time

# How long a line is not written again, in seconds, and of how many lines that is remembered.
PAUSE, MOST = 60.0, 256
NUMBER = re.compile(r"\d+")


def is_journal(descriptor=2):
    """Whether standard error, or another one, leads to the journal: systemd says which file that
    is."""
    try:
        status = os.fstat(descriptor)
    except OSError:
        return False
    return os.environ.get("JOURNAL_STREAM") == f"{status.st_dev}:{status.st_ino}"


class Sparing:
    """The lines that were written, as far as they may come again."""

    def __init__(self, is_sparing, now=time.monotonic):
        self.is_sparing, self.now, self.lines = is_sparing, now, {}

    def passed(self, text):
        """A line as it is to be written, or None."""
        if not self.is_sparing:
            return text
        kind, now = NUMBER.sub("#", text), self.now()
        due, count = self.lines.get(kind, (now, 0))
        if now < due:
            self.lines[kind] = due, count + 1
            return None
        self.lines.pop(kind, None)
        if len(self.lines) >= MOST:
            self.lines.pop(next(iter(self.lines)))
        self.lines[kind] = now + PAUSE, 0
        return f"{text} (and {count} times more since the last such line)" if count else text


# Those of this process.
SPARING = Sparing(is_journal())


def notify(text):
    """Tells systemd, if it has started this process and asks for that."""
    path = os.environ.get("NOTIFY_SOCKET", "")
    if path[:1] not in ("/", "@"):
        return
    with contextlib.suppress(OSError), socket.socket(socket.AF_UNIX, socket.SOCK_DGRAM) as there:
        there.setblocking(False)
        there.sendto(text.encode("utf-8"), "\0" + path[1:] if path[0] == "@" else path)


class Status:
    """What systemd was told last of this process."""

    def __init__(self):
        self.text = None

    def tell(self, text):
        if text != self.text:
            self.text = text
            notify(f"STATUS={text}\n")
