"""What nodes say in their logs of the end of their program."""

import errno
import os
import re
import stat

# What a node says of the end, and in a line of its log who says it. A line may have more before the
# time, as those of a journal have.
END = re.compile(r"program ended(?: (execution error \d+ in procedure \d+ at \d+))?")
LINE = re.compile(
    r"(?:^|\s)\d+\.\d{3} node (\d) (?:started size \d session (\d+) .*|(program .*))$"
)
# How many bytes are read at once.
PIECE = 1 << 20


def end_of(note):
    """How the program has ended by what a node says: the execution error, or an empty text; None
    where the node says something else."""
    found = END.fullmatch(note)
    return found and (found[1] or "")


def with_end(text, end):
    """A text that says that the program has ended, and how."""
    return f"{text}: {end}" if end else text


class Log:
    """A file with lines of nodes' logs, which is read as it grows. What it says of the end of a
    node's program counts for the session of the node's last start before that line, and until the
    node starts again."""

    def __init__(self, path):
        self.path = path
        self.begin(None)

    def begin(self, inode):
        self.inode, self.at, self.rest = inode, 0, b""
        self.sessions, self.ends = {}, {}

    def look(self):
        """Reads what has come. OSError where that cannot be done."""
        if not stat.S_ISREG(os.stat(self.path).st_mode):
            raise OSError(errno.EINVAL, "it is no regular file", self.path)
        with open(self.path, "rb") as file:
            now = os.fstat(file.fileno())
            if now.st_ino != self.inode or now.st_size < self.at:
                self.begin(now.st_ino)
            file.seek(self.at)
            for data in iter(lambda: file.read(PIECE), b""):
                self.at += len(data)
                lines, _, self.rest = (self.rest + data).rpartition(b"\n")
                for line in lines.decode("utf-8", "replace").split("\n"):
                    self.note(line)

    def note(self, line):
        found = LINE.search(line)
        if not found:
            return
        node = int(found[1])
        if found[2]:
            self.sessions[node], self.ends[node] = int(found[2]), None
        else:
            self.ends[node] = end_of(found[3])

    def end(self, node, session):
        """How the program of a node of this session has ended, or None where the file does not say
        that it has."""
        return self.ends.get(node) if self.sessions.get(node) == session else None
