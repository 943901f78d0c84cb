"""A command in tmux, for tests/group_follow and tests/walk."""

import fcntl
import os
import re
import shlex
import struct
import subprocess
import termios

from .files import bytes_of
from .group import await_that
from .program import Broken


class Screen:
    """A command in a tmux of its own, and what its screen shows."""

    def __init__(self, folder, name, *command, columns=100, lines=30, env=None):
        self.socket = os.path.join(folder, f"tmux.{name}")
        self.status = os.path.join(folder, f"status.{name}")
        words = " ".join(map(shlex.quote, command))
        shell = f"{words}; echo $? > '{self.status}'"
        self.env = {**os.environ, **(env or {}), "TERM": "xterm", "LC_ALL": "C.UTF-8"}
        size = ["-x", str(columns), "-y", str(lines)]
        self.tmux("-f", "/dev/null", "new-session", "-d", *size, shell)

    def tmux(self, *words):
        command = ["tmux", "-S", self.socket, *words]
        return subprocess.run(command, check=False, env=self.env, capture_output=True)

    def shown(self, pane=0):
        return self.tmux("capture-pane", "-p", "-t", f":.{pane}").stdout.decode()

    def await_shown(self, *patterns, pane=0):
        """Waits until all of these are on the screen at once."""
        def is_shown():
            shown = self.shown(pane)
            return all(re.search(it, shown, re.M) for it in patterns)

        try:
            await_that(is_shown, f"the screen shows {patterns}")
        except Broken as broken:
            raise Broken(f"{broken}, and has\n{self.shown(pane)}")

    def process(self):
        """The command's process."""
        shell = self.tmux("display-message", "-p", "#{pane_pid}").stdout.decode().strip()
        return int(bytes_of(f"/proc/{shell}/task/{shell}/children").split()[0])

    def resize(self, columns, lines):
        """Gives the window this size, and waits until the command's terminal has it."""
        self.tmux("resize-window", "-x", str(columns), "-y", str(lines))
        path = self.tmux("display-message", "-p", "#{pane_tty}").stdout.decode().strip()

        def is_resized():
            with open(path) as terminal:
                size = fcntl.ioctl(terminal, termios.TIOCGWINSZ, bytes(8))
            return struct.unpack("HHHH", size)[:2] == (lines, columns)

        await_that(is_resized, f"the terminal has {columns} columns and {lines} lines")

    def await_end(self):
        def is_ended():
            return os.path.exists(self.status) and os.path.getsize(self.status) > 0

        await_that(is_ended, "the command has ended")
        return bytes_of(self.status).decode().strip()

    def end(self):
        self.tmux("kill-server")
