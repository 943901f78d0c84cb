"""A script at a terminal that the test makes: what is typed at it, what it was given to show, and
its settings before and after. tests/console and tests/group_scripts share it."""

import fcntl
import os
import select
import signal
import subprocess
import termios
import time

from .program import Broken


def take_terminal():
    """Makes standard input the terminal of this process's session, so that Ctrl-C reaches it, and
    ends it. What is started in the background, as by ./test, would hand on that it ignores that."""
    fcntl.ioctl(0, termios.TIOCSCTTY, 0)
    for number in (signal.SIGINT, signal.SIGQUIT):
        signal.signal(number, signal.SIG_DFL)


class Terminal:
    """A command at a terminal of its own, and all bytes that it was given to show."""

    def __init__(self, command, env=None):
        self.keyboard, self.terminal = os.openpty()
        self.before = termios.tcgetattr(self.terminal)
        self.shown = b""
        ends = {"stdin": self.terminal, "stdout": self.terminal, "stderr": self.terminal}
        self.process = subprocess.Popen(
            command, **ends, env=env, start_new_session=True, preexec_fn=take_terminal
        )

    def look(self):
        """Waits a moment for bytes to be shown. Returns true if some came."""
        if not select.select([self.keyboard], [], [], 0.02)[0]:
            return False
        self.shown += os.read(self.keyboard, 65536)
        return True

    def await_that(self, is_so, fault):
        """Looks until `is_so` returns true, a minute at most. `fault` returns what is wrong
        then."""
        end = time.monotonic() + 60
        while not is_so():
            if time.monotonic() > end:
                raise Broken(f"it did not come in 60 seconds: {fault()}")
            self.look()

    def await_shown(self, text):
        """Waits until this was shown, among other things."""
        self.await_that(
            lambda: text in self.shown, lambda: f"shown was {self.shown}, without {text}"
        )

    def await_exactly(self, text):
        """Waits until this was shown, and nothing else."""
        def is_shown():
            if not text.startswith(self.shown):
                raise Broken(f"shown was {self.shown}, and not {text}")
            return self.shown == text

        self.await_that(is_shown, lambda: f"shown was {self.shown}, and not {text}")

    def await_ready(self):
        """Waits until the script takes each key as it is typed."""
        is_ready = lambda: not termios.tcgetattr(self.terminal)[3] & termios.ICANON
        self.await_that(is_ready, lambda: "the terminal is not set up")

    def type(self, keys):
        os.write(self.keyboard, keys)

    def end(self, status):
        """Waits until the script has ended, and reads all that it has shown. It has to end with
        this status, which is below 0 for a signal, and to leave the terminal as it was."""
        self.await_that(lambda: self.process.poll() is not None, lambda: "it has not ended")
        while self.look():
            pass
        if self.process.returncode != status:
            raise Broken(f"the status is {self.process.returncode}, and not {status}")
        if termios.tcgetattr(self.terminal) != self.before:
            raise Broken("the terminal is not as it was")

    def close(self):
        self.process.kill()
        self.process.wait()
        os.close(self.keyboard)
        os.close(self.terminal)
