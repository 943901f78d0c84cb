"""A person's terminal, of which a session gets each key as it is typed."""

import os
import signal
import termios

SIGNALS = (signal.SIGINT, signal.SIGTERM, signal.SIGHUP)
# The flag of a terminal's settings that it takes UTF-8.
IUTF8 = 0o40000


class Ended(Exception):
    """A signal ends the session."""


def end(number, _frame):
    raise Ended(number)


def end_by(number):
    """Ends this process by the signal that has ended a session, unless that was Ctrl-C."""
    if number in (signal.SIGTERM, signal.SIGHUP):
        signal.signal(number, signal.SIG_DFL)
        os.kill(os.getpid(), number)


def with_keys(before, is_lf):
    """A terminal's settings with each key as it is typed, none shown, and none with a meaning but
    Ctrl-C."""
    iflag, oflag, cflag, lflag, ispeed, ospeed, characters = before
    iflag &= ~(termios.ISTRIP | termios.INLCR | termios.IGNCR | termios.IXON | termios.ICRNL)
    iflag |= termios.ICRNL if is_lf else 0
    oflag = (oflag | termios.OPOST | termios.ONLCR) & ~termios.OCRNL
    lflag &= ~(termios.ICANON | termios.ECHO | termios.ECHONL | termios.IEXTEN)
    characters = list(characters)
    none = os.fpathconf(0, "PC_VDISABLE").to_bytes(1, "little")
    characters[termios.VMIN], characters[termios.VTIME] = 1, 0
    characters[termios.VINTR] = b"\x03"
    characters[termios.VQUIT] = characters[termios.VSUSP] = none
    return [iflag, oflag, cflag, lflag | termios.ISIG, ispeed, ospeed, characters]


class Keyboard:
    """Standard input, a terminal. With `is_lf` Enter is 10, and else 13."""

    def __init__(self, is_lf):
        self.before, self.is_lf = termios.tcgetattr(0), is_lf
        self.is_utf8 = bool(self.before[0] & IUTF8)

    def serve(self, session):
        """Lets a session go on until a signal comes, or the terminal is gone. Then the terminal is
        as it was. Returns the signal, or None."""
        ended = None
        try:
            for number in SIGNALS:
                signal.signal(number, end)
            termios.tcsetattr(0, termios.TCSADRAIN, with_keys(self.before, self.is_lf))
            session.go_on()
        except Ended as why:
            ended = why.args[0]
        finally:
            for number in SIGNALS:
                signal.signal(number, signal.SIG_IGN)
            try:
                termios.tcsetattr(0, termios.TCSADRAIN, self.before)
            except termios.error:
                pass  # The terminal is gone.
        return ended
