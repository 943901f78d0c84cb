"""Rows of checks side by side, each row in a process of its own and with ports of its own: for
scripts that wait more than they work."""

import os
import signal
import sys
import tempfile
import traceback

from .checks import has_no_words, tried
from .program import provide


def shares_of(count):
    """So many ranges of ports, of those that PGROUP_PORTS names."""
    first, last = map(int, os.environ.get("PGROUP_PORTS", "20000-31999").split("-"))
    size = (last - first + 1) // count
    return [f"{first + it * size}-{first + (it + 1) * size - 1}" for it in range(count)]


class Row:
    """Checks that a process does one after the other. What it says is printed once it has ended, so
    that the lines of two rows do not mix."""

    def __init__(self, checks, ports, place):
        self.said = tempfile.TemporaryFile()
        ears, mouth = os.pipe()
        sys.stdout.flush()
        self.process = os.fork()
        if self.process == 0:
            os.close(ears)
            self.play(checks, ports, place, mouth)
        os.close(mouth)
        self.counts = os.fdopen(ears)

    def play(self, checks, ports, place, mouth):
        """What the new process does. It ends here."""
        try:
            os.environ["PGROUP_PORTS"] = ports
            for number in (1, 2):
                os.dup2(self.said.fileno(), number)
            counts = tried(checks, place)
            sys.stdout.flush()
            os.write(mouth, "{} {}".format(*counts).encode())
        except KeyboardInterrupt:
            pass
        except BaseException:  # What comes behind this process's end is not for it.
            traceback.print_exc()
            sys.stderr.flush()
        finally:
            os._exit(0)

    def stop(self):
        """Ends it as Ctrl-C does, so that none of its processes is left."""
        os.kill(self.process, signal.SIGTERM)

    def end(self):
        """Waits for its end. Returns how many checks have passed and failed, or None if it has not
        come to the end of its checks."""
        counts = self.counts.read().split()
        os.waitpid(self.process, 0)
        self.said.seek(0)
        print(self.said.read().decode("utf-8", "replace"), end="", flush=True)
        return tuple(map(int, counts)) if counts else None


def run_rows(name, *rows, place=None):
    """Runs these rows of functions of a folder. Returns the status, as `run_checks` does."""
    for number in (signal.SIGTERM, signal.SIGHUP):
        signal.signal(number, signal.default_int_handler)
    begun, counts = [], []
    try:
        for row, ports in zip(rows, shares_of(len(rows))):
            begun.append(Row(row, ports, place))
        for it in begun:
            counts.append(it.end())
            if counts[-1] is None:
                print("failed: these checks have not come to their end", flush=True)
    except KeyboardInterrupt:
        for it in begun[len(counts) :]:
            it.stop()
        for it in begun[len(counts) :]:
            it.end()
        print(f"{name}: a signal has ended it", file=sys.stderr)
        return 1
    passed, failed = map(sum, zip(*(it or (0, 1) for it in counts)))
    print(f"{name}: {passed} passed, {failed} failed")
    return 1 if failed else 0


def main_of_rows(name, *rows):
    """Runs rows of checks of the script `name` with the program. Returns the status."""
    if not has_no_words(name, " (PGROUP=FILE names the program)"):
        return 2
    provide(name)
    return run_rows(name, *rows)
