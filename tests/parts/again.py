"""Runs the built program many times, each run in a process of its own: for tests/memory and
tests/damage. tests/limits, tests/disk and tests/power share its helpers.

If there is a C compiler, tests/parts/again.c loads the program once and forks for each run. This
takes half the time, and can refuse requests for memory. Otherwise each run starts the program
anew."""

import collections
import os
import shutil
import signal
import subprocess
import tempfile

from .checks import main_of_checks
from .program import PROGRAM, SECONDS, TESTS, Broken, end_on_signals

# The descriptors of tests/parts/again.c.
RUNS, ANSWERS = 198, 199
# How much of an output is read.
MOST = 1 << 24
# A number that no request of a run has.
NEVER = 1 << 60

# The status is below 0 where a signal ended the run.
Ran = collections.namedtuple("Ran", "status stdout stderr has_refused")


def place_of_folders():
    """Returns the folder in which folders of tests stand, or None for the system's own. It is in
    memory if possible: files are written there many times, and each save of a record is synced."""
    return "/dev/shm" if os.access("/dev/shm", os.W_OK) else None


def folder():
    """Returns a folder that goes away with the script, also if a signal ends it."""
    end_on_signals()
    return tempfile.TemporaryDirectory(prefix="pgroup-", dir=place_of_folders())


def compiled(room, name="again"):
    """Compiles a library of tests/parts. Returns its path, or None if there is no C compiler."""
    compiler = shutil.which("cc") or shutil.which("gcc")
    if not compiler:
        return None
    library = os.path.join(room, os.path.basename(name) + ".so")
    source = os.path.join(TESTS, "parts", name + ".c")
    subprocess.run(
        [compiler, "-shared", "-fPIC", "-O1", "-Wall", "-o", library, source], check=True
    )
    return library


class Files:
    """The standard streams of runs, as files that each run finds as if they were new."""

    def __init__(self, room):
        create = os.O_RDWR | os.O_CREAT | os.O_APPEND
        self.handles = []
        for name in ("stdin", "stdout", "stderr"):
            handle, path = tempfile.mkstemp(prefix=name, dir=room)
            os.close(handle)
            self.handles.append(os.open(path, create))
        self.input = b""

    def set_input(self, data):
        if data != self.input:
            os.ftruncate(self.handles[0], 0)
            os.write(self.handles[0], data)
            self.input = data

    def take(self):
        """Returns what was written on standard output and standard error, and empties both."""
        texts = []
        for handle in self.handles[1:]:
            texts.append(os.pread(handle, MOST, 0))
            if texts[-1]:
                os.ftruncate(handle, 0)
        return texts

    def ran(self, words, seconds, status, has_refused):
        """What a run has come to. SIGALRM ends one that takes too long."""
        said = self.take()
        if status == -signal.SIGALRM:
            raise Broken(f"it has not ended in {seconds} seconds: {str(words)[:300]}")
        return Ran(status, *said, has_refused)

    def actions(self):
        return [(os.POSIX_SPAWN_DUP2, handle, number) for number, handle in enumerate(self.handles)]


class Plain:
    """Starts the program for each run. It refuses nothing."""

    def __init__(self, room):
        self.files = Files(room)

    def run(self, words, stdin=b"", first=0, last=0, seconds=SECONDS):
        assert first == last == 0
        self.files.set_input(stdin)
        os.lseek(self.files.handles[0], 0, os.SEEK_SET)
        streams = dict(zip(("stdin", "stdout", "stderr"), self.files.handles))
        status = subprocess.call([PROGRAM, *words], preexec_fn=lambda: signal.alarm(seconds),
                                 **streams)
        return self.files.ran(words, seconds, status, False)

    def end(self):
        pass


class Again:
    """Loads the program once for each number of words."""

    def __init__(self, room, library):
        self.room, self.library = room, library
        self.servers, self.runs = {}, 0

    def server(self, count):
        """Returns the process for runs with `count` words, its streams, and the pipes to it and
        from it."""
        if count not in self.servers:
            files = Files(self.room)
            runs, to = os.pipe()
            back, answers = os.pipe()
            more = [(os.POSIX_SPAWN_DUP2, runs, RUNS), (os.POSIX_SPAWN_DUP2, answers, ANSWERS)]
            child = os.posix_spawn(
                PROGRAM, [PROGRAM] + [""] * count, {**os.environ, "LD_PRELOAD": self.library},
                file_actions=files.actions() + more,
            )
            os.close(runs)
            os.close(answers)
            self.servers[count] = child, files, to, back
        return self.servers[count]

    def run(self, words, stdin=b"", first=0, last=0, seconds=SECONDS):
        """Runs the program. Its requests for memory from `first` to `last`, counted from 1 on, are
        refused."""
        _, files, to, back = self.server(len(words))
        files.set_input(stdin)
        self.runs += 1
        head = b"%d %d %d %d" % (self.runs, seconds, first, last)
        os.write(to, b"\0".join([head, *map(os.fsencode, words), b""]))
        answer = os.read(back, 64).split()
        if len(answer) != 3 or int(answer[0]) != self.runs:
            raise Broken("the library of tests/parts/again.c has ended, or answers another run")
        return files.ran(words, seconds, int(answer[1]), answer[2] == b"1")

    def end(self):
        for child, files, to, back in self.servers.values():
            for handle in (to, back, *files.handles):
                os.close(handle)
            os.waitpid(child, 0)
        self.servers = {}


def main_of(name, *checks):
    """Runs the checks of the script `name`. Returns the status."""
    return main_of_checks(name, *checks, place=place_of_folders())
