"""Scripts in Python that are run many times. The first case of `Forks` starts the script. For the
others a Python loads what the script imports, and each case runs the script in a fork of it
(`forking.py`), which takes a tenth of the time. Its words and streams are those of the case; the
user, the environment and the folder are those of all cases.

Python's own start, the first line of the script and its mode are tried by a case that starts it. A
script of another language, one at a terminal, and one that is found by its name have to be started.
"""

import array
import contextlib
import os
import select
import signal
import socket
import subprocess
import time

from .program import Broken

FORKING = os.path.join(os.path.dirname(os.path.realpath(__file__)), "forking.py")
PIPE, STDOUT = subprocess.PIPE, subprocess.STDOUT


def read_all(pipes, end):
    """What comes from these pipes until nobody has their other ends, which has to be before the
    time `end`."""
    data, left = {it: b"" for it in pipes}, set(pipes)
    while left:
        ready = select.select(list(left), [], [], max(0, end - time.monotonic()))[0]
        if not ready:
            raise TimeoutError
        for it in ready:
            more = it.read(65536)
            data[it] += more
            if not more:
                left.remove(it)
    return data


class Forks:
    """A script, and the cases of it. The Python that is forked ends with the process that has
    this."""

    def __init__(self, path, user=None, env=None, cwd=None, starts=1):
        """So many cases start the script. A user has no other groups; None is the one who runs
        this."""
        self.path, self.given, self.starts = path, {"env": env, "cwd": cwd}, starts
        self.around = []
        if user is not None:
            self.around = ["setpriv", f"--reuid={user}", f"--regid={user}", "--clear-groups"]
        self.asked = self.process = self.case = None

    def run(self, words, seconds=60, stdout=PIPE, stderr=PIPE):
        """Runs a case without input to its end, which has to come within these seconds. Returns
        what `subprocess.run` does, which takes the same streams. None is one that is closed."""
        is_first, self.starts = self.starts > 0, self.starts - 1
        do = self.start if is_first else self.fork
        try:
            return do(list(words), seconds, stdout, stderr)
        except (TimeoutError, socket.timeout, subprocess.TimeoutExpired):
            raise Broken(f"it has not ended in {seconds} seconds: {self.path} {words}")

    def start(self, words, seconds, stdout, stderr):
        command = [self.path, *words]
        if stdout is None:
            command = ["bash", "-c", 'exec "$@" >&-', "bash", *command]
        return subprocess.run([*self.around, *command], check=False, stdin=subprocess.DEVNULL,
                              stdout=stdout, stderr=stderr, timeout=seconds, **self.given)

    def fork(self, words, seconds, stdout, stderr):
        with contextlib.ExitStack() as files:
            mouths, ears = [], {}
            for name, it in (("stdout", stdout), ("stderr", stderr)):
                if it == PIPE:
                    pipe = os.pipe()
                    ears[name] = files.enter_context(open(pipe[0], "rb", 0))
                    it = files.enter_context(open(pipe[1], "wb", 0))
                mouths.append(mouths[0] if it == STDOUT else it)
            none = files.enter_context(open(os.devnull, "rb"))
            with self.dropped_on_fault():
                self.begin(words, none, *mouths)
                for it in mouths:
                    if it not in (stdout, stderr):
                        it.close()
                said = read_all(ears.values(), time.monotonic() + seconds)
                status = self.heard("ended", seconds)
        said = {name: said[it] for name, it in ears.items()}
        return subprocess.CompletedProcess(words, status, **said)

    @contextlib.contextmanager
    def dropped_on_fault(self):
        """After a case that does not end, or that nobody waits for any more, the next one gets
        another Python: nothing is left that could be taken for an answer of that one."""
        try:
            yield
        except BaseException:
            self.drop()
            raise

    def load(self):
        asked, its = socket.socketpair(socket.AF_UNIX, socket.SOCK_SEQPACKET)
        with its:
            command = [*self.around, "/usr/bin/env", "python3", FORKING, self.path]
            self.process = subprocess.Popen(command, stdin=its, stdout=subprocess.DEVNULL,
                                            **self.given)
        self.asked = asked

    def begin(self, words, *streams):
        """Begins a case with these files as its streams."""
        if self.asked is None:
            self.load()
        files = {it: file for it, file in enumerate(streams) if file}
        data = "".join(map(str, files)).encode()
        data += b"".join(b"\0" + os.fsencode(it) for it in words)
        rights = array.array("i", [it.fileno() for it in files.values()])
        with contextlib.suppress(ConnectionError):
            self.asked.sendmsg([data], [(socket.SOL_SOCKET, socket.SCM_RIGHTS, rights)])
        self.case = None
        self.case = self.heard("begun", 60)

    def heard(self, what, seconds):
        """The number that it answers behind this word."""
        self.asked.settimeout(seconds)
        with contextlib.suppress(ConnectionError):
            word, _, number = self.asked.recv(64).decode().partition(" ")
            if word == what:
                return int(number)
        raise Broken(f"{self.path} cannot be loaded, or not be forked")

    def drop(self):
        """Ends the Python that is forked, and its case. That Python waits for the end of the case,
        and keeps its number until the next one, so that no other process gets the signal."""
        if self.asked is None or self.process.poll() is not None:
            pass
        elif self.case is None:
            self.process.kill()
        else:
            os.kill(self.case, signal.SIGKILL)
        self.close()

    def close(self):
        if self.asked:
            with contextlib.suppress(OSError):
                self.asked.shutdown(socket.SHUT_WR)
            self.process.wait()
            self.asked.close()
            self.asked = self.process = self.case = None
