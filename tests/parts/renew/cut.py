"""Runs tools/group/renew in a process of its own, as a copy of this one, which takes less time than
a new Python; and kills it by SIGKILL right after one of its calls at files. For tests/renew."""

import os
import runpy
import signal
import subprocess
import sys
import tempfile
import traceback

from ..scripts import path_of


class Cut:
    """The calls that are counted: those that make, write, sync, link, rename or remove a file. A
    write counts twice, as it is cut in the middle and then goes on. After the last that is left
    this process is killed."""

    def __init__(self, left):
        self.left = left

    def count(self):
        self.left -= 1
        if self.left == 0:
            os.kill(os.getpid(), signal.SIGKILL)

    def counted(self, call, is_counted=lambda words: True):
        def made(*words, **more):
            result = call(*words, **more)
            if is_counted(words):
                self.count()
            return result

        return made

    def write(self, file, data, write=os.write):
        done = write(file, data[: len(data) // 2])
        self.count()
        done += write(file, data[done:])
        self.count()
        return done

    def begin(self):
        for name in ("link", "rename", "unlink", "fchmod", "fchown", "fsync"):
            setattr(os, name, self.counted(getattr(os, name)))
        os.open = self.counted(os.open, lambda words: words[1] & os.O_CREAT)
        os.write = self.write


def perform(words, left, files):
    """The process of `renew`: these files are its standard input, output and error. It is not left
    before its end."""
    status = 1
    try:
        for number, file in enumerate(files):
            os.dup2(file.fileno(), number)
        # What Python holds of its own standard input was read elsewhere.
        sys.stdin = open(0, encoding="utf-8", closefd=False)
        sys.argv = [path_of("renew"), *map(str, words)]
        Cut(left).begin()
        runpy.run_path(sys.argv[0], run_name="__main__")
    except SystemExit as end:
        status = end.code
    except BaseException:
        traceback.print_exc()
    finally:
        sys.stdout.flush()
        sys.stderr.flush()
        os._exit(status)


def renew_cut(left, *words):
    """Runs `renew` with these words, and kills it after so many calls; it ends by itself where it
    makes fewer, and where `left` is 0. Nobody answers what it asks. Returns how it has ended, and
    what it has said, as subprocess.run does."""
    with tempfile.TemporaryFile() as output, tempfile.TemporaryFile() as errors:
        with open(os.devnull, "rb") as nobody:
            sys.stdout.flush()
            pid = os.fork()
            if pid == 0:
                perform(words, left, (nobody, output, errors))
            status = os.waitpid(pid, 0)[1]
        said = []
        for file in (output, errors):
            file.seek(0)
            said.append(file.read())
    code = -os.WTERMSIG(status) if os.WIFSIGNALED(status) else os.WEXITSTATUS(status)
    return subprocess.CompletedProcess(words, code, *said)
