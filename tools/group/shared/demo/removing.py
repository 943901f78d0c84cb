"""Removes what a demo has made once the demo has ended, whatever has ended it: also kill -9.

    removing.py FOLDER

It waits until its standard input ends, which the demo holds open. A line `pid N` of it names a
process that is to end, and `pane N` a pane of tmux. Then it ends them, and removes the folder."""

import contextlib
import os
import shutil
import signal
import subprocess
import sys
import time

# How long the processes have to end by SIGTERM, in seconds.
PATIENCE = 5.0


def is_running(pid):
    try:
        with open(f"/proc/{pid}/stat", encoding="ascii", errors="replace") as stat:
            return stat.read().rpartition(")")[2].split()[0] not in "ZX"
    except OSError:
        return False


def end(pids):
    for number in (signal.SIGTERM, signal.SIGKILL):
        for pid in filter(is_running, pids):
            with contextlib.suppress(OSError):
                os.kill(pid, number)
        until = time.monotonic() + PATIENCE
        while any(map(is_running, pids)) and time.monotonic() < until:
            time.sleep(0.02)


def main(folder):
    named = [line.split() for line in sys.stdin]
    for kind, name in named:
        if kind == "pane":
            command = ["tmux", "kill-pane", "-t", name]
            subprocess.run(command, check=False, capture_output=True)
    end([int(name) for kind, name in named if kind == "pid"])
    shutil.rmtree(folder, ignore_errors=True)


if __name__ == "__main__":
    main(sys.argv[1])
