"""Runs of the scripts of tools/group, for the tests of them."""

import os
import subprocess

from .checks import expect
from .program import SCRIPTS, ran

FULL = "No space left on device"


def path_of(script):
    return os.path.join(SCRIPTS, script)


def run(script, *words, **given):
    """Runs a script to its end, which has to come within a minute. `given` is for Popen."""
    return ran([path_of(script), *map(str, words)], stdin=subprocess.DEVNULL, **given)


def expect_unwritten(folder, script, option, *words):
    """Checks what a script says where it cannot write the file that this option names, and where
    standard output is full."""
    missing = os.path.join(folder, "missing", "file")
    for path, why in ((missing, "No such file or directory"), ("/dev/full", FULL)):
        done = run(script, *words, option, path)
        wanted = (1, f"{script}: {path}: {why}\n")
        expect(f"{option}: {why}", (done.returncode, done.stderr.decode()) == wanted, done)
    # Where nothing is said of it Python writes what is left as the script ends.
    env = {name: it for name, it in os.environ.items() if name != "PYTHONUNBUFFERED"}
    with open("/dev/full", "wb") as full:
        done = run(script, *words, stdout=full, env=env)
    wanted = (1, f"{script}: standard output: {FULL}\n")
    expect("a full standard output", (done.returncode, done.stderr.decode()) == wanted, done)


def expect_end(what, done, status, text=""):
    """Checks that the script has ended with this status, and said this on standard error, and no
    trace of Python."""
    said = done.stderr.decode()
    is_so = done.returncode == status and text in said and "Traceback" not in said
    expect(what, is_so, done.returncode, said)


def session_of(path, more=""):
    """Returns the session that `cksum` gives for a file with these lines behind it."""
    command = f'{{ cat "$1"; printf "$2"; }} | cksum'
    words = ["bash", "-c", command, "bash", path, more]
    return int(subprocess.run(words, check=True, capture_output=True).stdout.split()[0])
