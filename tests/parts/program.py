"""The program that is tried, and how it is run. PGROUP=FILE names it; else ./run provides it."""

import os
import resource
import signal
import subprocess
import sys

TESTS = os.path.dirname(os.path.dirname(os.path.realpath(__file__)))
TOP = os.path.dirname(TESTS)
SCRIPTS = os.path.join(TOP, "tools", "group")
BUILT = os.path.join(TOP, "crates", "pgroup", "out", "pgroup")
PROGRAM = os.path.realpath(os.environ.get("PGROUP") or BUILT)
# How long a run may take, in seconds.
SECONDS = 60


class Broken(AssertionError):
    """Something does not hold."""


def must(holds, what):
    """Raises Broken with the text `what` unless `holds` is true."""
    if not holds:
        raise Broken(what)


def provide(name):
    """Ends the script `name` with status 2 if the program is missing. It is the one that PGROUP
    names, or else the one that ./run provides."""
    if not os.environ.get("PGROUP"):
        words = [os.path.join(TOP, "run"), "--help"]
        if subprocess.run(words, check=False, stdout=subprocess.DEVNULL).returncode != 0:
            sys.exit(2)
    if not os.access(PROGRAM, os.X_OK):
        print(f"{name}: there is no program {PROGRAM}", file=sys.stderr)
        sys.exit(2)


def is_help():
    """Whether the script was called with --help. What it says of itself is printed then."""
    is_asked = sys.argv[1:] in (["--help"], ["-h"])
    if is_asked:
        print(sys.modules["__main__"].__doc__.strip())
    return is_asked


def end_on_signals():
    """Lets SIGTERM and SIGHUP end the script as an exception does, so that no process is left."""
    for number in (signal.SIGTERM, signal.SIGHUP):
        signal.signal(number, lambda *_: sys.exit(1))


def system(*words):
    """Runs a command of the system. Raises Broken with what it said if it fails."""
    done = subprocess.run(
        words, check=False, stdin=subprocess.DEVNULL, capture_output=True, text=True
    )
    if done.returncode != 0:
        raise Broken(f"{' '.join(words)}: {done.stderr.strip() or done.stdout.strip()}")


def limited(memory):
    """What a process does before it runs a command, which may have so many KiB of addresses."""
    size = 1024 * memory
    return lambda: resource.setrlimit(resource.RLIMIT_AS, (size, size))


def ran(command, stdin=b"", memory=None, seconds=SECONDS, **given):
    """Runs a command to its end, which has to come within these seconds. `stdin` is its input as
    bytes, or an open file; `memory` is how many KiB of addresses it may have, and `given` is for
    Popen."""
    given = {"stdout": subprocess.PIPE, "stderr": subprocess.PIPE, **given}
    given["input" if isinstance(stdin, bytes) else "stdin"] = stdin
    if memory:
        given["preexec_fn"] = limited(memory)
    try:
        return subprocess.run(command, check=False, timeout=seconds, **given)
    except subprocess.TimeoutExpired:
        raise Broken(f"it has not ended in {seconds} seconds: {str(command)[:300]}")


def run(*words, **given):
    """Runs the program with these words, and what else `ran` takes."""
    return ran([PROGRAM, *words], **given)
