"""Checks by Python's unittest. A line is printed for each, with its name, and a last one with how
many have passed and failed.

A test is a method of a class of `Checks`, or a function, whose folder stays where it fails. A test
may have many checks: those of `expect`, of which the first that fails ends it, and those of
`Checks.check`, after which it goes on. One without any is a check itself."""

import contextlib
import functools
import os
import random
import shutil
import signal
import socket
import subprocess
import sys
import tempfile
import traceback
import unittest

from .program import Broken, is_help, provide

TIMEOUTS = TimeoutError, socket.timeout, subprocess.TimeoutExpired
# The names of the checks that have passed.
NOTED = []


def passed(what):
    NOTED.append(what)
    print(f"ok: {what}", flush=True)


def expect(what, holds, *known):
    """Checks that `holds` is true. `known` is printed if it is not, and the test ends."""
    if not holds:
        raise Broken("\n".join([what, *map(str, known)]))
    passed(what)


@contextlib.contextmanager
def own_folder(place=None):
    """A folder, in the folder `place` if it is given. It stays where something does not hold."""
    folder = tempfile.mkdtemp(prefix="pgroup-", dir=place)
    stays = False
    try:
        yield folder
    except unittest.SkipTest:
        raise
    except Exception:
        stays = True
        print(f"the files of what fails now are in {folder}")
        raise
    finally:
        if not stays:
            shutil.rmtree(folder, ignore_errors=True)


class Checks(unittest.TestCase):
    """Tests with a folder each, `room`, which goes away after the test."""

    def setUp(self):
        self.room = tempfile.mkdtemp(prefix="pgroup-")
        self.addCleanup(shutil.rmtree, self.room, ignore_errors=True)

    def run(self, result=None):
        try:
            return super().run(result)
        except KeyboardInterrupt:  # After it unittest leaves all as it is.
            self.doCleanups()
            raise

    def check(self, name):
        """A check, which the statements under it make. The test goes on after it."""
        return self.subTest(check=name)


def name_of(test):
    return test.id().rpartition(".")[2]


def tell(name, error):
    """Prints what has failed: where it is no check, with the calls that led there."""
    kind, fault, _ = error
    is_check = issubclass(kind, AssertionError)
    text = str(fault) if is_check else "".join(traceback.format_exception(*error))
    if issubclass(kind, TIMEOUTS):
        text = f"a limit of time: {fault}\n{text}"
    print(f"failed: {name}: {text}", flush=True)


class Result(unittest.TestResult):
    """Prints a line for each check as it ends."""

    def startTest(self, test):
        super().startTest(test)
        self.before = len(NOTED) + self.failed()

    def failed(self):
        return len(self.failures) + len(self.errors)

    def addSubTest(self, test, subtest, error):
        super().addSubTest(test, subtest, error)
        name = subtest.params["check"]
        if error is None:
            passed(name)
        else:
            tell(name, error)

    def addSuccess(self, test):
        super().addSuccess(test)
        if len(NOTED) + self.failed() == self.before:
            passed(name_of(test))

    def addFailure(self, test, error):
        super().addFailure(test, error)
        tell(name_of(test), error)

    def addError(self, test, error):
        super().addError(test, error)
        tell(name_of(test), error)

    def addSkip(self, test, reason):
        super().addSkip(test, reason)
        print(f"not tried: {name_of(test)}: {reason}", flush=True)


def in_its_folder(test, *words):
    """The test as a function of a folder, which is the current one meanwhile."""
    @functools.wraps(test)
    def do(folder):
        os.chdir(folder)
        try:
            test(*words)
        finally:
            os.chdir("/")

    return do


def test_of(check, place):
    """The unittest of a function of a folder."""
    @functools.wraps(getattr(check, "func", check))  # It may be a partial function.
    def test():
        with own_folder(place) as folder:
            check(folder)

    return unittest.FunctionTestCase(test)


def tried(checks, place=None):
    """Runs these functions, or if there are none the tests of the classes of the file that was
    started. Returns how many checks have passed and failed. SIGTERM and SIGHUP end it as Ctrl-C
    does, so that no process is left: unittest would take SystemExit for a fault of one test, and go
    on."""
    for number in (signal.SIGTERM, signal.SIGHUP):
        signal.signal(number, signal.default_int_handler)
    before = len(NOTED)
    suite = unittest.TestSuite(test_of(it, place) for it in checks)
    if not checks:
        suite = unittest.defaultTestLoader.loadTestsFromModule(sys.modules["__main__"])
    result = Result()
    suite.run(result)
    return len(NOTED) - before, result.failed()


def run_checks(name, *checks, place=None):
    """Runs these functions, or the tests of the file `name`, as `tried` does. Returns the
    status."""
    try:
        passed_ones, failed = tried(checks, place)
    except KeyboardInterrupt:
        print(f"{name}: a signal has ended it", file=sys.stderr)
        return 1
    print(f"{name}: {passed_ones} passed, {failed} failed")
    return 1 if failed else 0


def has_no_words(name, more=""):
    """Returns true if the script `name` was called without words, and else says how to call it.
    With --help it prints what the script says of itself, and ends."""
    if is_help():
        sys.exit(0)
    if len(sys.argv) > 1:
        print(f"usage: {name}{more}", file=sys.stderr)
    return len(sys.argv) == 1


def main_of_checks(name, *checks, place=None):
    """Runs the checks of the script `name` with the program. Returns the status."""
    if not has_no_words(name, " (PGROUP=FILE names the program)"):
        return 2
    provide(name)
    return run_checks(name, *checks, place=place)


def seed_of(given):
    """Returns the seed that was given, or a random one, and prints it."""
    seed = random.SystemRandom().randrange(1 << 32) if given is None else given
    print(f"seed {seed}", flush=True)
    return seed


def main_with_seed(name, parser, test, check=lambda words: None):
    """Runs the test of the script `name` with the words that `parser` reads, and that `check` does
    not refuse, and a seed. Returns the status."""
    parser.add_argument("--seed", metavar="N", type=int)
    words = parser.parse_args()
    check(words)
    words.seed = seed_of(words.seed)
    provide(name)
    return run_checks(name, functools.partial(test, words=words))
