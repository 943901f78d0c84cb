"""Runs tools/group/supervise in this process, and kills it by SIGKILL as it renews its session,
right after one of the calls at files that are counted: those for the plan of the renewal and its
copies, or those of the `renew` that it calls, which is killed too.

    python3 -B cut.py LEFT plan|renew SUPERVISE WORDS..

LEFT is how many calls there are before; 0 is for no kill."""

import os
import runpy
import signal
import sys
import tempfile
import threading

TESTS = os.path.dirname(os.path.dirname(os.path.dirname(os.path.realpath(__file__))))
sys.path.insert(0, TESTS)
from parts.renew.cut import Cut

# In the place of `renew`: it kills the supervisor that has called it, and itself.
RENEW = """import os, runpy, signal, sys
sys.path.insert(0, {tests!r})
from parts.renew.cut import Cut

class Both(Cut):
    def count(self):
        self.left -= 1
        if self.left == 0:
            os.kill(os.getppid(), signal.SIGKILL)
            os.kill(os.getpid(), signal.SIGKILL)

if "--rehearse" not in sys.argv:
    Both({left}).begin()
sys.argv[0] = {renew!r}
sys.path[0] = os.path.dirname({renew!r})
runpy.run_path({renew!r}, run_name="__main__")
"""


class Within(Cut):
    """Counts the calls that are made within some functions, in this thread."""

    is_within = False

    def count(self):
        if self.is_within and threading.current_thread() is threading.main_thread():
            super().count()

    def within(self, work):
        def done(*words):
            self.is_within = True
            try:
                return work(*words)
            finally:
                self.is_within = False

        return done


def cut_plan(left):
    from shared.renewing import plan
    cut = Within(left)
    cut.begin()
    for name in ("begin", "tell", "end"):
        setattr(plan, name, cut.within(getattr(plan, name)))


def cut_renew(left, folder):
    """`renew` is called as the one beside this folder."""
    from shared.supervising import renewing
    renew = os.path.join(os.path.dirname(renewing.SHARED), "renew")
    with open(os.path.join(folder, "renew"), "w", encoding="utf-8") as file:
        file.write(RENEW.format(tests=TESTS, left=left, renew=renew))
    renewing.SHARED = os.path.join(folder, "shared")


def main():
    left, what, *sys.argv = sys.argv[1:]
    sys.path.insert(0, os.path.dirname(sys.argv[0]))
    with tempfile.TemporaryDirectory(prefix="pgroup-") as folder:
        if what == "plan":
            cut_plan(int(left))
        else:
            cut_renew(int(left), folder)
        runpy.run_path(sys.argv[0], run_name="__main__")


if __name__ == "__main__":
    main()
