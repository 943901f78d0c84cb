"""Runs tools/group/supervise in this process. SIGTERM comes while Python frees an object, as it may
with a thread that has ended: what would be raised then is passed over.

    python3 -B freed.py SUPERVISE WORDS.."""

import os
import runpy
import signal
import sys

del sys.argv[0]
sys.path.insert(0, os.path.dirname(sys.argv[0]))
from shared.supervising.shown import Shown

LOOK = Shown.look


class Freed:
    def __del__(self):
        signal.raise_signal(signal.SIGTERM)
        for _ in range(100):
            pass  # Here at the latest Python does what is to be done by a signal.


def look(self):
    Shown.look = LOOK
    Freed()
    self.look()


Shown.look = look
runpy.run_path(sys.argv[0], run_name="__main__")
