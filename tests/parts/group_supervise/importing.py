"""Runs tools/group/supervise in this process. Two signals come while it still imports its modules.

    python3 -B importing.py SUPERVISE WORDS.."""

import os
import runpy
import signal
import sys

del sys.argv[0]
sys.path.insert(0, os.path.dirname(sys.argv[0]))


class Signals:
    """What Python asks where a module is found. It knows of none."""

    @staticmethod
    def find_spec(name, *_):
        if name == "shared.record":
            signal.raise_signal(signal.SIGINT)  # It may have no meaning here.
            signal.raise_signal(signal.SIGTERM)


sys.meta_path.insert(0, Signals)
runpy.run_path(sys.argv[0], run_name="__main__")
