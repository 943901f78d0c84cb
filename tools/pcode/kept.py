"""What is kept from one run of a tool to the next, in the user's cache: what Python makes of the
tool's files, and the trees of the compiler's library."""

import os
import sys


def keep_bytecode():
    """Lets Python keep its bytecode in the user's cache, so that no files come into the repository
    and the next run takes half the time. Modules that are loaded by now have a place already."""
    cache = os.environ.get("XDG_CACHE_HOME") or os.path.expanduser("~/.cache")
    if os.path.isabs(cache) and not sys.flags.dont_write_bytecode:
        sys.pycache_prefix = os.path.join(cache, "pgroup")
        sys.dont_write_bytecode = False


def kept_path(path):
    """Where a file is kept that is made of `path`. None if nothing is kept."""
    if sys.dont_write_bytecode or not sys.pycache_prefix:
        return None
    name = os.path.splitdrive(os.path.abspath(path))[1].lstrip(os.sep)
    return f"{os.path.join(sys.pycache_prefix, name)}.{sys.implementation.cache_tag}"


def once(make):
    """A function without parameters, which is called once: afterwards its answer is known. It does
    what functools.cache does, and that one takes a tenth of a small program's time to be loaded."""
    known = []

    def answer():
        if not known:
            known.append(make())
        return known[0]
    return answer
