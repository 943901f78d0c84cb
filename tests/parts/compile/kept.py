"""What the compiler keeps between runs: the library's syntax trees, by the sum of what they are
made of."""

import glob
import os
import shutil
import subprocess
import sys

from ..checks import passed
from ..files import bytes_of
from ..program import must
from .judging import TOOLS, write

TEXT = "PROGRAM T;\nVAR N: INTEGER;\nBEGIN READ(N); WRITELN(N, 'x') END.\n"


def compiled(cache, **more):
    """The code file that a copy of the compiler makes in a process of its own."""
    environment = {**os.environ, "XDG_CACHE_HOME": os.path.abspath(cache), **more}
    if not more:
        environment.pop("PYTHONDONTWRITEBYTECODE", None)
    done = subprocess.run([sys.executable, "tools/compile", "t.pas"], env=environment,
                          capture_output=True, check=False)
    must((done.returncode, done.stderr) == (0, b""), f"t.pas is refused: {done.stderr}")
    return bytes_of("t.code")


def kept_in(cache):
    return glob.glob(os.path.join(cache, "**", "library.trees.*"), recursive=True)


def try_kept():
    """Trees that are kept change no code, and count for the library alone that they are made of."""
    shutil.copytree(TOOLS, "tools")
    write("t.pas", TEXT)
    plain = compiled("none", PYTHONDONTWRITEBYTECODE="1")
    must(not kept_in("none"), "nothing is kept where Python is not to keep anything")
    must(compiled("cache") == plain and len(kept_in("cache")) == 1, "trees are kept")
    kept = kept_in("cache")[0]
    before = os.stat(kept).st_mtime_ns
    must(compiled("cache") == plain and os.stat(kept).st_mtime_ns == before, "they are read")
    path = os.path.join("tools", "compiler", "library", "output.pas")
    text, state = bytes_of(path).decode(), os.stat(path)
    must(text.count("MOD 10") == 1, "the library has another text than this test knows")
    write(path, text.replace("MOD 10", "MOD 11"))
    os.utime(path, ns=(state.st_atime_ns, state.st_mtime_ns))
    changed = compiled("cache")
    must(changed != plain, "a library of another text and the same time makes another program")
    must(changed == compiled("none", PYTHONDONTWRITEBYTECODE="1"), "it is the program of that text")
    for data in (b"", b"x", bytes_of(kept)[:999], bytes_of(kept)[:-9]):
        write(kept, data)
        must(compiled("cache") == changed, f"trees of {len(data)} bytes are passed over")
    passed("the library's trees are kept by the sum of the compiler, and change no code")


TESTS = (try_kept,)
