"""A copy of this repository, in which ./run takes the program that is tried."""

import hashlib
import os
import shutil
import subprocess

from parts.files import bytes_of, file_with
from parts.program import PROGRAM, TOP


def note_of(tree):
    """Returns the note by which ./run of this tree takes the program as one of its sources."""
    script = f'. "{tree}/tools/bash/sources.bash"; sum_of_sources "{tree}"'
    done = subprocess.run(["bash", "-c", script], check=True, capture_output=True)
    program = hashlib.sha256(bytes_of(PROGRAM)).hexdigest()
    return f"sources {done.stdout.decode().strip()}\nkit none\nprogram {program}\nfrom a test\n"


def tree_in(folder):
    """Makes a copy of this repository with the program where ./run has it. Returns its path."""
    tree = os.path.join(folder, "tree")
    shutil.copytree(TOP, tree, ignore=shutil.ignore_patterns(".git", "out"))
    out = os.path.join(tree, "crates", "pgroup", "out")
    os.makedirs(out)
    os.chmod(shutil.copy(PROGRAM, os.path.join(out, "pgroup")), 0o755)
    file_with(out, "pgroup.sources", note_of(tree).encode())
    return tree
