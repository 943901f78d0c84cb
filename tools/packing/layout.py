"""What a package has, and where: the program, the scripts, the man pages, the docs, and a unit of
systemd. All links are relative, so the files may stand below any folder."""

import glob
import gzip
import os
import re
import shutil
import stat
import subprocess

from . import book, manual

TOP = manual.TOP
# Where what is no program of its own stands. The folder has the repository's layout, so that the
# scripts find each other and the program, which is its `run`.
LIBRARY = "lib/pgroup"
SCRIPTS = [*manual.SCRIPTS, "console"]
# The tools for programs: what is called, and the folders that they need.
COMPILERS = ("assemble", "compile", "files", "freeze", "translate", "volume")
COMPILER_FILES = ("assembler/**/*", "compiler/**/*", "freezer/**/*", "pcode/**/*",
                  "translator/**/*", "volumes/**/*")
UNITS = ("pgroup@.service", "pgroup-page@.service")
# The pages and pictures, with all pages that they link to. Their other links, to sources, tests and
# scripts, lead into the repository alone.
PAGES = (
    "README.md", "CHANGELOG.md", "docs/*.md", "docs/reference/*.md", "docs/pictures/*",
    "bench/RESULTS.md",
    "tests/cases/README.md",
)
# The examples that need nothing else of the repository.
EXAMPLES = (
    "*.code", "*.pas", "*.lst", "README.md", "assembly/*", "terminal/*", "old/*",
    "group/*.script",
)


def version_of(top=TOP):
    """The newest version of CHANGELOG.md, and its date."""
    with open(os.path.join(top, "CHANGELOG.md"), encoding="utf-8") as file:
        found = re.search(r"^## (\d+\.\d+\.\d+) \((\d{4}-\d\d-\d\d)\)$", file.read(), re.M)
    return found[1], found[2]


def lines_of_version(program):
    """What ./run --version prints of a program: its version, its kit and its sources."""
    script = '. "$1/tools/bash/sources.bash"; "$0" --version && made_of "$0" "$1"'
    command = ["bash", "-c", script, program, TOP]
    return subprocess.run(command, check=True, stdout=subprocess.PIPE).stdout


class Tree:
    """A folder that is filled, as `usr` of a package."""

    def __init__(self, folder):
        self.folder = folder

    def path(self, name):
        path = os.path.join(self.folder, name)
        os.makedirs(os.path.dirname(path), exist_ok=True)
        return path

    def copy(self, source, name):
        """Copies a file. It may be run by all where its source may be."""
        path = shutil.copyfile(source, self.path(name))
        is_run = os.stat(source).st_mode & stat.S_IXUSR
        os.chmod(path, 0o755 if is_run else 0o644)

    def write(self, name, data):
        with open(self.path(name), "wb") as file:
            file.write(data)
        os.chmod(file.name, 0o644)

    def link(self, name, target):
        """A link that leads to another file of the tree."""
        path = self.path(name)
        os.symlink(os.path.relpath(os.path.join(self.folder, target), os.path.dirname(path)), path)


def put_scripts(tree):
    for name in manual.SCRIPTS:
        tree.copy(os.path.join(manual.GROUP, name), f"{LIBRARY}/tools/group/{name}")
    shared = os.path.join(manual.GROUP, "shared", "**")
    found = glob.glob(f"{shared}/*.py", recursive=True) + glob.glob(f"{shared}/static/*")
    for path in sorted(set(found)):
        tree.copy(path, f"{LIBRARY}/tools/{os.path.relpath(path, manual.TOOLS)}")
    for name in ("tools/console", "tools/bash/provide.bash"):
        tree.copy(os.path.join(TOP, name), f"{LIBRARY}/{name}")
    tree.link(f"{LIBRARY}/run", f"{LIBRARY}/pgroup")
    for name in SCRIPTS:
        where = "tools/console" if name == "console" else f"tools/group/{name}"
        tree.link(f"bin/pgroup-{name}", f"{LIBRARY}/{where}")


def put_compilers(tree):
    for name in COMPILERS:
        tree.copy(os.path.join(manual.TOOLS, name), f"{LIBRARY}/tools/{name}")
        tree.link(f"bin/pgroup-{name}", f"{LIBRARY}/tools/{name}")
    for pattern in COMPILER_FILES:
        for path in sorted(glob.glob(os.path.join(manual.TOOLS, pattern), recursive=True)):
            if os.path.splitext(path)[1] in (".py", ".pas", ".inc"):
                tree.copy(path, f"{LIBRARY}/tools/{os.path.relpath(path, manual.TOOLS)}")


def put_docs(tree):
    for path in sorted(glob.glob(os.path.join(TOP, "docs", "man", "*.1"))):
        with open(path, "rb") as file:
            packed = gzip.compress(file.read(), mtime=0)
        tree.write(f"share/man/man1/{os.path.basename(path)}.gz", packed)
    for pattern in (*PAGES, *(f"examples/{it}" for it in EXAMPLES)):
        for path in sorted(glob.glob(os.path.join(TOP, pattern))):
            tree.copy(path, f"share/doc/pgroup/{os.path.relpath(path, TOP)}")


def put_all(folder, program):
    """Fills a folder as `usr`."""
    tree = Tree(folder)
    tree.copy(program, f"{LIBRARY}/pgroup")
    tree.copy(os.path.join(os.path.dirname(os.path.realpath(__file__)), "pgroup"), "bin/pgroup")
    put_scripts(tree)
    put_compilers(tree)
    put_docs(tree)
    if book.is_possible():
        book.make(tree.path("share/doc/pgroup/html"))
    tree.write("share/doc/pgroup/version", lines_of_version(program))
    for unit in UNITS:
        tree.copy(os.path.join(manual.GROUP, unit), f"lib/systemd/system/{unit}")


def settle(folder, seconds):
    """Gives all folders the same rights, and all that is in the folder the same time."""
    for at, folders, names in os.walk(folder):
        os.chmod(at, 0o755)
        for name in folders + names:
            os.utime(os.path.join(at, name), (seconds, seconds), follow_symlinks=False)
    os.utime(folder, (seconds, seconds))
