"""The archives: a Debian package, by dpkg-deb alone, and a tarball. The same files make the same
bytes."""

import calendar
import gzip
import hashlib
import os
import subprocess
import tarfile
import time

from . import layout

HERE = os.path.dirname(os.path.realpath(__file__))
CONTROL = """Package: pgroup
Version: {version}
Section: interpreters
Priority: optional
Architecture: amd64
Depends: libc6 (>= 2.34), python3 (>= 3.8), passwd
Installed-Size: {size}
Maintainer: The maintainers of pgroup <pgroup@localhost>
Description: UCSD Pascal II.0 p-code programs, alone or in a group of nodes
 pgroup runs one p-code program at 1, 3, 5, 7 or 9 nodes at once, so that its
 console goes on at the others when a minority is lost. Multi-Paxos decides the
 order of the typed keys. It is proved that no two consoles contradict each
 other. Scripts keep nodes running, find a leader, make a terminal a session,
 and let a session go on in a new one.
"""


def seconds_of(date):
    """The begin of a day of CHANGELOG, which is the time of all files."""
    return calendar.timegm(time.strptime(date, "%Y-%m-%d"))


def size_of(folder):
    """What the files of a folder take, in kB."""
    files = [os.path.join(at, name) for at, _, names in os.walk(folder) for name in names]
    return sum(os.lstat(it).st_size for it in files) // 1024 + 1


def sums_of(folder):
    """The lines of DEBIAN/md5sums, by which a system finds files that were changed."""
    lines = []
    for at, _, names in os.walk(os.path.join(folder, "usr")):
        for path in (os.path.join(at, it) for it in names):
            if not os.path.islink(path):
                with open(path, "rb") as file:
                    digest = hashlib.md5(file.read()).hexdigest()
                lines.append(f"{digest}  {os.path.relpath(path, folder)}\n")
    return "".join(sorted(lines, key=lambda it: it[34:]))


def debian_package(room, program, version, date, out):
    """Makes the Debian package in the folder `out`. Returns its path."""
    tree, seconds = os.path.join(room, "debian"), seconds_of(date)
    layout.put_all(os.path.join(tree, "usr"), program)
    os.makedirs(os.path.join(tree, "etc", "pgroup"))
    control = os.path.join(tree, "DEBIAN")
    os.mkdir(control)
    text = CONTROL.format(version=version, size=size_of(tree))
    layout.Tree(control).write("md5sums", sums_of(tree).encode())
    layout.Tree(control).write("control", text.encode())
    for name in ("postinst", "prerm", "postrm"):
        layout.Tree(control).copy(os.path.join(HERE, "debian", name), name)
    layout.settle(tree, seconds)
    path = os.path.join(out, f"pgroup_{version}_amd64.deb")
    command = ["dpkg-deb", "--root-owner-group", "--build", tree, path]
    env = {**os.environ, "SOURCE_DATE_EPOCH": str(seconds)}
    subprocess.run(command, check=True, env=env, stdout=subprocess.DEVNULL)
    return path


def as_root(member):
    member.uid = member.gid = 0
    member.uname = member.gname = "root"
    return member


def tarball(room, program, version, date, out):
    """Makes the tarball in the folder `out`. Returns its path."""
    name, seconds = f"pgroup-{version}", seconds_of(date)
    tree = os.path.join(room, name)
    layout.put_all(tree, program)
    layout.settle(tree, seconds)
    path = os.path.join(out, f"{name}-x86_64.tar.gz")
    with open(path, "wb") as file, gzip.GzipFile("", "wb", 9, file, mtime=seconds) as packed:
        with tarfile.open(fileobj=packed, mode="w", format=tarfile.GNU_FORMAT) as archive:
            archive.add(tree, name, filter=as_root)
    return path
