"""Records that cannot be loaded or saved, for tests/group_supervise: what a supervisor finds out
where its node has ended by D2."""

import os
import subprocess

from shared.locks import holder_of, path_of
from shared.supervising.unsaved import why_unsaved

from ..checks import expect, passed
from ..files import bytes_of, file_with
from ..group import await_that
from ..program import SCRIPTS, Broken
from ..supervised import group_of

# Runs a command in a namespace of mounts, with a small disk at a folder, and other words after it.
SMALL = ["unshare", "--mount", "bash", "-c"]
DISK = 'mount -t tmpfs -o size=64k none "$0" && {}; exec "$@"'
FILL = 'head -c 100000 /dev/zero > "$0/filler" 2> "$0/errors"'
# A user who may write nothing of root's.
OTHER = 65534


def can_mount(folder):
    """Whether this user may mount a disk."""
    done = subprocess.run(
        [*SMALL, DISK.format("true"), folder, "true"], check=False, capture_output=True
    )
    return done.returncode == 0


def answer_as(user, path):
    """What `why_unsaved` answers to another user."""
    end, begin = os.pipe()
    child = os.fork()
    if child == 0:
        try:
            os.setgroups([])
            os.setuid(user)
            os.write(begin, str(why_unsaved(path)).encode())
        finally:
            os._exit(0)
    os.close(begin)
    os.waitpid(child, 0)
    with open(end, "rb") as answer:
        return answer.read().decode()


def check_reasons(folder):
    """What has the place of a file, what is missing, and what is not allowed."""
    record = file_with(folder, "record1", b"PL")
    second = f"{record}.new"
    expect("a record that can be saved", why_unsaved(record) is None and not os.path.exists(second))
    os.mkdir(second)
    wanted = f"{second}, which a save writes first, is a folder"
    expect("a folder in the place of what a save writes", why_unsaved(record) == wanted)
    os.rmdir(second)
    os.remove(record)
    for what, make, remove in (("folder", os.mkdir, os.rmdir), ("pipe", os.mkfifo, os.remove)):
        make(record)
        said = why_unsaved(record)
        expect(f"a {what} in the place of a record", said == f"{record} is a {what}", said)
        remove(record)
    there = os.path.join(folder, "none")
    said, wanted = why_unsaved(f"{there}/record"), f"the folder {there} is missing"
    expect("a folder that is missing", said == f"{wanted}: is its disk mounted?", said)
    if os.geteuid() == 0:
        os.chmod(folder, 0o755)
        os.remove(path_of(record))
        said, wanted = answer_as(OTHER, record), f"this user may not write {path_of(record)}"
        expect("a folder of another user", said == wanted, said)
        file_with(folder, "record1.lock", b"")
        os.chmod(path_of(record), 0o666)
        said, wanted = answer_as(OTHER, record), f"this user may not write {second}"
        expect("a folder of another user, where there is a lock", said == wanted, said)
        file_with(folder, "record1", b"PL")
        os.chmod(record, 0o600)
        said, wanted = answer_as(OTHER, record), f"this user may not read and write {record}"
        expect("a record of another user", said == wanted, said)


def check_in_use(folder):
    """Where another process is at the record, it is named, and nothing is written beside it."""
    record = file_with(folder, "record1", b"PL")
    second = file_with(folder, "record1.new", b"that of the other process")
    command = ["flock", path_of(record), "cat"]
    with subprocess.Popen(command, stdin=subprocess.PIPE) as other:
        await_that(lambda: holder_of(record) is not None, "the other process has the lock")
        said = why_unsaved(record)
        wanted = f"process {other.pid} ({' '.join(command)}) runs at the record {record} already"
        other.stdin.close()
    expect("another process at the record", said == wanted, said)
    expect("its second file stays", bytes_of(second) == b"that of the other process")


def of_small_disk(small, what):
    """What is found out on a small disk in which a command was run."""
    script = f"import sys; from {why_unsaved.__module__} import why_unsaved; "
    script += "print(why_unsaved(sys.argv[1]))"
    command = [*SMALL, DISK.format(what), small, "python3", "-c", script, f"{small}/record"]
    env = {**os.environ, "PYTHONPATH": SCRIPTS, "PYTHONDONTWRITEBYTECODE": "1"}
    done = subprocess.run(command, check=False, capture_output=True, env=env)
    if done.returncode != 0:
        raise Broken(f"{what}: {done}")
    return done.stdout.decode().strip()


def check_disks(folder):
    """A full disk, one that is nearly full, one that is read-only; and a node on a full one."""
    small = os.path.join(folder, "small")
    os.mkdir(small)
    if not can_mount(small):
        print("this user may mount nothing, so that no full disk is tried")
        return
    full = f"the disk of {small} is full: 0 bytes are free"
    said = of_small_disk(small, f"{FILL}; true")
    expect("a full disk", said == full, said)
    said = of_small_disk(small, 'head -c 40960 /dev/zero > "$0/record"')
    wanted = f"the disk of {small} has 24576 bytes free, and {small}/record has 40960"
    expect("a disk without room for the record once more", said == wanted, said)
    said = of_small_disk(small, 'mount -o remount,ro "$0"')
    expect("a read-only disk", said == f"the file system of {small} is read-only", said)
    check_node_on(small, folder, full)


def check_node_on(small, folder, full):
    """A node is started again and again on a full disk, until there is room."""
    it = group_of(1, folder, silent=0.3)[0]
    it.around = [*SMALL, DISK.format(FILL), small]
    try:
        it.begin("--new", "--record", f"{small}/record1")
        it.await_said(rf"ended with status 1, refused D2: [^\n]* \({full}\); the node is started")
        os.remove(f"/proc/{it.process.pid}/root{small}/filler")
        await_that(it.is_up, "the node is up")
        passed("a node on a full disk: the disk is named, and it runs when there is room")
    finally:
        it.end()
