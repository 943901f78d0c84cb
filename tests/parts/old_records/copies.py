"""Supervised groups whose records are taken back: by copies, or to what was synced."""

import contextlib
import os
import re
import time

from shared.record import read_record
from shared.seen import load_seen, point_of, runs_of, seen_path

from ..files import bytes_of, file_with
from ..group import await_that, type_at
from ..power.records import claims_of, notes_of
from ..supervised import group_of

OLD = (
    r"this record is older than what (node \d|its own supervisor) saw at \d\d:\d\d: a snapshot or "
    r"a lying disk; this node must never run in this session again: continue with the others, then "
    r"renew"
)


@contextlib.contextmanager
def supervised(folder, silent=0.8, words=(), library=None, delay=0):
    """A group of three that has begun, with these words more, and is ended with the test. With the
    library of tests/parts/power/sync.c what is synced is noted, after so many microseconds each."""
    group = group_of(3, folder, silent)
    try:
        for it in group:
            if library:
                let_note_syncs(it, library, delay)
            it.begin("--new", *words)
        for it in group:
            await_that(it.is_up, f"node {it.number} is up")
        group[0].await_said(r"hears that node \d leads")
        yield group
    finally:
        for it in group:
            it.end()


def shown(it):
    return bytes_of(it.console) if os.path.exists(it.console) else b""


def type_until_shown(group, at, text):
    """Types a text at a node, and waits until all of these show it."""
    type_at(at.keys, text)
    await_that(lambda: all(text in shown(it) for it in group), f"all show {text}")


def seen_of(by, node):
    """The points of a node in the file of what this supervisor saw."""
    said = load_seen(seen_path(by.record))
    return [it.point for it in runs_of(said.lines if said else []) if it.node == node.number]


def await_seen(group, node):
    """Waits until each of these has kept how far the node's record has come."""
    def is_kept():
        point = point_of(read_record(node.record))
        return all(point in seen_of(it, node) for it in group)

    await_that(is_kept, f"the others have kept what they saw of node {node.number}")


def files_of(it):
    """The files of a node's disk."""
    return [it.record, seen_path(it.record), it.console]


def snapshot(it):
    return {path: bytes_of(path) for path in files_of(it) if os.path.exists(path)}


def put_back(it, files):
    for path in files_of(it):
        with contextlib.suppress(FileNotFoundError):
            os.remove(path)
    for path, data in files.items():
        file_with(it.folder, os.path.basename(path), data)


def let_note_syncs(it, library, delay):
    """Lets a node and its supervisor note what they sync."""
    it.notes = os.path.join(it.folder, f"notes{it.number}")
    it.env = {
        **it.env, "LD_PRELOAD": library, "POWER_RECORD": it.record, "POWER_NOTES": it.notes,
        "POWER_DELAY": str(delay),
    }


def cut_to_synced(it):
    """Takes a record back to what was synced of it, as a cut of the power may do. Returns how many
    bytes go."""
    claims = [it for it in claims_of(notes_of(it.notes), it.record) if it.why == "synced"]
    size, synced = os.path.getsize(it.record), claims[-1].length
    last = [kind for _, kind, _, _ in notes_of(it.notes) if kind in ("sync", "rename")][-1]
    if last == "rename" or synced >= size:
        return 0
    os.truncate(it.record, synced)
    return size - synced


def kill_all(group):
    """Kills all supervisors at once, and their nodes with them."""
    for it in group:
        it.process.kill()
    for it in group:
        it.kill()


def find_old(group):
    """What these say of an older record."""
    return [found[0] for it in group for found in re.finditer(OLD, it.said())]


def type_for(seconds, group, keys):
    end = time.monotonic() + seconds
    while time.monotonic() < end:
        for it in group:
            type_at(it.keys, next(keys))
        time.sleep(0.01)
