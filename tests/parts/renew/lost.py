"""What `renew` does where a new record is not there, for tests/renew: it puts there what was not
put there yet, and never makes anew what is lost. The records are written by hand, but for those of
a group of processes that goes on in the new session."""

import json
import os
import shutil
import signal

from ..checks import expect
from ..files import bytes_of, file_with
from ..group import await_that
from ..program import Broken
from ..scripts import expect_end
from .cut import renew_cut
from .groups import await_settled, group_in, lead, renewed, start_all, stop_all
from .records import HI, NEW, OLD, by_number, files_of, keys, log, records_in, renew, vote

BOTH = vote(0, "1.1", keys(2, 1, 1, b"HI"))
# What a node's start adds to its log.
STARTED = b"\x01"
LOST = "of session 8, and is not there now: it was taken to its machine, or it is lost"
BEGUN = "session 8 has begun without node 3"
UNLISTED = "No list says whether it was there before"
OTHERWISE = "session 7 was renewed before, with other arguments or other records"


def logs():
    return [log(it, BOTH) for it in (1, 2, 3)]


def room(folder, name):
    there = os.path.join(folder, name.replace(" ", "_"))
    os.mkdir(there)
    return there


def grow(path):
    with open(path, "ab") as file:
        file.write(STARTED)


def lists_in(folder):
    return [it for it in files_of(folder) if it.endswith(f".renewed-{OLD}")]


def expect_refused(what, folder, text, *words):
    """Checks that a call is refused with this text, and that no file is changed."""
    before = files_of(folder)
    expect_end(f"lost: {what}", renew(*words), 1, text)
    expect(f"lost: {what}: nothing is changed", files_of(folder) == before, files_of(folder))


def renewed_in(there, *words):
    """The paths of three records whose session was renewed."""
    paths = records_in(there, *logs())
    expect_end("lost: the first call", by_number(*paths, *words), 0)
    return paths


def again(paths, *words):
    return ["--sessions", OLD, NEW, "--yes", *paths, *words]


def check_lost(folder):
    """A new record that was in its place, and is not there now."""
    def retired(path):
        return f"retired: session 7 goes on in another one; its record is {path}\n".encode()

    for what, grown, there in (
        ("the session has run", (1, 2), None), ("no node was started", (), None),
        ("a line of a retired record has come back", (1,), retired("record2.retired-7")),
    ):
        home = room(folder, what)
        paths = renewed_in(home)
        for it in grown:
            grow(paths[it - 1])
        os.unlink(paths[1])
        if there:
            file_with(home, "record2", there)
        text = f"{paths[1]} was put there for node 2 {LOST}"
        expect_refused(what, home, text, *again(paths))
        expect_refused(f"{what}, by --dry-run", home, text, *again(paths, "--dry-run"))
        expect_refused(f"{what}, by two records", home, text, *again(paths[1:], "--to", *paths))


def check_other_words(folder):
    """A session that was renewed is not renewed once more to other places, or as another one."""
    home = room(folder, "other words")
    paths = renewed_in(home)
    grow(paths[0])
    os.unlink(paths[1])
    to = [os.path.join(home, f"new{it}") for it in (1, 2, 3)]
    mixed = [paths[0], to[1], paths[2]]
    expect_refused("to other places", home, OTHERWISE, *again(paths, "--to", *to))
    expect_refused("to one other place", home, OTHERWISE, *again(paths, "--to", *mixed))
    retired = [f"{it}.retired-7" for it in paths]
    expect_refused("of the retired ones", home, OTHERWISE, *again(retired, "--to", *to))
    nine = ["--sessions", 7, 9, "--yes", *retired, "--to", *to]
    expect_refused("as another session", home, OTHERWISE, *nine)


def check_elsewhere(folder):
    """The same with new records in other places than the old ones."""
    home = room(folder, "elsewhere")
    to = [os.path.join(home, f"new{it}") for it in (1, 2, 3)]
    paths = renewed_in(home, "--to", *to)
    grow(to[0])
    os.unlink(to[1])
    expect_refused("with --to", home, f"{to[1]} was put there", *again(paths, "--to", *to))
    expect_refused("with --to before", home, OTHERWISE, *again(paths))


def check_earlier(folder):
    """Records of an earlier version of `renew`, which has left no list."""
    home = room(folder, "earlier")
    paths = renewed_in(home)
    wanted = files_of(home)
    lists = lists_in(home)
    expect("lost: a list stands beside each retired record", len(lists) == 3, files_of(home))
    for name in lists:
        os.unlink(os.path.join(home, name))
    expect_end("lost: all are there, and no list", by_number(*paths), 0)
    expect("lost: then there is one", files_of(home) == wanted, files_of(home))
    for name in lists:
        os.unlink(os.path.join(home, name))
    os.unlink(paths[1])
    expect_refused("one is not there, and no list", home, UNLISTED, *again(paths))
    grow(paths[0])
    expect_refused("one is not there, and one has grown", home, UNLISTED, *again(paths))
    # What the line says to do where no node of the new session has ever run.
    for path in (paths[0], paths[2]):
        os.unlink(path)
    expect_end("lost: all new ones were removed", by_number(*paths), 0)
    expect("lost: they are made anew", files_of(home) == wanted, files_of(home))


def check_brought(folder):
    """Retired records that were brought together: nobody here knows what was made of them."""
    home = room(folder, "brought")
    retired = [file_with(home, f"r{it}.retired-7", log(it, BOTH)) for it in (1, 2, 3)]
    before = files_of(home)
    done = renew("--sessions", OLD, NEW, *retired)  # nobody answers
    is_so = done.returncode == 1 and files_of(home) == before
    expect("brought together: it asks first", is_so and b"answer no" in done.stdout, done)
    expect_end("brought together: after a yes", by_number(*retired), 0)
    os.unlink(os.path.join(home, "r2"))
    expect_refused("taken to its machine", home, LOST, *again(retired))


def cut_at(folder, is_there):
    """The files of a call that was killed at the first moment of which this says yes, by the
    folder; and the paths of its records."""
    for number in range(1, 200):
        home = room(folder, f"cut {number}")
        paths = records_in(home, *logs())
        done = renew_cut(number, *again(paths))
        if done.returncode == -signal.SIGKILL and is_there(home):
            return home, paths
        shutil.rmtree(home)
    raise Broken("no call was killed at this moment")


def has_new(home, *nodes):
    """Whether these nodes and no others have their new records."""
    new = {it: bytes.fromhex(HI.format(it)) for it in (1, 2, 3)}
    return all(
        (bytes_of(os.path.join(home, f"record{it}")) == new[it]) == (it in nodes) for it in new
    )


def expect_put(what, home, paths, *nodes):
    """Of a call that was interrupted a record is lost that was put there. The others, which wait,
    are put there before that is refused: by them the group can go on."""
    expect_refused(f"{what}, by --dry-run", home, LOST, *again(paths, "--dry-run"))
    expect_end(f"lost: {what}", renew(*again(paths)), 1, LOST)
    new = [bytes.fromhex(HI.format(it)) for it in nodes]
    there = [bytes_of(paths[it - 1]) for it in nodes]
    expect(f"lost: {what}: what waited is put there", there == new, files_of(home))
    expect_refused(f"{what}, once more", home, LOST, *again(paths))


def check_first_lost(folder):
    """A call that was interrupted after the first of three records, which then is lost."""
    home, paths = cut_at(folder, lambda home: has_new(home, 1))
    os.unlink(paths[0])
    expect_put("interrupted, and the only one is lost", home, paths, 2, 3)


def check_begun(folder):
    """A call that was interrupted after two of three records."""
    home, paths = cut_at(folder, lambda home: has_new(home, 1, 2))
    grow(paths[0])
    expect_refused("interrupted, and a node has started", home, BEGUN, *again(paths))
    os.unlink(paths[1])
    expect_put("interrupted, a node has started, and one is lost", home, paths, 3)
    shutil.rmtree(home)
    home, paths = cut_at(folder, lambda home: has_new(home, 1, 2))
    second = os.path.join(home, "record3.new-8")
    data = bytes_of(second)
    file_with(home, "record3.new-8", data[:-1] + b"!")
    expect_refused("what waits was changed", home, "has other bytes than the new", *again(paths))
    file_with(home, "record3.new-8", data)
    expect_end("lost: interrupted, and no node has started", by_number(*paths), 0)
    expect("lost: then all are there", has_new(home, 1, 2, 3), files_of(home))
    name = lists_in(home)[0]
    expect("lost: a list is a text of JSON", json.loads(bytes_of(os.path.join(home, name))))
    file_with(home, name, b"{")
    expect_refused("a list that is damaged", home, "is no list of what was made", *again(paths))


def show_payment(group, wanted):
    """Nodes 1 and 2 alone go on in the new session."""
    first, second, _ = group.nodes
    for node in (first, second):
        group.start(node, False)
        node.await_keys()
    lead(group, first, b"PAY 100 ")
    shown = lambda: [bytes_of(it.console) for it in (first, second)] == [wanted] * 2
    await_that(shown, f"nodes 1 and 2 show {wanted}")
    stop_all(group)


def check_running(folder):
    """A group goes on without node 3. Then the record of node 2 is lost: were it made anew, nodes 2
    and 3 would be a majority that has never seen the payment."""
    group = group_in(folder)
    try:
        start_all(group)
        lead(group, group.nodes[0], b"hello ")
        await_settled(group)
        stop_all(group)
        expect_end("running: renewed", renewed(group, OLD, NEW), 0)
        for node in group.nodes:
            node.session = NEW
        show_payment(group, b"> hello PAY 100 ")
        lost = group.nodes[1].record
        os.unlink(lost)
        expect_end("running: a record is lost", renewed(group, OLD, NEW), 1, LOST)
        expect("running: it is not made anew", not os.path.exists(lost))
    finally:
        group.end()


LOST_CHECKS = (
    check_lost, check_other_words, check_elsewhere, check_earlier, check_brought, check_first_lost,
    check_begun, check_running,
)
