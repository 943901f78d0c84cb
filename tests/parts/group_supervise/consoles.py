"""Consoles of supervised nodes, for tests/group_supervise: what of them is trusted as a node is
started, in the boot in which they were written and in another one."""

import os

from shared.consoles import View
from shared.nodes import free_addresses
from shared.sitting.seat import Seat
from shared.synced import first_kept
from shared.words import text_of_address

from ..checks import expect, passed
from ..files import bytes_of, file_with
from ..group import await_that, type_at
from ..program import must
from ..scripts import expect_end, path_of
from ..supervised import group_of
from ..terminals import Terminal

# The boot of this machine, and another one.
with open("/proc/sys/kernel/random/boot_id", encoding="ascii") as its_boot:
    HERE = its_boot.read().strip()
OTHER = "00000000-0000-4000-8000-000000000001"
# The least --console-limit, and how many equal letters a long console has in a line.
KEPT, LINES = 65536, 1000
# What the echo shows once `one` and a line feed were typed.
SHOWN = b"> one\n> "
# What is there when the node is started: of what kind that is, the console, how many bytes the note
# names, and its boot; then the first bytes of the console that is gone on with, and what of it is
# said to be cut: the bytes before and after, and the NULs. None is for all that was shown, for its
# length, for no note, and for no cut.
CASES = (
    ("all was synced, in this boot", None, None, HERE, SHOWN, None),
    ("a part was synced, in this boot", b"> onXX> ", 4, HERE, b"> onXX> ", None),
    ("nothing was synced yet, in this boot", b"> oXX\n> ", 0, HERE, b"> oXX\n> ", None),
    ("a part was synced, and NULs follow in this boot", b"> on\0\0> ", 4, HERE, SHOWN, (8, 4, 2)),
    ("all was synced, in another boot", None, None, OTHER, SHOWN, None),
    ("a part was synced, in another boot", b"> onXX> ", 4, OTHER, SHOWN, (8, 4, 0)),
    ("a part was synced, and NULs follow", b"> on\0\0\0\0", 4, OTHER, SHOWN, (8, 4, 4)),
    ("NULs in what was synced", b">\0one\n> ", 4, OTHER, SHOWN, (8, 0, 1)),
    ("less than was synced", b"> XX", 8, HERE, SHOWN, (4, 0, 0)),
    ("less than was synced, in another boot", b"> XX", 8, OTHER, SHOWN, (4, 0, 0)),
    ("no boot is known", b"> onXX> ", 4, "-", SHOWN, (8, 4, 0)),
    ("no note", b"> onXX> ", None, None, SHOWN, (8, 0, 0)),
    ("no note, and NULs", bytes(8), None, None, SHOWN, (8, 0, 8)),
)


def note_of(length, boot):
    """Returns the note beside a console, as docs/FORMATS.md has it."""
    return f"pgroup console synced {length} boot {boot}\n".encode()


def await_noted(it, length):
    wanted = note_of(length, HERE)

    def is_noted():
        return os.path.exists(it.console + ".synced") and bytes_of(it.console + ".synced") == wanted

    await_that(is_noted, f"the note says {wanted}")


def await_shown(it, wanted):
    def is_shown():
        it.check()
        return bytes_of(it.console) == wanted

    await_that(is_shown, f"the console of node {it.number} shows {wanted}")


def text_of_cut(it, before, after, nuls):
    """Returns what is said of a console that is cut."""
    lost = f", and {nuls} of the others were NULs" if nuls else ""
    return (
        f"supervise node 1 cuts the console {it.console} from {before} to {after} bytes: no more "
        f"of it is known to have been synced{lost}; the node writes the rest again\n"
    )


def go_on(it, more, wanted):
    """Starts the supervisor, types at its node until the console shows what is wanted, and ends
    it. Returns what it has said."""
    said = len(it.said())
    it.start()
    type_at(it.keys, more)
    await_shown(it, wanted)
    end_by_signal(it)
    return it.said()[said:]


def end_by_signal(it):
    must(it.terminate() == 0, "SIGTERM ends it")
    it.process = None
    await_that(it.is_down, "the node has ended")


def check_trusted(folder):
    """What a node goes on behind, and what it writes again."""
    it = group_of(1, folder, silent=0.3)[0]
    try:
        it.start("--new")
        type_at(it.keys, b"one\n")
        await_shown(it, SHOWN)
        await_noted(it, len(SHOWN))
        passed("what a node has shown is synced while it runs, and noted")
        it.kill()
        for more, (what, console, length, boot, wanted, cut) in enumerate(CASES):
            put_case(it, SHOWN + b"x" * more if console is None else console, length, boot)
            check_case(it, what, wanted + b"x" * (more + 1), cut)
    finally:
        it.end()


def put_case(it, console, length, boot):
    """Makes the console of a case, and its note."""
    file_with(it.folder, "console1", console)
    if boot is not None:
        noted = len(console) if length is None else length
        file_with(it.folder, "console1.synced", note_of(noted, boot))
    elif os.path.exists(it.console + ".synced"):
        os.remove(it.console + ".synced")


def check_case(it, what, wanted, cut):
    said = go_on(it, b"x", wanted)
    is_so = (text_of_cut(it, *cut) in said) if cut else ("cuts the console" not in said)
    is_noted = bytes_of(it.console + ".synced") == note_of(len(wanted), HERE)
    expect(f"a console: {what}", is_so and is_noted, said, bytes_of(it.console + ".synced"))


def check_unsynced(folder):
    """A console that cannot be noted is said once, and written anew with each process."""
    it = group_of(1, folder, silent=0.3)[0]
    os.mkdir(it.console + ".synced")
    try:
        it.start("--new")
        type_at(it.keys, b"one\n")
        await_shown(it, SHOWN)
        it.await_said(f"node 1 cannot sync its console: {it.console}.synced.new: Is a directory;")
        end_by_signal(it)
        said = go_on(it, b"x", SHOWN + b"x")
        is_so = text_of_cut(it, len(SHOWN), 0, 0) in said
        expect("a console that cannot be noted is written anew", is_so, said)
        os.rmdir(it.console + ".synced")
        go_on(it, b"x", SHOWN + b"xx")
        is_so = bytes_of(it.console + ".synced") == note_of(len(SHOWN) + 2, HERE)
        expect("it is noted once that can be done", is_so)
    finally:
        it.end()


def put_long(it, boot):
    """Makes a long console that was synced in a boot. The node behind it shows nothing yet."""
    data = bytes(97 + at // LINES % 26 for at in range(3 * KEPT))
    file_with(it.folder, "console1", data)
    file_with(it.folder, "console1.synced", note_of(len(data), boot))
    return data


def check_limit(folder):
    """Of a long console the oldest bytes are given back, none changes its place, and the node goes
    on behind it, also in another boot. Without its note it is written anew."""
    it = group_of(1, folder, silent=0.3)[0]
    limit = ["--console-limit", str(KEPT)]
    done = it.run("--new", "--console-limit", str(KEPT - 1))
    expect_end("--console-limit that is too small", done, 2, "usage")
    try:
        it.start("--new")
        type_at(it.keys, b"one\n")
        await_shown(it, SHOWN)
        end_by_signal(it)
        data = put_long(it, HERE)
        it.start(*limit)
        await_that(lambda: first_kept(it.console) > 0, "the oldest bytes are given back")
        end_by_signal(it)
        first, came = first_kept(it.console), bytes_of(it.console)
        is_so = came == bytes(first) + data[first:] and KEPT <= len(data) - first < KEPT + 4096
        expect("a console with a limit: the last bytes are there, each in its place", is_so)
        is_so = os.stat(it.console).st_blocks * 512 < len(data) - first + 8192
        expect("the others are given back to the disk", is_so, os.stat(it.console))
        note = note_of(len(data), HERE)[:-1] + b" from %d\n" % first
        is_so = bytes_of(it.console + ".synced") == note
        expect("the note says from where on they are there", is_so)
        file_with(folder, "console1.synced", note.replace(HERE.encode(), OTHER.encode()))
        it.start()
        end_by_signal(it)
        is_so = "cuts the console" not in it.said() and bytes_of(it.console) == came
        expect("after a boot nothing of it is cut", is_so, it.said())
        os.remove(it.console + ".synced")
        go_on(it, b"x", SHOWN + b"x")
        expect("without its note it is written anew", first_kept(it.console) == 0)
    finally:
        it.end()


def check_emptied(folder):
    """A console that somebody has emptied under a running node is written anew."""
    it = group_of(1, folder, silent=0.3)[0]
    try:
        it.start("--new")
        type_at(it.keys, b"one\n")
        await_noted(it, len(SHOWN))
        os.truncate(it.console, 0)
        await_that(lambda: not os.path.exists(it.console + ".synced"), "the note is gone")
        it.kill()
        go_on(it, b"x", SHOWN + b"x")
        passed("a console that was emptied under its node is written anew")
    finally:
        it.end()


# A console as a cut of the power has left it: how many bytes its note names, and in which boot, or
# None; whether it was changed since this boot; and how many bytes of it are shown.
LEFT = b"> one\0\0\0XX"
VIEWED = (
    ("what was synced before the cut", 2, OTHER, False, 2),
    ("all that was synced", 5, OTHER, False, 5),
    ("what is before the first zero, without a note", None, None, False, 5),
    ("the same, where less is there than was synced", 99, OTHER, False, 5),
    ("all, where it was synced in this boot", 5, HERE, False, len(LEFT)),
    ("all, where it was changed in this boot", 5, OTHER, True, len(LEFT)),
)


def check_viewed(folder):
    """What is shown of a console after a cut of the power, before a supervisor has mended it."""
    path = os.path.join(folder, "console")
    for what, length, boot, is_new, count in VIEWED:
        file_with(folder, "console", LEFT)
        if not is_new:
            os.utime(path, (0, 0))
        if boot:
            file_with(folder, "console.synced", note_of(length, boot))
        elif os.path.exists(f"{path}.synced"):
            os.unlink(f"{path}.synced")
        view, seat = View(), Seat(None, ("127.0.0.1", 9), path)
        view.look(path)
        shown = LEFT[:count].replace(b"\0", b"").decode()
        is_so = view.lines(9) == [shown.rstrip()] and (seat.size(), seat.read(1, 99)) == (
            count, LEFT[1:count])
        expect(f"status and page show {what}", is_so, view.lines(9), seat.size())
        expect(f"so does attach: {what}", shown_by_attach(path) == shown.encode())


def shown_by_attach(path):
    terminal = Terminal([path_of("attach"), text_of_address(free_addresses(1)[0]), path])
    try:
        terminal.await_shown(b">")
        terminal.type(b"\x03")
        terminal.end(0)
    finally:
        terminal.close()
    return terminal.shown.partition(b"\r\n")[0]
