"""What `renew --freeze` makes and refuses, for tests/renew: a session that continues without its
keys."""

import contextlib
import json
import os
import signal
import subprocess
import tempfile
from unittest import mock

from shared.frozen import frozen_at
from shared.record import read_record
from shared.renewing import freezing
from shared.synced import Note, text_of_note
from shared.words import text_of_address

from ..checks import expect
from ..echo_code import DIVIDING, ECHO, code_in
from ..files import bytes_of, file_with
from ..group import await_that, output_of, type_at
from ..program import PROGRAM, TOP
from ..scripts import expect_end, run, session_of
from ..supervised import group_of
from .cut import renew_cut
from .groups import are_equal, group_in, lead, start_all, stop_all
from .records import files_of, keys, log, records_in, renew, vote

ADVENTURE = os.path.join(TOP, "examples", "adventure.code")
# What the echo shows of the keys HI, and of HI and a line feed.
SHOWN, LINE = b"> HI", b"> HI\n> "
# An empty record of node N of three, by hand: the header with the session, a start, and the promise
# of 1.1.
EMPTY = "504C 02 {0:02x} 03 {1:08x}  01  02 00000001 01"
# Shows each key, and divides by zero behind an X.
FAILS = b"""PROGRAM FAILS;
VAR C: CHAR; D: INTEGER;
PROCEDURE ASK;
BEGIN
  REPEAT
    READ(KEYBOARD, C);
    WRITE('<', C, '>');
    IF C = 'X' THEN D := 1 DIV D
  UNTIL FALSE
END;
BEGIN D := 0; ASK END.
"""
CONSOLES = (SHOWN, b"", b"> H")


def logs_of(session, characters=b"HI"):
    return [log(it, vote(0, "1.1", keys(2, 1, 1, characters)), session=session) for it in (1, 2, 3)]


def room(folder, name, code=ECHO, consoles=CONSOLES):
    """A folder with three records and consoles, and the words that freeze their session."""
    there = os.path.join(folder, name)
    os.mkdir(there)
    paths = records_in(there, *logs_of(session_of(code)))
    shown = [file_with(there, f"console{it}", data) for it, data in enumerate(consoles, 1)]
    return there, ["--freeze", os.path.join(there, "frozen.code"), "--file", code, *paths,
                   "--consoles", *shown]


def freeze(*words):
    return renew("--yes", *words)


def check_freeze_words(_folder):
    wrong = {
        "no file": ("r",), "a generation": ("--file", ECHO, "--generation", "2", "r"),
        "sessions": ("--file", ECHO, "--sessions", "7", "8", "r"),
        "--retire": ("--file", ECHO, "--retire", "r"),
        "--from-minority": ("--file", ECHO, "--from-minority", "r"),
        "a session that is none": ("--file", ECHO, "--session", "4294967296", "r"),
    }
    for what, words in wrong.items():
        expect_end(f"freeze: {what}", renew("--freeze", "f", *words), 2, "usage")
    for words in (("--session", "7"), ("--consoles", "c")):
        done = renew("--file", ECHO, "--generation", "2", "r", *words)
        expect_end(f"freeze: {words[0]} without it", done, 2, "are for --freeze")


def check_freeze_bytes(folder):
    """What is made, by hand; and that a further call finds it."""
    there, words = room(folder, "bytes")
    before = files_of(there)
    done = renew(*words, "--dry-run")
    is_so = done.returncode == 0 and files_of(there) == before
    expect("freeze: --dry-run changes nothing", is_so and b"console2 lacks 4" in done.stdout, done)
    done = renew(*words)
    is_so = done.returncode == 1 and files_of(there) == before
    expect("freeze: without a yes nothing is changed", is_so, done)
    done = freeze(*words)
    expect_end("freeze: three records", done, 0)
    old, new = session_of(ECHO), session_of(words[1])
    made = files_of(there)
    wanted = [bytes.fromhex(EMPTY.format(it, new)) for it in (1, 2, 3)]
    expect("freeze: the new records are empty, and of the checksum of the frozen file",
           [made[f"record{it}"] for it in (1, 2, 3)] == wanted, made)
    kept = [made[f"record{it}.retired-{old}"] == before[f"record{it}"] for it in (1, 2, 3)]
    is_said = f"{there}/record1.retired-{old} ".encode() in done.stdout
    expect("freeze: the old keys stay, and it is said where", all(kept) and is_said, done)
    shown = [made[f"console{it}"] for it in (1, 2, 3)]
    expect("freeze: each console has all output", shown == [SHOWN] * 3, shown)
    says = json.loads(made[f"record2.renewed-{old}"])
    expect("freeze: the list names the frozen file", says["frozen"]["file"] == "frozen.code", says)
    again = freeze(*words)
    is_so = b"as they were before" in again.stdout and files_of(there) == made
    expect("freeze: called again it finds all", is_so, again)


def continue_by(code, session, there, characters):
    """Puts records of this session with these keys into a folder."""
    records_in(there, *logs_of(session, characters))


def check_freeze_twice(folder):
    """Twice in a row, the second time without a key; then with one: all are other sessions."""
    there, words = room(folder, "twice")
    expect_end("freeze: once", freeze(*words), 0)
    sessions = [session_of(ECHO), session_of(words[1])]
    for number, typed in ((2, b""), (3, b"\n")):
        last, words[3] = words[1], words[1]
        words[1] = os.path.join(there, f"frozen{number}.code")
        if typed:
            continue_by(last, sessions[-1], there, typed)
        expect_end(f"freeze: {number} times", freeze(*words), 0)
        sessions.append(session_of(words[1]))
    expect("freeze: each is a session of its own", len(set(sessions)) == 4, sessions)
    it = frozen_at(words[1])
    is_so = (it.times, it.read, it.wrote) == (3, 3, len(LINE))
    expect("freeze: what is counted goes on, and the original stays the first program",
           is_so and it.original == bytes_of(ECHO), it.told())
    shown = [bytes_of(os.path.join(there, f"console{it}")) for it in (1, 2, 3)]
    expect("freeze: consoles go on behind what was there", shown == [LINE] * 3, shown)
    done = freeze(*words, "--session", "5")
    expect_end("freeze: of another session", done, 1, "and not of session 5")


def refused(folder, what, text, consoles=CONSOLES, code=ECHO, more=(), change=lambda there: None):
    there, words = room(folder, what.replace(" ", "_"), code, consoles)
    change(there)
    before = files_of(there)
    expect_end(f"freeze refused: {what}", freeze(*words, *more), 1, text)
    expect(f"freeze refused: {what}: nothing is changed", files_of(there) == before)


def check_freeze_refusals(folder):
    refused(folder, "a console of another text", "it differs at byte 2", (SHOWN, b"> NO", b""))
    refused(folder, "a longer console", "1 bytes more than the program writes", (SHOWN + b"!",))
    missing = ["--consoles", os.path.join(folder, "none")]
    refused(folder, "a missing console", "is missing, or is no regular file", more=missing)
    refused(folder, "a program that has ended", "the program has ended", (b"",),
            code_in(folder, "dividing", DIVIDING))
    refused(folder, "a file in the way", "has other bytes than the frozen program",
            change=lambda there: file_with(there, "frozen.code", b"precious"))
    none = ["--freeze", os.path.join(folder, "none", "frozen.code")]
    refused(folder, "a folder that is missing", "is missing: is its disk mounted?", more=none)
    refused(folder, "its own name", "is the program that is frozen", more=["--freeze", ECHO])
    there, words = room(folder, "first")
    expect_end("freeze: to know the new session", freeze(*words), 0)
    new = session_of(words[1])
    for name in (f"record1.retired-{new}", f"record3.renewed-{new}"):
        refused(folder, f"a session as before {name[:7]}", f"session {new} was retired too",
                change=lambda there: file_with(there, name, b""))
    # A console of a frozen program that lacks what came before.
    words = ["--freeze", os.path.join(there, "second.code"), "--file", words[1], *words[4:]]
    file_with(there, "console2", b"> H")
    before = files_of(there)
    text = "console2 has 3 bytes, and 4 were written before"
    expect_end("freeze refused: a console that lacks what was before", freeze(*words), 1, text)
    expect("freeze refused: nothing is changed", files_of(there) == before)


def check_freeze_versions(folder):
    """Another program is no continuation of a frozen one, also after it was renewed as it is."""
    there, words = room(folder, "versions")
    expect_end("freeze: a version", freeze(*words), 0)
    frozen, paths = words[1], words[4:7]
    session, before = session_of(frozen), files_of(there)
    done = renew("--sessions", session, 5, "--yes", *paths)
    expect_end("freeze: another version is refused", done, 1, "needs all keys, from the records")
    expect("freeze: and nothing is changed", files_of(there) == before)
    done = renew("--file", frozen, "--generation", "2", "--yes", *paths)
    expect_end("freeze: the second session with a frozen program", done, 0)
    expect("freeze: its --seen is told", b"length less 4\n" in done.stdout, done)
    session = session_of(frozen, "2\n")
    done = renew("--sessions", session, 5, "--yes", *paths)
    expect_end("freeze: nor is one after that", done, 1, frozen)
    there, words = room(folder, "new")
    done = renew("--sessions", session_of(ECHO), 5, "--file", frozen, "--yes", *words[4:7])
    expect_end("freeze: a frozen one for other keys", done, 1, "was frozen, so it continues after")


def frozen_at_cut(there, number):
    """As killed_at of tests/renew. No record is ever missing, and where a new record is in its
    place the frozen file and all consoles are ready."""
    os.mkdir(there)
    there, words = room(there, "room")
    done = renew_cut(number, "--yes", *words)
    old, made = session_of(ECHO), files_of(there)
    is_begun = any(len(made[f"record{it}"]) == 16 for it in (1, 2, 3) if f"record{it}" in made)
    is_old = any(made.get(f"record{it}") == log_data
                 for it, log_data in enumerate(logs_of(old), 1))
    is_good = all(f"record{it}" in made for it in (1, 2, 3)) and not (is_begun and is_old)
    if is_begun:
        shown = [made[f"console{it}"] for it in (1, 2, 3)]
        is_good = is_good and "frozen.code" in made and shown == [SHOWN] * 3
    again = freeze(*words)
    is_good = is_good and again.returncode == 0
    return files_of(there), done.returncode, None if is_good else (done, again)


@contextlib.contextmanager
def temporary_in(folder):
    """What a killed call leaves of its own folders is in this one."""
    before, tempfile.tempdir = tempfile.tempdir, folder
    try:
        yield
    finally:
        tempfile.tempdir = before


def kill_each(folder, step):
    """Killed after one of its calls at files and called again, it leaves what it would have left;
    and never two sessions that both go on."""
    wanted, _, fault = frozen_at_cut(os.path.join(folder, "0"), 0)
    expect("freeze killed: not at all", not fault, fault)
    number, status, kills = 1, -signal.SIGKILL, -1
    while status == -signal.SIGKILL:
        came, status, fault = frozen_at_cut(os.path.join(folder, str(number)), number)
        if fault or came != wanted:
            expect(f"freeze killed after call {number}", False, fault, came)
        number, kills = number + step, kills + 1
    expect(f"freeze killed after {kills} of its calls, and called again", kills > 60 / step)


def check_freeze_kills(folder):
    """After each ninth of its calls, which are 134."""
    with temporary_in(folder):
        kill_each(folder, 9)


def check_each_freeze_kill(folder):
    with temporary_in(folder):
        kill_each(folder, 1)


def check_freeze_given_back(folder):
    """While `renew --rehearse` looks at a console, its supervisor gives the first bytes back to the
    disk, and the node goes on."""
    wrote, first, kept = b"written " * 1000, 4096, freezing.first_kept
    path = file_with(folder, "console", wrote + b"and more")

    def give_back(path):
        found = kept(path)
        note = Note(len(wrote), "0-0", first)
        file_with(folder, "console.synced", text_of_note(note))
        file_with(folder, "console", bytes(first) + wrote[first:] + b"and more")
        return found

    with mock.patch.object(freezing, "first_kept", give_back):
        lacking = freezing.Console(path, 0, wrote).lacking(True)
    expect("freeze: what is given back meanwhile does not differ", lacking == b"", lacking)


def check_freeze_running(folder):
    there, words = room(folder, "running")
    group = group_in(there)
    for node in group.nodes:
        node.session = session_of(ECHO)
    try:
        group.start(group.nodes[0], False)
        group.nodes[0].await_keys()
        expect_end("freeze: a node that runs", freeze(*words), 1, "stop the group first")
    finally:
        group.end()


def set_session(group, file):
    group.file = file
    for node in group.nodes:
        node.session, node.typed = session_of(file), {}


def check_freeze_group(folder):
    """Three nodes that go on in frozen sessions, one of them behind each time, with the --seen that
    follows from the frozen file: all consoles are one run of the program on all keys."""
    group, typed = group_in(folder, ADVENTURE), b""
    set_session(group, ADVENTURE)
    lines = (b"NORTH\nTAKE LA", b"MP\nINVENT", b"", b"ORY\nSOUTH\n")
    try:
        for number, line in enumerate(lines, 1):
            start_all(group)
            if line:
                lead(group, group.nodes[number % 3], line)
                typed += line
                wanted = output_of(ADVENTURE, typed)
                await_that(lambda: bytes_of(group.nodes[0].console) == wanted
                           and are_equal(group), "all show it")
            stop_all(group)
            if number == len(lines):
                break
            # The power went off at this one, and its console was cut.
            base = frozen_at(group.file).wrote if frozen_at(group.file) else 0
            with open(group.nodes[1].console, "rb+") as console:
                console.truncate(max(base, len(wanted) - 7))
            frozen = os.path.join(folder, f"frozen{number}.code")
            done = freeze("--freeze", frozen, "--file", group.file,
                          *(it.record for it in group.nodes), "--consoles",
                          *(it.console for it in group.nodes))
            expect_end(f"freeze: a group, for the {number}. time", done, 0)
            set_session(group, frozen)
        votes = [len(read_record(it.record).votes) for it in group.nodes]
    finally:
        group.end()
    shown = [bytes_of(it.console) for it in group.nodes]
    expect(f"freeze: a group's consoles are one run: {len(wanted)} bytes", shown == [wanted] * 3)
    expect("freeze: its last records have the last keys alone", max(votes) <= 12, votes)


def compiled(folder):
    """A program that fails behind an X."""
    source = file_with(folder, "fails.pas", FAILS)
    code = os.path.join(folder, "fails.code")
    done = run_tool([os.path.join(TOP, "tools", "compile"), source, "-o", code])
    expect("freeze: a program that fails", done.returncode == 0, done)
    return code


def await_console(it, wanted):
    await_that(lambda: bytes_of(it.console) == wanted, f"the console is {wanted}")


def type_under(it, words, typed, wanted):
    """A node under its supervisor from its start on: the console comes to this."""
    it.start(*words)
    type_at(it.keys, typed)
    await_console(it, wanted)


def stop_one(it):
    it.terminate()
    it.process = None
    await_that(it.is_down, "the node has ended")


def check_freeze_supervised(folder):
    """A supervisor counts --seen of a frozen program, never cuts what no node writes again, and
    tells an execution error by the original program; and so does status."""
    code = compiled(folder)
    it, frozen = group_of(1, folder, silent=0.3, code=code)[0], os.path.join(folder, "f.code")
    done = run_tool([PROGRAM, "run", code], input=b"ABCX")
    error = done.stderr.decode().strip()
    expect("freeze: its original fails", error.startswith("execution error 6 in procedure "), error)
    try:
        type_under(it, ["--new"], b"AB", b"<A><B>")
        stop_one(it)
        done = freeze("--freeze", frozen, "--file", code, it.record, "--consoles", it.console)
        expect_end("freeze: a supervised node", done, 0)
        words = ["--file", frozen, "--session", str(session_of(frozen))]
        type_under(it, words, b"C", b"<A><B><C>")
        stop_one(it)
        # As after a cut of the power, when no more than two bytes were synced.
        file_with(folder, "console1.synced", b"pgroup console synced 2 boot 0-0\n")
        type_under(it, words, b"X", b"<A><B><C><X>")
        it.await_said("from 9 to 6 bytes: no more of it is known to have been synced")
        it.await_said(f"ended, by {error} of the original program; the node keeps running")
        done = run_status(it.record, "--logs", it.errors)
        wanted = f" program frozen once, after 2 keys and 6 bytes program ended {error} of the "
        expect("freeze: status", f"{wanted}original program\n" in done.stdout.decode(), done)
        beats = text_of_address(it.beats[0])
        said = run_status("--beats", beats, "--session", session_of(frozen)).stdout.decode()
        expect("freeze: status --group says how it has ended",
               f"its program has ended: {error} of the original program; " in said, said)
        asked = f"--file {frozen} --session {words[3]} --beats {beats}"
        file_with(folder, "group", asked.encode())
        said = run_status("--group", f"{folder}/group").stdout.decode()
        is_so = said.endswith("\nprogram frozen once, after 2 keys and 6 bytes\n")
        expect("freeze: and after what it continues", is_so, said)
        stop_one(it)
        with open(it.console, "rb+") as console:
            console.truncate(3)
        done = it.run(*words)
        text = f"console1 has 3 bytes, and {frozen} continues after 6: put a copy"
        expect_end("freeze: a console that lacks what was before is refused", done, 1, text)
    finally:
        it.end()


def run_status(*words):
    return run("status", *words)


def run_tool(command, **given):
    return subprocess.run(command, check=False, capture_output=True, **given)


def check_freeze_full(folder):
    """From 80 % of the places on `status` says what to type, with names that are known."""
    for place, is_said in ((52428, True), (52427, False)):
        votes = vote(place, "1.1", keys(1, 1, 1, b"H"))
        path, = records_in(folder, log(1, votes, size=1, session=session_of(ECHO)))
        done = run_status(path, "--file", ECHO)
        root = ECHO[:-len(".code")]
        wanted = f"renew --freeze {root}.frozen1.code --file {ECHO} {path} --consoles CONSOLE..\n"
        wanted = "80 % of the places are taken: stop all nodes, then type: ", wanted
        said = done.stderr.decode()
        is_so = said.startswith(wanted[0]) and said.endswith(wanted[1]) if is_said else said == ""
        expect(f"freeze: status at place {place}", is_so and done.returncode == 0, said)


FROZEN_CHECKS = (
    check_freeze_words, check_freeze_bytes, check_freeze_twice, check_freeze_refusals,
    check_freeze_versions, check_freeze_kills, check_freeze_given_back, check_freeze_running,
    check_freeze_group, check_freeze_supervised, check_freeze_full,
)
