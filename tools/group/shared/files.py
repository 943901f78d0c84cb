"""The files that a supervisor is given: what of them is refused at once, and the lines that say
so. Other scripts refuse and tell faults in the same way."""

import contextlib
import errno
import os
import pwd
import stat
import subprocess
import sys
import time

from .codes import with_sentence
from .frozen import wrote_before
from .journal import SPARING
from .record import Damaged
from .session import session_of

# What does not go away by itself: a person has to look.
LASTING = (
    errno.ENOENT, errno.ENOTDIR, errno.EISDIR, errno.EACCES, errno.EPERM, errno.ELOOP,
    errno.ENAMETOOLONG, errno.EROFS, errno.ENOEXEC,
)
QUIET = {"stdin": subprocess.DEVNULL, "stdout": subprocess.DEVNULL}


class Refused(Exception):
    """Why this cannot go on without a person."""


def say(words, text):
    """Writes a line with the time as a node's log has it. If it cannot be written it is left
    out, and so is one that the journal has had."""
    text, now = SPARING.passed(text), time.time_ns() // 10**6
    if text is None:
        return
    try:
        line = f"{now // 1000}.{now % 1000:03d} supervise node {words.id} {text}"
        print(line, file=sys.stderr, flush=True)
    except OSError:
        pass


def text_of_fault(fault):
    name = "" if fault.filename is None else f"{fault.filename}: "
    return f"{name}{fault.strerror or fault}"


def refuse_lasting(fault):
    """Refuses a fault that stays until a person does something about it."""
    if fault.errno == errno.EROFS and fault.filename:
        raise Refused(f"the file system of {fault.filename} is read-only")
    if fault.errno in LASTING:
        raise Refused(text_of_fault(fault))


def check_folder(path, what):
    folder = os.path.dirname(os.path.abspath(path))
    if not os.path.isdir(folder):
        raise Refused(f"the folder of the {what} {path} is missing: is its disk mounted?")
    if os.statvfs(folder).f_flag & os.ST_RDONLY:
        raise Refused(f"the file system of {folder}, the folder of the {what}, is read-only")
    if not os.access(folder, os.W_OK | os.X_OK):
        owner = name_of(os.stat(folder).st_uid)
        raise Refused(f"this user may write nothing in {folder}, the folder of the {what}: it is "
                      f"for {owner}, so begin the command with sudo -u {owner}")


def name_of(user):
    """The name of a user, or its number where it has none."""
    try:
        return pwd.getpwuid(user).pw_name
    except KeyError:
        return f"#{user}"


def is_one_file(path, other):
    """Whether two paths lead to one file. One that is not there, or goes just now, is no other."""
    with contextlib.suppress(OSError):
        return os.path.samefile(path, other)
    return False


def check_apart(words):
    """The console is a file of its own."""
    place = os.path.realpath(words.console)
    record = os.path.realpath(words.record)
    others = [(record, "record"), (os.path.realpath(words.file), "code file"),
              (os.path.realpath(words.program), "program pgroup")]
    others += [(record + end, f"file {record}{end}") for end in (".new", ".lock", ".seen")]
    if words.beats_key is not None:
        others.append((os.path.realpath(words.beats_key), "key of --beats-key"))
    for other, what in others:
        if place == other or is_one_file(place, other):
            raise Refused(f"--console {words.console} is the {what}, which would get the output")


def check_no_pipes(words):
    """None of the files that are read is a pipe, which would be waited for without a word."""
    record, console = map(os.path.realpath, (words.record, words.console))
    for path in (record, record + ".seen", console + ".synced"):
        if os.path.exists(path) and stat.S_ISFIFO(os.stat(path).st_mode):
            raise Refused(f"{path} is a pipe, and has to be a file: remove it")


def check_session(words):
    """The session is the program's, so that nodes with different programs are of different groups.
    The program may have been changed since the node was started last."""
    with open(words.file, "rb") as file:
        wanted = session_of(file.read(), words.generation)
    if words.session != wanted and not words.any_session:
        which = "the checksum" if words.generation == 1 else f"generation {words.generation}"
        raise Refused(
            f"session {words.session} is not {which} of {words.file}, which is {wanted}; "
            "--generation N is for its N-th session, and --any-session for any other"
        )


def check_runs(program):
    """The program is there, and runs."""
    if not (os.path.isfile(program) and os.access(program, os.X_OK)):
        raise Refused(f"there is no program {program}")
    # The repository's ./run may build it first, and says so.
    done = subprocess.run([program, "--help"], check=False, **QUIET)
    if done.returncode != 0:
        raise Refused(f"{program} cannot be run")


def check_program(words):
    """The program runs, and takes FILE."""
    if not os.path.isfile(words.file):
        raise Refused(f"there is no file {words.file}")
    check_runs(words.program)
    check = [words.program, "check", words.file]
    done = subprocess.run(check, check=False, stdin=subprocess.DEVNULL, capture_output=True)
    if done.returncode != 0:
        said = (done.stderr + done.stdout).decode("utf-8", "replace").strip().split("\n")
        why = with_sentence(said[-1])
        raise Refused(f"{words.program} does not take {words.file}: {why}")


def check_new(words):
    """A new node has neither a record nor output."""
    if os.path.exists(words.record):
        raise Refused(f"--new, and there is {words.record}: leave --new out")
    before = wrote_before(words.file)
    if os.path.isfile(words.console) and os.path.getsize(words.console) > before:
        raise Refused(f"--new, and {words.console} has output: of another session?")


def text_of_missing(words):
    return (
        f"{words.record} is missing. Is its disk mounted? If node {words.id} ever ran in session "
        f"{words.session}, the record is lost: never give --new then, but leave this node off, "
        "continue with the others, and renew. --new is for a node that never ran in this session"
    )


def promised_of(words, head, is_new):
    """What the node's record, which has this head, has promised: nothing where it is new, and there
    is none."""
    try:
        record = head.read(is_all=True)
    except FileNotFoundError:
        if not is_new:
            raise Refused(text_of_missing(words))
        return None
    except Damaged as fault:
        raise Refused(f"{words.record} is damaged: {fault}")
    if (record.node, record.size, record.session) != (words.id, words.size, words.session):
        raise Refused(
            f"{words.record} is of another node, size or session: it is of node {record.node} of "
            f"{record.size} in session {record.session}, and the arguments are of node {words.id} "
            f"of {words.size} in session {words.session}"
        )
    return record.promised


def check_files(words, head):
    """Refuses what a person got wrong before anything is started. The head is of the record."""
    try:
        check_program(words)
        check_session(words)
        check_folder(words.record, "record")
        check_folder(words.console, "console")
        check_apart(words)
        check_no_pipes(words)
        if words.new:
            check_new(words)
        promised_of(words, head, words.new)
    except OSError as fault:
        refuse_lasting(fault)
        raise
