"""What a session leaves behind that is continued without its keys: the frozen program, and consoles
that have all output. For `renew --freeze`."""

import glob
import os
import re
import subprocess

from ..files import Refused
from ..frozen import TOOLS, frozen_at, wrote_before
from ..session import session_of
from ..synced import Note, boot_of_machine, first_kept, synced_path, text_of_note
from ..whole import put_whole
from .made import list_name, read_list
from .retired import bytes_at, put, retired_name

# The package `freezer` is found once `..frozen` is there.
from freezer.making import frozen_after
from freezer.state import MOST_STEPS
from pcode.faults import Fault

LIST = re.compile(r"\.renewed-\d+$")


def program_path():
    return os.path.realpath(os.environ.get("PGROUP") or os.path.join(TOOLS, "..", "run"))


def output_of(program, path, keys, length):
    """What the program of a code file writes on these keys, which has this length."""
    words = [program, "run", path, "--steps", str(MOST_STEPS)]
    done = subprocess.run(words, input=keys, stdout=subprocess.PIPE, stderr=subprocess.PIPE,
                          check=False)
    if len(done.stdout) != length:
        raise Refused(f"pgroup run writes {len(done.stdout)} bytes of {path}, and pgroup state "
                      f"says {length}: {done.stderr.decode('utf-8', 'replace').strip()}")
    return done.stdout


def difference(one, other):
    """Where two texts of one length begin to differ."""
    return next(at for at, (a, b) in enumerate(zip(one, other)) if a != b)


def is_torn(has, wanted):
    """Whether these bytes are the output's, but for NULs that a cut of the power may have left in
    place of some."""
    return len(has) <= len(wanted) and all(one in (0, other) for one, other in zip(has, wanted))


def sync(path):
    file = os.open(path, os.O_RDONLY | os.O_CLOEXEC)
    try:
        os.fsync(file)
    finally:
        os.close(file)


class Console:
    """A console of the old session. `base` bytes of it were written before FILE was frozen, and
    `output` follows them."""

    def __init__(self, path, base, output):
        self.path, self.base, self.output = os.path.realpath(path), base, output

    def lacking(self, is_over):
        """What it lacks of the output. Refuses one that is no beginning of all output; a longer
        one too, unless the new session may have begun."""
        if not os.path.isfile(self.path):
            raise Refused(f"{self.path} is missing, or is no regular file: name the consoles that "
                          "are files, and copy one of them for a node that has none")
        with open(self.path, "rb") as file:
            length = os.fstat(file.fileno()).st_size
            before = max(self.base, first_kept(self.path))
            file.seek(before)
            has = file.read()
        # A supervisor may have given more of it back meanwhile, and has noted that first.
        begin = max(before, first_kept(self.path))
        has = has[begin - before:]
        if length < self.base:
            raise Refused(f"{self.path} has {length} bytes, and {self.base} were written before "
                          "the program was frozen: put a copy of another node's console there")
        wanted = self.output[begin - self.base:]
        count = min(len(has), len(wanted))
        if has[:count] != wanted[:count]:
            count = difference(has, wanted)
            if not is_torn(has[count:], wanted[count:]):
                raise Refused(
                    f"{self.path} is no beginning of what the program has written: it differs at "
                    f"byte {begin + count}; put a copy of another node's console there")
        elif len(has) > count and not is_over:
            raise Refused(f"{self.path} has {len(has) - count} bytes more than the program writes "
                          f"on these keys: is {self.path} of this session, and are all records?")
        return wanted[count:]

    def complete(self):
        """Adds what it lacks, in place of NULs if there are any, syncs it, and notes that."""
        rest = memoryview(self.lacking(True))
        file = os.open(self.path, os.O_WRONLY | os.O_APPEND | os.O_CLOEXEC)
        try:
            kept = self.base + len(self.output) - len(rest)
            if rest and os.fstat(file).st_size > kept:
                os.ftruncate(file, kept)
            while rest:
                rest = rest[os.write(file, rest):]
            os.fsync(file)
            note = Note(os.fstat(file).st_size, boot_of_machine(), first_kept(self.path))
        except OSError as fault:
            fault.filename = fault.filename or self.path
            raise
        finally:
            os.close(file)
        put_whole(synced_path(self.path), text_of_note(note))


class Freezing:
    """The program of a session, frozen behind these keys and checked; and the consoles."""

    def __init__(self, file, to, consoles, keys):
        program, self.file, self.to = program_path(), file, os.path.realpath(to)
        with open(file, "rb") as source:
            data = source.read()
        if self.to == os.path.realpath(file):
            raise Refused(f"{to} is the program that is frozen: give the frozen one another name")
        try:
            self.made = frozen_after(program, file, data, keys)
        except Fault as why:
            raise Refused(f"{file} is not frozen: {why}") from why
        self.session = session_of(self.made.data, 1)
        names = sorted({os.path.realpath(it) for it in consoles})
        wrote = self.made.state.wrote
        output = output_of(program, file, keys, wrote) if names else b""
        self.consoles = [Console(it, wrote_before(file), output) for it in names]

    def check_session(self, old, places):
        """Refuses a number that a session had before, at these places of records."""
        if self.session == old:
            raise Refused(f"the checksum of the frozen program is {old} too, as the old session: "
                          "start the old session, type a key, and call this again")
        for place in places:
            for name in (retired_name(place, self.session), list_name(place, self.session)):
                if os.path.exists(name):
                    raise Refused(f"session {self.session} was retired too: {name} is there")

    def check(self, is_over):
        """Refuses what is in the way. Returns for each console how many bytes it lacks."""
        folder = os.path.dirname(self.to)
        if not os.path.isdir(folder):
            raise Refused(f"the folder {folder} is missing: is its disk mounted?")
        there = bytes_at(self.to)
        if there is not None and there != self.made.data:
            raise Refused(f"{self.to} is there already, and has other bytes than the frozen "
                          "program: give it another name, or call this with the same arguments")
        return {it.path: len(it.lacking(is_over)) for it in self.consoles}

    def sync_consoles(self):
        for it in self.consoles:
            sync(it.path)

    def put(self, like):
        """Puts the frozen program in its place, with the owner and the rights of the file `like`,
        and completes the consoles."""
        if bytes_at(self.to) is None:
            put(self.to, self.made.data, like)
        for it in self.consoles:
            it.complete()


def begun_frozen(session, places):
    """The frozen file with which a session began, by the lists beside these places of records, or
    None. A session that was renewed with its keys began as the one before it."""
    named = (it for place in places for it in glob.glob(f"{glob.escape(place)}.renewed-*"))
    lists = {it for it in named if LIST.search(it)}  # None that is not yet in its place.
    found = {}
    for path in lists:
        says = read_list(path)
        found[says["new session"]] = path, says
    while session in found:
        path, says = found.pop(session)
        if "frozen" in says:
            return os.path.normpath(os.path.join(os.path.dirname(path), says["frozen"]["file"]))
        session = says["old session"]
    return None


def check_not_frozen(old, places, file):
    """Refuses another program for a session that continues a frozen one, and a frozen one for
    another session: only all keys from the beginning lead a program anywhere."""
    before = begun_frozen(old, places)
    if before:
        raise Refused(f"session {old} began with the frozen program {before}, and the keys before "
                      "are not in these records: a new version of the program needs all keys, from "
                      "the records that were retired when it was frozen. To continue with the same "
                      f"program give --file {before} and --generation")
    if file and frozen_at(file):
        raise Refused(f"{file} was frozen, so it continues after the keys of its own session, and "
                      f"not of session {old}: give the program as it was before it was frozen")
