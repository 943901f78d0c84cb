"""What `renew --from-minority` does where the records of a majority are lost, for tests/renew. The
records are written by hand."""

import os
import subprocess

from ..checks import expect
from ..files import bytes_of
from ..scripts import expect_end, path_of
from .records import HI, NEW, OLD, by_number, files_of, keys, log, records_in, vote

BOTH = vote(0, "1.1", keys(2, 1, 1, b"HI"))


def answered(text, *words):
    """A call whose question gets this answer."""
    command = [path_of("renew"), "--sessions", str(OLD), str(NEW), "--from-minority", *words]
    return subprocess.run(command, check=False, input=text, capture_output=True)


def check_minority(folder):
    paths = records_in(folder, log(1, BOTH), log(2, BOTH))
    expect_end("minority: two of three are a majority",
               by_number(*paths, "--from-minority"), 1, "leave --from-minority out")
    os.remove(paths[1])
    one, to = paths[0], ["--to", *(os.path.join(folder, f"new{it}") for it in (1, 2, 3))]
    expect_end("minority: without the word", by_number(one, *to), 1, "--from-minority continues")
    expect_end("minority: without places", by_number(one, "--from-minority"), 1, "--to says where")
    before = files_of(folder)
    for what, text in (("nothing", b""), ("yes", b"yes\n"), ("another word", b"lose\n")):
        done = answered(text, one, *to, "--yes")
        is_so = done.returncode == 1 and b"nothing was changed" in done.stderr
        expect(f"minority: {what} is no answer", is_so and files_of(folder) == before, done)
    done = answered(b"lose keys\n", one, *to, "--yes")
    is_said = b"Keys that were chosen and shown may be missing in them" in done.stdout
    expect("minority: it says what is given up", done.returncode == 0 and is_said, done)
    is_so = [bytes_of(it) for it in to[1:]] == [bytes.fromhex(HI.format(it)) for it in (1, 2, 3)]
    expect("minority: the new records have what was left", is_so)
    expect("minority: consoles begin anew", b"put all consoles aside" in done.stdout, done.stdout)
