#!/usr/bin/env python3
"""Runs pgroup at a terminal, and adds a line to what it says where it refuses: the file or address,
the sentence of the code, and what to do. Its own lines stay as they are, byte for byte.

    told.py PROGRAM WORD..

Where standard error is no terminal, the program takes the place of this script. Else its standard
error comes through a pipe. Ctrl-C, and what ends this script, ends the program. The status is that
of the program.
"""

import ctypes
import os
import signal
import subprocess
import sys

sys.dont_write_bytecode = True  # no files of the tool's own in the repository
sys.path.insert(0, os.path.join(os.path.dirname(os.path.realpath(__file__)), ".."))
from shared.codes import LINE, SENTENCES
from shared.files import text_of_fault
from shared.record import Damaged, read_record
from shared.supervising.unsaved import why_unsaved

PR_SET_PDEATHSIG = 1
VALUES = ("--seen", "--keys", "--steps")
# What to do, by the first letter of a code or the whole of it.
ADVICE = {
    "F": "pgroup runs what its compiler makes of Pascal: compile FILE.pas",
    "O": "pgroup runs what its compiler makes of Pascal: compile the program from its source",
    "E3": "look where standard output leads",
    "D2": "start the node again once that is mended",
    "D7": "say 1, 3, 5, 7 or 9 nodes",
    "D8": "ID is 1 to SIZE",
    "D9": "say the node's own record and session; a damaged record is lost, and no copy may take "
          "its place",
    "socket": "say addresses of this machine that no other program has",
}


def plain_words(words):
    """The words of a command that are no options and no values of these."""
    plain, rest = [], iter(words)
    for it in rest:
        if it == "--":
            return [*plain, *rest]
        if it in VALUES:
            next(rest, None)
        elif not it.startswith("--"):
            plain.append(it)
    return plain


def why_unread(path):
    try:
        with open(path, "rb") as file:
            file.read(1)
    except OSError as fault:
        return f"{path}: {fault.strerror}"
    return None


def why_of_record(path, code):
    """Why a record is refused, as far as it is seen from here."""
    if code == "D2":
        return why_unsaved(path)
    try:
        it = read_record(path)
    except Damaged as fault:
        return f"{path} is damaged: {fault}"
    except OSError as fault:
        return text_of_fault(fault)
    return f"{path} is of node {it.node} of {it.size} in session {it.session}"


def told_of(words, line):
    """What is added to a line of the program, or None."""
    found = LINE.match(line)
    sentence = found and SENTENCES.get(found[1])
    if sentence is None:
        return None
    code, plain = found[1], plain_words(words[1:])
    file = plain[0] if plain else words[0]
    why = None
    if code == "file":
        why = why_unread(file)
    elif code in ("D2", "D9") and words[0] == "node" and len(plain) > 4:
        why = why_of_record(plain[4], code)
    if code[0] in "FO" and code[1:].isdigit():
        why = f"{file}: {sentence}"
    advice = ADVICE.get(code) or ADVICE.get(code[0] if code[1:].isdigit() else "")
    return (why or sentence) + (f". {advice[0].upper()}{advice[1:]}" if advice else "")


def told_of_words(words):
    """What is added where these words are wrong, or None."""
    if words[0] == "help" and len(words) > 2:
        return "help takes one word: codes, or a command. `pgroup help` lists the commands"
    return None


def end_with(parent):
    ctypes.CDLL(None).prctl(PR_SET_PDEATHSIG, signal.SIGKILL, 0, 0, 0)
    if os.getppid() != parent:
        os._exit(1)


def run(words):
    """Runs the program. Returns its status, and the last line that it has said."""
    parent, last = os.getpid(), b""
    with subprocess.Popen(words, stderr=subprocess.PIPE,
                          preexec_fn=lambda: end_with(parent)) as process:
        # Ctrl-C reaches both: the program ends by it, and this script after it.
        signal.signal(signal.SIGINT, signal.SIG_IGN)
        signal.signal(signal.SIGQUIT, signal.SIG_IGN)
        for number in (signal.SIGTERM, signal.SIGHUP):
            signal.signal(number, lambda it, _: process.send_signal(it))
        for data in iter(lambda: os.read(process.stderr.fileno(), 65536), b""):
            os.write(2, data)
            last = (last + data)[-4096:]
        status = process.wait()
    return status, last.decode("utf-8", "replace").rstrip("\n").rpartition("\n")[2]


def main():
    words = sys.argv[1:]
    if not os.isatty(2) or len(words) < 2:
        os.execv(words[0], words)
    status, line = run(words)
    told = told_of(words[1:], line) if status == 1 else None
    told = told_of_words(words[1:]) if status == 2 else told
    if told:
        print(f"pgroup: {told}", file=sys.stderr)
    if status < 0:
        signal.signal(-status, signal.SIG_DFL)
        os.kill(os.getpid(), -status)
    return status


if __name__ == "__main__":
    sys.exit(main())
