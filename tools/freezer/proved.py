"""Asks the program itself whether a frozen file continues as its original does. `pgroup frozen` is
proved: if it prints of a frozen file what `pgroup state` prints of the original after all keys,
byte by byte, then the file writes, reads and ends from there on as the original does."""

import subprocess

from group.shared.codes import with_sentence

from .frozen import is_frozen
from .refused import Refused
from .state import MOST_STEPS

FAULT = "Do not use it, and keep the file and its input: this is a fault of freeze"


def asked(program, command, path, given):
    """What a command of the program says of a file on this input, and its status."""
    words = [program, command, path, "--steps", str(MOST_STEPS)]
    done = subprocess.run(words, input=given, stdout=subprocess.PIPE, stderr=subprocess.PIPE,
                          check=False)
    return done.returncode, done.stdout, done.stderr.decode("utf-8", "replace").strip()


def why_not(path, status, said):
    """Why the program has printed nothing of a file."""
    if status == 4:
        return f"after {MOST_STEPS:,} steps {path} neither waits nor has ended"
    return f"pgroup frozen says of {path}: {with_sentence(said) or status}"


def where_original(program, path, data, given):
    """What the program prints of the original of a file after these keys."""
    status, text, said = asked(program, "frozen" if is_frozen(data) else "state", path, given)
    if status != 0:
        raise Refused("proof", why_not(path, status, said))
    return text


def is_proved(program, path, data, given, made):
    """Whether the program agrees that the frozen file at the path `made` continues this file after
    this input. False if it is too old to be asked; Refused if it does not agree."""
    status, text, said = asked(program, "frozen", made, b"")
    if status == 2:
        return False
    if status != 0:
        raise Refused("proof", f"{why_not(made, status, said)}. {FAULT}")
    if text != where_original(program, path, data, given):
        raise Refused("proof", "pgroup frozen prints of it that the original stands elsewhere than "
                      f"it does after these keys. {FAULT}")
    return True
