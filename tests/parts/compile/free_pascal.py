"""Free Pascal as a second opinion: what a program writes, and how it ends."""

import os
import re
import subprocess

# How a compiled program says what the machine says: its exit status, and the end that it
# means.
ENDS = {0: "normal", 99: "waits", 200: "error 6", 201: "error 1"}
STEPS = "4294967295"
SECONDS = 20


class Refused(Exception):
    """Free Pascal takes no such program, or dies of it."""


def built(room, name, *words):
    """Compiles NAME.pas of a folder, and answers the program."""
    command = ["fpc", "-l-", "-v0e", f"-FE{room}", *words, os.path.join(room, f"{name}.pas")]
    done = subprocess.run(command, stdout=subprocess.PIPE, stderr=subprocess.STDOUT, check=False)
    if done.returncode != 0:
        raise Refused(done.stdout.decode(errors="replace"))
    return os.path.join(room, name)


def run_free(program, given):
    """What a program of Free Pascal writes on an input, and how it ends."""
    try:
        done = subprocess.run([program], input=given, capture_output=True, timeout=SECONDS,
                              check=False)
    except subprocess.TimeoutExpired:
        raise Refused("it does not end") from None
    return done.stdout, ENDS.get(done.returncode, f"status {done.returncode}")


def run_code(command, given):
    """The same of a code file, by the words of a command that runs it."""
    done = subprocess.run(command, input=given, capture_output=True, timeout=60, check=False)
    said = done.stderr.decode()
    error = re.match(r"execution error (\d+)", said)
    if error:
        return done.stdout, f"error {error[1]}"
    if said.startswith("waits"):
        return done.stdout, "waits"
    return done.stdout, "normal" if done.returncode == 0 else said
