"""The configuration of a program, as `pgroup state` prints it, and how it is asked for."""

import subprocess
from typing import Any, List, NamedTuple

from .refused import Refused

MOST_STEPS = 4294967295
NUMBERS = ("read", "wrote", "ioresult", "next")


class Frame(NamedTuple):
    procedure: int
    base: int
    size: int
    link: int
    back: int


class Pending(NamedTuple):
    """A transfer that is not over."""

    direction: str
    unit: int
    address: int  # of the next byte
    left: int
    at: int  # the offset of its CSP


class State(NamedTuple):
    ends: str
    read: int
    wrote: int
    ioresult: int
    next: int
    pending: Any
    frames: List[Frame]
    stack: List[int]  # the top first
    memory: List[int]  # from word 0, which is never live, on


def state_of(text):
    """The configuration in a text of `pgroup state`."""
    lines = [line.partition(" ") for line in text.splitlines()]
    if not lines or lines[0] != ("state", " ", "1"):
        raise Refused("state", "what pgroup prints of its state is of another version than 1: "
                      "take the freeze of the same version as pgroup")
    found = {head: rest for head, _, rest in lines if head != "frame"}
    words = {head: rest.split(" ") if rest else [] for head, rest in found.items()}
    frames = [Frame(*map(int, rest.split(" "))) for head, _, rest in lines if head == "frame"]
    pending = words.get("pending")
    if pending:
        pending = Pending(pending[0], *map(int, pending[1:]))
    numbers = [int(found[it]) for it in NUMBERS]
    return State(found["ends"], *numbers, pending, frames, [int(it) for it in words["stack"]],
                 [0] + [int(it) for it in words["memory"]])


def original_state(places, state):
    """The same configuration with the procedures and the offsets of the original program."""
    def offset(frame, at):
        return places.place(frame.procedure, at)[1]

    backs = [0] + [offset(under, it.back) for under, it in zip(state.frames, state.frames[1:])]
    frames = [it._replace(procedure=places.procedure(it.procedure), back=back)
              for it, back in zip(state.frames, backs)]
    last, pending = state.frames[-1], state.pending
    if pending:
        pending = pending._replace(at=offset(last, pending.at))
    return state._replace(frames=frames, pending=pending, next=offset(last, state.next))


def state_after(program, path, given, steps=MOST_STEPS):
    """The configuration of a file after this input, by the program pgroup."""
    words = [program, "state", path, "--steps", str(steps)]
    done = subprocess.run(words, input=given, stdout=subprocess.PIPE, stderr=subprocess.PIPE,
                          check=False)
    why = done.stderr.decode("utf-8", "replace").strip()
    if done.returncode == 4:
        raise Refused("steps", f"the program neither waits nor has ended after {steps:,} steps")
    if done.returncode == 2:
        raise Refused("state", f"{program} has no command state: pgroup 0.13.0 or newer is wanted")
    if done.returncode != 0:
        raise Refused("file", f"pgroup says: {why or done.returncode}", path)
    return state_of(done.stdout.decode("ascii"))
