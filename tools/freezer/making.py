"""Freezes by the program pgroup, and checks what was made before anybody has it."""

import os
import tempfile
from contextlib import contextmanager
from typing import NamedTuple

from .checking import check, must
from .freezing import freeze
from .frozen import Frozen, Places, frozen_in, original_of
from .proved import is_proved
from .state import State, original_state, state_after


class Made(NamedTuple):
    data: bytes
    frozen: Frozen
    state: State  # of the original
    places: int  # that were compared
    is_proved: bool = False  # whether the program itself has checked it

    def told(self):
        """How it was checked."""
        how = "pgroup frozen agrees" if self.is_proved else \
            "this pgroup has no command frozen, so the proved check was left out"
        return f"{self.places} places are alike; {how}"


@contextmanager
def file_of(data):
    """The path of a file with these bytes."""
    with tempfile.TemporaryDirectory(prefix="pgroup-") as room:
        path = os.path.join(room, "frozen.code")
        with open(path, "wb") as file:
            file.write(data)
        yield path


def state_of_bytes(program, data, given):
    """The configuration of a code file after this input."""
    with file_of(data) as path:
        return state_after(program, path, given)


def checked(program, data, made, state):
    """Checks a frozen file against the file that it is to continue, which waits in this state."""
    before, frozen = frozen_in(data), frozen_in(made)
    must(frozen is not None, "it says nothing of an original")
    old = original_state(Places(before.rows), state) if before else state
    sums = (before.read, before.wrote) if before else (0, 0)
    must((frozen.read, frozen.wrote) == (sums[0] + state.read, sums[1] + state.wrote),
         "it says that other numbers of bytes were read and written")
    new = state_of_bytes(program, made, b"")
    return Made(made, frozen, old, check(original_of(data), made, old, new))


def proved(program, path, data, given, it):
    """What was checked, once the program itself was asked too."""
    with file_of(it.data) as made:
        return it._replace(is_proved=is_proved(program, path, data, given, made))


def frozen_after(program, path, data, given):
    """The frozen file of a code file after this input, checked."""
    state = state_after(program, path, given)
    it = checked(program, data, freeze(data, state), state)
    return proved(program, path, data, given, it)
