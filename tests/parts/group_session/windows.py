"""What a terminal of 24 lines shows over its last lines, with a clock that the test has."""

import contextlib
import types

from shared.sitting import window
from shared.terminal import Terminal

from ..checks import expect

LONG = ("3 keys that were typed at node 1, which has ended, are lost, unless node 2 has heard of "
        'them, which is stopped, does not move, or is not seen here: "abc".')


@contextlib.contextmanager
def clock_of():
    """A clock that stands still, until its seconds are changed."""
    clock, before = types.SimpleNamespace(seconds=100.0), window.time
    window.time = types.SimpleNamespace(monotonic=lambda: clock.seconds)
    try:
        yield clock
    finally:
        window.time = before


def said_over(it):
    """The lines of what is said, without how they look."""
    return [text for text, _ in it.over(80)]


def check_turns(_folder):
    """Each sentence has its turn, whole, and what waits is below it."""
    with clock_of() as clock:
        it = window.Window(Terminal(), True)
        expect("nothing is said", said_over(it) == [])
        it.say("one")
        it.say(LONG)
        it.status = "node 2: 3 keys wait"
        expect("the first one", said_over(it) == ["one", it.status], said_over(it))
        clock.seconds += window.BRIEF
        lines = said_over(it)
        is_so = " ".join(lines[:-1]) == LONG and lines[-1] == it.status
        expect("then the next one, whole, in lines of the terminal's width",
               is_so and max(map(len, lines)) < 80, lines)
        clock.seconds += window.FRESH
        expect("then what waits alone", said_over(it) == [it.status], said_over(it))
        for number in range(9):
            it.say(f"sentence {number}")
        expect("of many the last ones have a turn", said_over(it)[0] == "sentence 6", said_over(it))
        rows, first = it.wanted(24, 80)
        expect("the terminal is full, and begins with the console",
               len(rows) == 24 and first == 0 and "sentence 6" in rows[22], rows[20:])
