"""The screen of `status --follow`."""

import curses
import time

from .ends import with_end
from .frozen import told_of
from .plain import plain
from .seen import text_of_old
from .watch import Group, line_of

# How often the group is looked at, in milliseconds.
LOOK = 500


def lines_of_log(node):
    """What the log of a node says of its program, in at most one line."""
    if node.end is not None:
        return ["    " + with_end("its program has ended", node.end)]
    return [f"    ({node.log_fault})"] if node.log_fault else []


def lines_of_node(node, leader, room):
    """The lines of a node, with so many of its console and its log."""
    said = lines_of_log(node)
    if node.later:
        said.append(f"    ({text_of_old(node.later)})")
    shown = node.end_of_console(max(1, room - len(said)))
    if shown is None:
        shown = ["    (its console is in no file that is known here; say --consoles)"]
    else:
        shown = [f"    | {it}" for it in shown]
    return [line_of(node, leader), *said, *shown, ""]


def lines_of(group, height):
    """The lines of the screen: the heading, and for each node its line, whether its program has
    ended, and the end of its console, with as many lines as there is room for."""
    room = max(1, (height - 3) // len(group.nodes) - 2)
    leader = group.leader()
    code = next((it.code for it in group.nodes if it.code), None)
    more = [f"; {it}" for it in told_of(code)]
    lines = [time.strftime("%H:%M:%S ") + group.heading() + "".join(more), ""]
    for node in group.nodes:
        lines += lines_of_node(node, leader, room)
    return lines + ["q or Ctrl-C ends this; the nodes keep running"]


def draw(window, group):
    height, width = window.getmaxyx()
    window.erase()
    lines = lines_of(group, height)
    for row, line in enumerate(lines[:height]):
        try:
            # Nothing fits behind the last column of the last row.
            window.addnstr(row, 0, plain(line), width - 1, curses.A_BOLD if row == 0 else 0)
        except curses.error:
            pass  # The window has just become smaller.
    # All of it is written anew. Of a terminal that was smaller for a moment curses may never hear,
    # and lines that it takes for shown are gone.
    window.redrawwin()
    window.refresh()


def keep_up(window, group):
    try:
        curses.curs_set(0)
    except curses.error:
        pass  # The terminal cannot hide it.
    window.timeout(LOOK)
    while True:
        group.look()
        draw(window, group)
        if window.getch() in (ord("q"), ord("Q")):
            return


def follow(records, consoles, logs, screen=None):
    """Keeps one screen up to date, until q or Ctrl-C. Returns why it cannot, or None."""
    try:
        curses.wrapper(keep_up, Group(records, consoles, logs, screen))
    except KeyboardInterrupt:
        pass
    except curses.error as fault:
        return f"the terminal: {fault}"
    return None
