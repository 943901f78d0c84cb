"""What a stranger sends, or puts into a file, and what of that a person's terminal is given: no
control, no byte that is no UTF-8, and nothing that turns the order of a line round."""

import contextlib
import os
import re
import socket
import threading

from shared.nodes import free_addresses
from shared.plain import filter_streams
from shared.sitting.keyboard import IUTF8
from shared.words import text_of_address

from ..checks import expect
from ..echo_code import ECHO
from ..files import bytes_of, file_with
from ..forks import Forks
from ..group_session.made import Made
from ..page.visitor import Page, Visitor
from ..program import PROGRAM
from ..scripts import path_of
from ..stories import CALM, Story
from ..terminals import Terminal

SIGNS = [*range(0x20), 0x7F, *range(0x80, 0xA0), *range(0x202A, 0x202F), *range(0x2066, 0x206A)]
RAW = [b"\xff", b"\xc2", b"\x9b", b"\xe2\x80", b"\xf0\x9f", b"\xed\xa0\x80"]
BAD = [chr(it).encode() for it in SIGNS] + RAW
# What would do something by its own: the title, the clipboard, a question that is answered.
WORST = b"\x1b]0;title\x07\x1b]52;c;eA==\x07\x1b[6n\x9b6n\xc2\x9b6n\r"
ANSWER = (
    b"node up 7", b"size 1 silent 3.000", b"record 1 1.1 5", b"leader 1 1.1", b"known 5 0",
    b"heard 2 0.100 1.1", b"console 9", b"end an end", b"sums 0123456789abcdef 0123456789abcdef",
    b"version a version", b"now 5.000", b"fault 5.000 a fault",
)
# A name of a file that somebody else has chosen.
NAME = b"".join(it for it in BAD if it not in (b"\0", b"\n")) + b"[6n"
# `attach` at a terminal of UTF-8.
COMMAND = ["sh", "-c", 'stty iutf8; exec "$@"', "sh", path_of("attach"), "--lf"]
# What a script prints may end lines.
FORBIDDEN = {chr(it) for it in SIGNS} - {"\n"}


def unsafe_in(data, allowed=""):
    """The signs in what a terminal is given that it should not get, or the bytes that are no
    UTF-8."""
    try:
        return sorted({it for it in data.decode() if it in FORBIDDEN and it not in allowed})
    except UnicodeDecodeError as fault:
        return [str(fault)]


def spoiled(line):
    """A line with the bad signs in the place of each of its words, and behind it."""
    for found in [*re.finditer(rb"\S+", line)][1:]:
        for bad in (b"".join(BAD), WORST):
            yield line[: found.start()] + bad + line[found.end() :]
            yield line[: found.end()] + bad + line[found.end() :]
    yield from (line + b" " + it for it in BAD)


class Liar:
    """Answers questions of state as nodes of a group, each with one line spoiled."""

    def __init__(self):
        self.sockets, self.lines = [], {}
        for address in free_addresses(9):
            it = socket.socket(socket.AF_INET, socket.SOCK_DGRAM)
            it.bind(address)
            self.sockets.append(it)
            threading.Thread(target=self.serve, args=(it, len(self.sockets)), daemon=True).start()
        self.beats = [text_of_address(it.getsockname()) for it in self.sockets]

    def serve(self, it, node):
        while True:
            try:
                data, source = it.recvfrom(65536)
            except OSError:
                return
            words = data.split()
            if not words:
                return
            head = b"pgroup state %s %d %s\n" % (words[2], node, words[3])
            it.sendto(head + b"\n".join(self.lines.get(node, ())) + b"\n", source)

    def tell(self, spoiled_lines):
        """Lets each node answer with one of these lines. It takes as many as there are nodes."""
        for node in range(1, 10):
            at, line = spoiled_lines.pop() if spoiled_lines else (0, ANSWER[0])
            self.lines[node] = [*ANSWER[:at], line, *ANSWER[at + 1 :]]

    def close(self):
        for it in self.sockets:
            with contextlib.suppress(OSError):
                it.shutdown(socket.SHUT_RDWR)  # It is not connected, and its thread ends.
            it.close()


def check_status(folder):
    """Each field of an answer that nobody has signed."""
    filter_streams()
    liar, status = Liar(), Forks(path_of("status"))
    left = [(at, it) for at, line in enumerate(ANSWER) for it in spoiled(line)]
    left, count, found = left[:: 3], 0, []
    try:
        while left:
            liar.tell(left)
            done = status.run(["--beats", *liar.beats, "--session", "7", "--wait", "20"])
            count += b"9 of 9 nodes" in done.stdout
            found += unsafe_in(done.stdout + done.stderr)
        expect("what supervisors answer is shown without bad signs", count and not found, found)
        check_page(folder, liar)
    finally:
        liar.close()


def check_page(folder, liar):
    """The same on the page of a group elsewhere."""
    path = file_with(folder, "list", f"--session 7 --beats {' '.join(liar.beats)}\n".encode())
    liar.tell([(7, b"end " + b"".join(BAD) + WORST), (11, b"fault 5.000 " + b"".join(BAD) + WORST)])
    page = Page(folder, path)
    try:
        visitor = Visitor(page, "watch")
        visitor.await_that(lambda: "?" in str(visitor.node(1).get("fault")), "the fault is shown")
        found = unsafe_in(str(visitor.group).encode())
        expect("and on the page", not found, found)
        visitor.end()
    finally:
        page.end()


def check_traces(folder):
    """Each field of a trace, and its name, through replay and draw; and of a script."""
    replay, draw = Forks(path_of("replay")), Forks(path_of("draw"))
    story = Story(3, 1, CALM).tell(12)
    lines = story.traces[1].text().encode().splitlines()
    kinds = {it.split()[0]: at for at, it in enumerate(lines)}
    path = os.path.join(os.fsencode(folder), NAME[:200])
    found, count = [], 0
    for at in kinds.values():
        for line in [*spoiled(lines[at])][:: 9]:
            with open(path, "wb") as file:
                file.write(b"\n".join([*lines[:at], line, *lines[at + 1 :]]) + b"\n")
            for forks, words in ((replay, [ECHO, os.fsdecode(path), "--program", PROGRAM]),
                                 (draw, [os.fsdecode(path), "--program", PROGRAM])):
                done = forks.run(words)
                found += unsafe_in(done.stdout + done.stderr)
                count += done.returncode == 1 and b"????" in done.stderr
    expect("so it is with each field of a trace, through replay and draw", count and not found,
           found)


def check_attach(folder):
    """What `attach` says of a console whose name somebody has chosen, and what it passes of a
    console: no bad signs but those by which a program writes."""
    path = os.path.join(os.fsencode(folder), NAME[:200])
    shown = WORST + b"begin" + b"-".join(it for it in BAD if it != b"\x1b") + b"-end\n"
    with open(path, "wb") as file:
        file.write(shown)
    address = text_of_address(free_addresses(1)[0])
    terminal = Terminal([*COMMAND, address, os.fsdecode(path)])
    terminal.before[0] |= IUTF8
    try:
        terminal.await_shown(b"-end")
        os.truncate(path, 9)
        terminal.await_shown(b"was cut to 9 bytes")
        terminal.type(b"\x03")
        terminal.end(0)
    finally:
        terminal.close()
    found = unsafe_in(terminal.shown, "\a\b\t\n\v\f\r")
    expect("and with what attach passes of a console, and says of it", not found, found,
           terminal.shown)
    check_window(folder, shown)


def check_window(folder, shown):
    """The same of a session at several nodes, which draws its own window."""
    nodes = [Made(it, folder) for it in (1, 2, 3)]
    for it in nodes:
        it.show(shown)
    terminal = Terminal([*COMMAND, *(it.word() for it in nodes)])
    terminal.before[0] |= IUTF8
    try:
        terminal.await_shown(b"-end")
        terminal.type(b"\x03")
        terminal.end(0)
    finally:
        terminal.close()
        for it in nodes:
            it.close()
    drawn = re.sub(rb"\x1b\[(?:[0-9;]*[HKm]|\?25[hl])", b"", terminal.shown)
    expect("and in its window", not unsafe_in(drawn, "\r"), drawn)
