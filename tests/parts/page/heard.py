"""What those who hear a page are read of the console, for tests/page: each new line once."""

import random

from shared.paging.heard import MOST, HeardTerminal, Readings, rest_of

from ..checks import expect
from ..group_session.made import Made
from .cutting import Cutting
from .visitor import Page, Visitor


# To a line of the screen, and to another one.
LINE, END = "\x1b[3;1H", "\x1b[9;1H"


class Console:
    """A terminal to which a program writes, and what is read of it."""

    def __init__(self, *words, **more):
        self.terminal = HeardTerminal(*words, **more)

    def write(self, *texts):
        """What is read after each of these pieces."""
        read = []
        for it in texts:
            self.terminal.write(it)
            read.append(self.terminal.take()[1])
        return read

    def rest(self):
        """What is read once the console is still."""
        return self.terminal.take(is_still=True)[1]


def check_heard(_):
    """Each line is read once, when it is done."""
    for what, pieces, wanted in (
        ("a line that comes in pieces", ("OUT", " 9 FISH", "\r", "ok\r"),
         [[], [], ["OUT 9 FISH"], ["ok"]]),
        ("several lines at once", ("one\rtwo\rthr", "ee\r"), [["one", "two"], ["three"]]),
        ("two lines that are alike", ("ok\r", "ok\r"), [["ok"], ["ok"]]),
        ("empty lines", ("\r\r  \rx\r",), [["x"]]),
        ("a line that is written over", (f"{LINE}Ann", END, f"{LINE}Bob", END),
         [[], ["Ann"], [], ["Bob"]]),
        ("a line that is written again", (f"{LINE}Ann", END, f"{LINE}Ann", END),
         [[], ["Ann"], [], []]),
        ("a longer line", (f"{LINE}Ann", END, f"{LINE}Ann, Bob", END),
         [[], ["Ann"], [], [", Bob"]]),
        ("a word that gets longer", (f"{LINE}Ann", END, f"{LINE}Anne", END),
         [[], ["Ann"], [], ["Anne"]]),
        ("a page that is erased", ("one\r", "\f", "one\r"), [["one"], [], ["one"]]),
        ("a page that is drawn anew", ("one\r", "\fone\rtwo\r"), [["one"], ["two"]]),
    ):
        read = Console().write(*pieces)
        expect(f"what is read of {what}", read == wanted, read)
    for text, heard, wanted in (("Who? Ann", "Who?", "Ann"), ("Who?", "Who?", ""),
                                ("Who? Ann", "", "Who? Ann"), ("Whole", "Who", "Whole")):
        found = rest_of(text, heard)
        expect(f"of {text!r} is read behind {heard!r}", found == wanted, found)
    check_scrolled()
    check_question()
    check_readings()


def check_scrolled():
    """A line that moves is not read again."""
    console, count = Console(), 100
    read = console.write(*(f"line {it}\r" for it in range(count)))
    expect("each of 100 lines is read once, also while the screen scrolls", read == [
        [f"line {it}"] for it in range(count)], read)
    console = Console()
    read = console.write("".join(f"line {it}\r" for it in range(count)))
    expect("100 lines that come at once are read once each", read == [
        [f"line {it}" for it in range(count)]], read)
    console = Console()
    first = console.write("\x1b[1;1Htitle\x1b[2;24r\x1b[24;1H")
    read = console.write(*(f"line {it}\r" for it in range(40)))
    expect("below a title that stays the lines that scroll are read once", first == [["title"]]
           and read == [[f"line {it}"] for it in range(40)], first, read)
    console = Console()
    console.write("one\rtwo\r")
    read = console.write("\x1b[1;1H\x1bMzero\x1b[9;1H")
    expect("of lines that move down the new one is read", read == [["zero"]], read)
    console = Console(is_lf=True)
    read = console.write("one\r\n", "two\r\n")
    expect("lines that end with 13 and 10", read == [["one"], ["two"]], read)


def check_question():
    """The words with which a program waits are read once it waits, and then what is typed."""
    console = Console()
    console.write("Who are you? ")
    expect("a question is read once the console is still", console.rest() == ["Who are you?"])
    console.write("A", "nn")
    expect("what is typed is not read before the line is done", console.rest() == [])
    read = console.write("\rHow old? ")
    expect("the line's rest is read with its end", read == [["Ann"]], read)
    expect("the next question", console.rest() == ["How old?"] and console.rest() == [])
    console.write("41\r> ")
    expect("a prompt without words is not read", console.rest() == [])
    read = console.write("in 5\r")
    expect("but with what is typed behind it", read == [["> in 5"]], read)


def check_readings():
    """What is read to a browser that comes for the first time, that listens, and that comes
    again."""
    readings = Readings()
    expect("of nothing nothing is read", readings.since(None) == [] == readings.since(0))
    readings.add(0, [f"line {it}" for it in range(1, 13)])
    first = [(it, f"line {it}") for it in range(13 - MOST, 13)]
    expect("who is new is read the last lines", readings.since(None) == first,
           readings.since(None))
    expect("who has heard all is read nothing", readings.since(12) == [])
    expect("who comes again is read what is new alone", readings.since(10) == first[-2:])
    more = (12 - MOST, "Lines on the page before these: 3.")
    expect("of many lines it is said how many are passed over", readings.since(1) ==
           [more, *first], readings.since(1))
    readings.add(5, ["last"])
    expect("lines that no terminal has kept are passed over", readings.since(12) ==
           [(17, "Lines on the page before these: 5."), (18, "last")], readings.since(12))


def check_read(folder):
    """Each line is read once, also when the session moves to another console, and to a browser
    whose connection was cut."""
    nodes, page = [Made(it, folder) for it in (1, 2, 3)], None
    for it in nodes:
        it.show(b"\r")
    try:
        page = Page(folder, *[it.word() for it in nodes])
        with Cutting(page.port, random.Random(1), 1.0) as cutting:
            visitor = Visitor(page, port=cutting.port)
            for it in range(1, 41, MOST):
                read_lines(visitor, nodes, range(it, it + MOST))
            nodes[0].close()
            visitor.await_that(lambda: visitor.group["seat"] == 1, "the session has moved")
            read_lines(visitor, nodes, range(41, 46))
            cut_off(visitor, cutting, nodes[1])
            read_lines(visitor, nodes[1:], range(47, 49))
            visitor.end()
        wanted = [f"line {it}" for it in range(1, 49)]
        expect("each line is read once, behind a move and a cut", [
            it for it in visitor.heard if it.startswith("line")] == wanted, visitor.heard)
    finally:
        if page:
            page.end()
        for it in nodes:
            it.close()


def read_lines(visitor, nodes, numbers):
    """All consoles show these lines, and they are read."""
    for node in nodes:
        node.show("".join(f"line {it}\r" for it in numbers).encode())
    visitor.await_that(lambda: f"line {numbers[-1]}" in visitor.heard, f"the lines {numbers}")


def cut_off(visitor, cutting, node):
    """Cuts the stream once, by a line that comes."""
    before = visitor.connected
    cutting.is_cutting = True
    node.show(b"line 46\r")
    visitor.await_that(lambda: cutting.cuts > 0, "a cut")
    cutting.is_cutting = False
    visitor.await_that(lambda: visitor.connected > before, "the stream has begun anew")
