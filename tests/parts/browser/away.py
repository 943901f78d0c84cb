"""A page in a browser whose server does not answer, or has ended, for tests/browser; and what those
who hear the page are told."""

import os
import random
import re
import signal
import time

from ..checks import expect, passed
from ..files import bytes_of
from ..page.cutting import Cutting
from ..program import Broken
from .looks import check_contrast, check_width
from .room import Room, picture, said, shown

DISABLED = ("[...document.querySelectorAll('#nodes button, #due button, #touch button')]"
            ".every((it) => it.disabled)")
AWAY = "!document.getElementById('away').hidden"
BANNER = "document.getElementById('away').innerText"
HEARD = "window.heard"
CARDS = "[...document.querySelectorAll('.node .state')].map((it) => it.textContent)"
CURSOR = """(() => { const it = getComputedStyle(document.querySelector(".cursor"));
  return [it.boxShadow, it.backgroundColor]; })()"""
LISTEN = """window.heard = []; new MutationObserver((all) => all.forEach((it) =>
  it.addedNodes.forEach((one) => window.heard.push(one.textContent)))).observe(
  document.getElementById("read"), { childList: true });"""


def check_heard(folder, words):
    """Each line is heard once: also while the screen scrolls, behind a cut, and when the session
    moves. So is each sentence."""
    with Room(folder, "--lf") as room, Cutting(room.page.port, random.Random(1), 1.0) as cutting:
        tab = room.open(port=cutting.port)
        tab.run(LISTEN)
        for it in range(1, 31):
            tab.type(f"line {it}\r")
            tab.await_that(f"{HEARD}.some((it) => /\\bline {it}$/.test(it))", f"line {it} is heard")
        before = cutting.cuts
        cutting.is_cutting = True
        while cutting.cuts == before:
            tab.run("1")
        cutting.is_cutting = False
        room.group[0].kill()
        tab.await_that(f"{HEARD}.some((it) => it.includes('Nobody leads.'))", "the banner is heard")
        tab.run("""fetch("/lead", { method: "POST", body: JSON.stringify({ at: 1 }),
          headers: { "Content-Type": "application/json" } }).then((it) => it.status)""")
        tab.await_that(f"{HEARD}.some((it) => it === 'Node 2 leads now.')", "node 2 leads")
        for it in range(31, 34):
            tab.type(f"line {it}\r")
            tab.await_that(f"{HEARD}.some((it) => /\\bline {it}$/.test(it))", f"line {it} is heard")
        heard = tab.run(HEARD)
        lines = [it for it in heard if "line" in it.split()]
        expect("each line is heard once", [it.removeprefix("> ") for it in lines] == [
            f"line {it}" for it in range(1, 34)], lines)
        others = [it for it in heard if it not in lines and it != ">"]
        twice = {it for it in others if others.count(it) > 1}
        expect("each sentence is heard once", not twice and others, twice, others)


def check_frozen(folder, words):
    """A link over which nothing comes any more: the page says so within seconds, and refuses keys.
    It comes back by itself."""
    with Room(folder) as room:
        tab = room.open()
        tab.type("one")
        tab.await_that(shown("> one"), "what was typed")
        os.kill(room.page.process.pid, signal.SIGSTOP)
        tab.await_that(AWAY, "the page says that it is old", 10)
        check_lost(tab)
        expect("no button can be pressed", tab.run(DISABLED))
        expect("nothing is said of before", tab.run(
            "document.getElementById('note').hidden && document.getElementById('due').hidden"))
        expect("the list has it with its time", tab.run(
            "/^[0-9:]{8}This page lost its connection/.test(document.getElementById('said')"
            ".lastElementChild.textContent)"))
        tab.type("xyz")
        tab.await_that(f"{BANNER}.includes('3 keys typed since then: refused.')",
                       "keys are refused, and that is seen")
        expect("the heading is not that of a group that runs", tab.run(
            "document.getElementById('heading').textContent") == "")
        check_contrast(tab, "a page that is old")
        picture(tab, words, "away")
        os.kill(room.page.process.pid, signal.SIGCONT)
        tab.await_that(f"!({AWAY})", "it is there again")
        tab.await_that(said("3 keys that you typed meanwhile were refused: type them again."),
                       "that keys were refused is said")
        tab.await_that("/a majority; node 1 leads/.test(document.getElementById('heading')"
                       ".textContent)", "the heading is that of the group")
        tab.await_that("document.querySelector('#touch button').disabled === false && "
                       "[...document.querySelectorAll('#nodes button')].some((it) => !it.disabled)",
                       "buttons can be pressed again")
        tab.await_that(said("This page lost its connection."), "it can be read")
        expect("the cards are of now again", tab.run(CARDS) == ["leads", "follows", "follows"],
               tab.run(CARDS))
        tab.type(" two")
        tab.await_that(shown("> one two"), "keys are taken again")
        expect("what was refused was not typed", bytes_of(room.group[0].console) == b"> one two")


def check_lost(tab):
    """One message says what is safe, what is not, and what to do; and all is shown as of then."""
    told = tab.run(BANNER)
    expect("it says since when, what is safe, and what to do", re.match(
        r"This page lost its connection at [\d:]{8}\. No node was lost by that, and the "
        r"session may go on\. What was answered is safe\. Keys that are typed now are not taken\. "
        r"The page connects again by itself", told) and "again, not the program, by" in told
        and re.search(r"eys? typed .*before that .*may not have arrived", told), told)
    expect("the cards are of then", tab.run(CARDS) == [
        f"{it}, as of {told[33:41]}" for it in ("led", "followed", "followed")], tab.run(CARDS))
    expect("no cursor looks alive", tab.run(CURSOR) == ["none", "rgba(0, 0, 0, 0)"],
           tab.run(CURSOR))


def check_slow(folder, words):
    """A slow link: the page says that what is shown is old, and later that it is new again."""
    with Room(folder) as room, Cutting(room.page.port, random.Random(1), 0.0) as slow:
        tab, other = room.open(port=slow.port), room.open()
        slow.rate = 400
        count = 0
        while not tab.run(AWAY):
            other.type("x")
            count += 1
            expect_soon(count)
        told = tab.run(BANNER)
        passed(f"a slow link is told: {told.splitlines()[0][:60]}")
        picture(tab, words, "slow")
        slow.rate = None
        tab.await_that(shown("> " + "x" * min(count, 70)), "what was typed meanwhile", 60)
        tab.await_that(f"!({AWAY})", "it is new again", 60)


def expect_soon(count):
    time.sleep(0.1)
    if count > 600:
        raise Broken("in a minute it was not told that the link is slow")


def check_gone(folder, words):
    """A server that is killed, and one that ends."""
    for name, number in (("killed", signal.SIGKILL), ("ended", signal.SIGTERM)):
        room_of = os.path.join(folder, name)
        os.mkdir(room_of)
        with Room(room_of) as room:
            tab, phone = room.open(), room.open("watch", width=360, height=740, is_touch=True,
                                                prefers_color_scheme="dark")
            tab.type("one")
            tab.await_that(shown("> one"), "what was typed")
            room.page.process.send_signal(number)
            for it in (tab, phone):
                it.await_that(AWAY, f"a server that is {name} is told", 10)
            told = tab.run(BANNER)
            expect("how it is started again is said", room.group[0].record in told
                   and "open the address that it prints" in told, told)
            expect("not the program is started again", "again, not the program" in told, told)
            expect("that it has ended is said if it is known",
                   ("The page's server has ended" in told) == (number == signal.SIGTERM), told)
            other = phone.run(BANNER)
            expect("who watches is told no command, and nothing of keys",
                   "ask whoever gave you its address" in other and "eys " not in other
                   and room.group[0].record not in other, other)
            check_contrast(phone, f"a server that is {name}")
            check_width(phone, f"a server that is {name}", 360)
            tab.type("x")
            tab.await_that(f"{BANNER}.includes('1 key typed since then: refused.')", "refused")
            picture(tab, words, f"server-{name}")
            picture(phone, words, f"server-{name}-360")
    passed("a server that is gone is told")
