"""What a page tells of nodes that are lost, for tests/page."""

import re

from shared.paging.life import NEAR
from shared.paging.marks import LOST as LOSSES
from shared.words import ask

from ..checks import expect, passed
from ..program import must
from .room import Room
from .visitor import await_page


def check_few(folder):
    """Without a majority the page says so in plain words, and nowhere that a node leads. Once one
    runs again a sentence says what has happened."""
    with Room(folder) as room:
        ask(room.group[0].keys)
        visitor = room.visit()
        await_page(visitor)
        visitor.await_that(lambda: states_of(visitor) == ["leads", "up", "up"], "node 1 leads")
        for it in room.group[1:]:
            it.kill()
        few = "Only 1 of 3 nodes runs, and 2 are needed"
        heading = rf"{LOST}\. {few}: the program stands still"
        visitor.await_that(lambda: re.fullmatch(heading, visitor.group["heading"]), heading)
        told = visitor.group
        expect("no node is said to lead", not told["is_led"] and "leads" not in
               [it["state"] for it in told["nodes"]] and "leads" not in told["due"]["text"], told)
        expect("what a key would do is said", told["waiting"] == 0 and told["flow"] == "waits"
               and told["until"] == "until 2 nodes run", told)
        visitor.press("kept")
        due = (rf"{LOST}\. {few}\. The program stands still\. What is typed is kept: 4 keys wait\. "
               r"Start nodes 2 and 3, unless supervisors do so\.")
        visitor.await_that(lambda: re.fullmatch(due, visitor.group["due"]["text"]), due)
        still = f"{few}: the program stands still. What is typed meanwhile is kept."
        visitor.await_that(lambda: still in visitor.sentences, still)
        room.group[2].begin()
        visitor.await_that(lambda: visitor.text() == "> kept", "it goes on")
        visitor.await_that(lambda: not visitor.group["due"], "nothing is due")
        again = "2 of 3 nodes run again, which is a majority: the program continues"
        await_said(visitor, rf"{again}( once one of them leads)?\.")
        await_said(visitor, rf"{LOST}, and node 1 led again after {SPAN}\. {KEPT} Node 2 is "
                   r"missing\.")
        room.group[1].begin()
        await_said(visitor, rf"{LOST}\. 2 of 3 nodes are needed and only 1 ran, (so|and then a "
                   rf"node had to take the lead:) the program stood still for {SPAN}( in all)?"
                   rf"\. Both came up again, node 1 led again, and the program went on\. {KEPT}")
    passed("without a majority: what happens, what to do, and afterwards what has happened")


LOST = r"([Nn]odes 2 and 3 have ended at the same time|[Nn]ode 2 has ended, then node 3 has ended)"
SPAN = r"(about a second|about \d+ seconds|about \d minutes|less than a second)"
KEPT = r"All 4 keys went in\."


def await_said(visitor, pattern):
    visitor.await_that(lambda: any(re.fullmatch(pattern, it) for it in visitor.sentences), pattern)


def states_of(visitor):
    return [it["state"] for it in visitor.group["nodes"]]


def check_turns(visitor):
    """Of each node deaths and starts are told in turns, the death first. Between the two it is not
    said to lead."""
    for at in range(3):
        kinds = [it[3] for it in sorted(visitor.marks, key=lambda it: it[1]) if it[2] == at
                 and it[3] in (*LOSSES, "start", "leads")]
        dead = [it for it in zip(kinds, kinds[1:]) if it[0] in LOSSES and it[1] == "leads"]
        expect(f"node {at + 1} is not said to lead after a death", not dead, kinds)
        kept = [it for it in visitor.marks if it[2] == at and it[3] in (*LOSSES, "start")]
        kept.sort(key=lambda it: it[1])
        kinds = ["start" if it[3] == "start" else "ended" for it in kept]
        for one, two in zip(kept, kept[1:]):
            is_late = "start" not in (one[3], two[3]) and two[1] - one[1] >= NEAR
            must(not is_late, f"a limit of time: node {at + 1} was not up {NEAR} ms after a kill, "
                 f"which is told as another death: {kept}")
        wanted = [("ended", "start")[it % 2] for it in range(len(kinds))]
        if kinds != wanted:
            # The time of a death is the supervisor's, and that of a start the page's own.
            late = [pair for pair in zip(kept, kept[1:]) if pair[0][0] > pair[1][0]]
            must(not late, f"a limit of time: the page has seen a start of node {at + 1} after its "
                 f"next death: {late}")
        expect(f"node {at + 1}: {len(kinds)} deaths and starts take turns", kinds == wanted, kept)
