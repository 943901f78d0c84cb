"""Tries tests/storm itself: each finding is named where what is shown was changed by hand, and
scripts are made small for a condition that was made up."""

import random

from shared.replica.script import SETTLE, Event
from shared.replica.shown import NodeLine, Shown

from ..checks import expect
from ..findings import Case, finding_of
from ..plays import End, Learned, Play, play_again
from ..small import Small, least_of
from ..storms import Storm
from ..trials import finding_in
from .end import end_play, ending_of

# Of a group of three: h and jk were typed at node 2, and i at node 3. The h was chosen twice.
TYPED = {(2, 1, 1): ord("h"), (2, 1, 2): ord("j"), (2, 1, 3): ord("k"), (3, 1, 1): ord("i")}
PLACES = {0: "key 2 1 1 68", 1: "noop", 2: "key 3 1 1 69", 3: "key 2 1 1 686A6B"}
CONSOLE = b"> hijk"
WAITING = [(2, 1, 2, ord("j")), (2, 1, 3, ord("k"))]


def shown_of(console, places, known):
    """Three nodes with the same console, of which all but node 1 are up."""
    nodes = {it: NodeLine(it > 1, str(known), "1.2", console) for it in (1, 2, 3)}
    return Shown(nodes, dict(places), 50)


def case_of(console=CONSOLE, places=None, known=4, typed=None, waiting=()):
    """A case of two shows: at the first of them the h is learned, and the second is the end."""
    places = PLACES if places is None else places
    shows = [shown_of(b"> ", {0: places[0]}, 1), shown_of(console, places, known)]
    blank = [
        it._replace(nodes={node: line._replace(console=b"") for node, line in it.nodes.items()})
        for it in shows
    ]
    learned = [Learned(20 + it, 2, 1, it, value) for it, value in places.items()]
    return Case(shows, [], typed or TYPED, learned, blank, [], End(1, [*WAITING, *waiting], (2, 3)))


def with_console(case, show, node, console):
    """The case with another console of a node."""
    nodes = case.shows[show].nodes
    nodes[node] = nodes[node]._replace(console=console)
    return case


def without(places, place):
    return {it: value for it, value in places.items() if it != place}


def changed_cases():
    """Pairs of the kind that has to be found, and a case with it."""
    case = case_of()
    case.shows[0].places[0] = "noop"
    yield "two values", case
    case = case_of()
    case.learned.append(Learned(30, 1, 1, 2, "noop"))
    yield "two values", case
    yield "not typed", case_of(b"> hijkx", {**PLACES, 4: "key 1 1 1 78"}, 5)
    yield "not typed", case_of(b"> hxjk", {**PLACES, 2: "key 3 1 1 78"})
    yield "not typed", case_of(b"> hijki", {**PLACES, 4: "key 3 2 1 69"}, 5)
    yield "out of order", case_of(b"> ji", {0: "key 2 1 2 6A", 1: "key 3 1 1 69"}, 2)
    yield "contradict", with_console(case_of(), 1, 2, b"> hk")
    yield "console lost", with_console(case_of(), 1, 1, b">")
    yield "wrong output", case_of(CONSOLE + b"k")
    yield "wrong output", case_of(b"> hji", PLACES)
    yield "wrong output", with_console(case_of(), 1, 3, CONSOLE + b"\0")
    yield "key read twice", case_of(b"> hihjk")
    yield "false front", case_of(known=5)
    case = case_of()
    case.shows[1].nodes[3] = case.shows[1].nodes[3]._replace(is_up=False)
    yield "is down", case
    yield "hole stays", case_of(b"> h", without(PLACES, 1), 1)
    yield "hole stays", case_of(known=3)
    waits = {**TYPED, (3, 1, 2): ord("w")}
    yield "key waits", case_of(typed=waits, waiting=[(3, 1, 2, ord("w"))])
    yield "not shown", with_console(case_of(), 1, 3, b"> hij")
    case = case_of()
    case.wanted[1] = case.wanted[1]._replace(sent=51)
    yield "differs", case
    yield "differs", case_of()._replace(refusals=["line 9 node D4"])
    yield "differs", case_of()._replace(wanted=[])


def check_kinds(_folder):
    found = finding_of(case_of())
    expect("a case in which all holds has no finding", found is None, found)
    for kind, case in changed_cases():
        found = finding_of(case)
        expect(f"found: {kind}", found and found.kind == kind, found)


def check_least(_folder):
    """The items of a list that are needed, wherever they are."""
    def least(is_kept, rest_of=list):
        def kept(some):
            return rest_of(some) if is_kept(set(rest_of(some))) else None

        return least_of(list(range(100)), kept)

    three = least({3, 17, 64}.issubset)
    expect("three items that are needed are left", three == [3, 17, 64], three)
    # Each of the last fifty cannot be without one of the first fifty.
    rest = least({60, 99}.issubset, lambda some: [it for it in some if it < 50 or it - 50 in some])
    expect("and those without which they cannot be", rest == [10, 49, 60, 99], rest)
    expect("nothing is left where nothing is needed", least(lambda some: True) == [])


def check_renumbered(_folder):
    """Where a line is left out, the messages behind it have other numbers."""
    play = Play(3, 7)
    lines = [Event("start", 1), Event("start", 2), Event("tick", 1), Event("tick", 2), SETTLE,
             Event("deliver", 2, 1), Event("deliver", 1, 0)]
    for line in lines:
        play.line(line)
    items = play.items(len(lines))
    again = Play(3, 7)
    done = play_again(again, items[:2] + items[3:])
    wanted = [lines[0], lines[1], lines[3], SETTLE, Event("deliver", 2, 0)]
    expect("a message has its new number", again.lines == wanted, again.lines)
    expect("and without its line it is left out", done == items[:2] + items[3:6], done)


def crashes_late(play):
    """A made-up finding: node 2 goes down after place 3 is learned."""
    learned = [it.line for it in play.learned if it.place == 3]
    return any(
        isinstance(it, Event) and it[:2] == ("crash", 2) and learned and at > learned[0]
        for at, it in enumerate(play.lines, 2)
    ) or None


def check_small(_folder):
    """A script with the made-up finding, made small: no line of it can be left out, and it is one
    of `sim`."""
    storms = (Storm(random.Random(seed), 2000, ending_of).make() for seed in range(1000))
    storm = next(it for it in storms if it.group.size == 3 and crashes_late(it.play))
    small = Small(storm, crashes_late, end_play)
    play = small.make()
    expect("what was made up still holds", crashes_late(play))
    fewer = [small.items[:at] + small.items[at + 1 :] for at in range(len(small.items))]
    needed = all(small.kept(it, small.ending) is None for it in fewer)
    expect("and no line can be left out", needed, play.text())
    sizes = len(storm.play.lines), len(play.lines)
    expect("of {} lines {} are left".format(*sizes), sizes[1] < 100 < sizes[0], play.text())
    expect("all holds of it in sim", finding_in(play) is None)
    tried = Small(storm, crashes_late, end_play, most_tries=20)
    play, tries = tried.make(), tried.tries
    is_so = tries == 20 and not tried.is_least() and crashes_late(play)
    expect("it ends after as many tries as there may be", is_so, tries)


def check_same(_folder):
    """A seed is always the same script, also where nothing of it is left out."""
    storms = [Storm(random.Random(seed), 200, ending_of).make() for seed in (1, 1, 2)]
    texts = [it.play.text() for it in storms]
    expect("the same seed makes the same script", texts[0] == texts[1] != texts[2])
    for it in storms[1:]:
        again = it.play.again()
        play_again(again, it.items)
        expect("with all its lines a script is the same", again.text() == it.play.text())


def self_checks():
    """The checks of this file, each a function of a folder."""
    return check_kinds, check_least, check_renumbered, check_small, check_same
