"""What a session says and does at single events, with nodes that the test makes."""

import contextlib
import os
import struct
from unittest import mock

from ..checks import expect, passed
from .made import Made, Play, cut


@contextlib.contextmanager
def played(folder, has_record=True, count=3):
    play = Play([Made(it, folder, has_record) for it in range(1, count + 1)])
    try:
        yield play
    finally:
        play.close()


def check_refused(folder):
    """A key that a port refuses is typed at the next node, and there alone."""
    with played(folder, has_record=False) as play:
        one, two, _ = play.nodes
        play.type(b"a")
        one.close()
        two.close()
        play.type(b"b")
        play.await_said("continues at node 3")
        play.type(b"c")
        expect("each key has come once", play.heard() == [b"", b"", b"bc"] or
               play.heard() == [b"a", b"", b"bc"], play.heard())


def check_heard(folder):
    """The same, and what the first node had heard is not typed again."""
    with played(folder, has_record=False) as play:
        play.type(b"abc")
        expect("the first node has the keys", play.heard() == [b"abc", b"", b""], play.heard())
        play.nodes[0].close()
        play.type(b"d")
        play.await_said("continues at node 2")
        expect("the next one gets what came later", play.heard()[1:] == [b"d", b""], play.heard())
        play.await_said('typed at node 1 may be lost, and its record cannot be read here: "abc".')


def check_nobody(folder):
    """Where no node is left what is typed waits, and goes to the first that is there again."""
    with played(folder, has_record=False) as play:
        for it in play.nodes:
            it.close()
        play.type(b"abc")
        play.await_said("Keys that you type wait here")
        expect("keys wait", play.session.waiting() == 3, play.session.waiting())
        play.nodes[1].bind()
        play.await_said("The keys that waited are typed now: the session continues at node 2")
        play.await_that(lambda: play.nodes[1].heard() == b"abc", "what waited is typed")
        expect("nobody else has them", [play.nodes[it].got for it in (0, 2)] == [b"", b""])


def check_consoles(folder):
    """The session never goes on at a console that contradicts what was shown; one that is behind is
    the last choice, and nothing is shown twice there."""
    with played(folder, has_record=False) as play:
        one, two, three = play.nodes
        one.show(b"right\n")
        two.show(b"wrong\n")
        three.show(b"ri")
        play.await_that(lambda: play.shown == b"> right\n", "the first console is shown")
        one.close()
        play.await_said("continues at node 3")
        three.show(b"ght\nmore")
        play.await_that(lambda: play.shown == b"> right\nmore", "the rest is shown, once")
        three.close()
        play.await_said("the console of node 2 is another one. Keys that you type wait here")
        play.type(b"x")
        expect("nothing is typed there", play.heard()[1] == b"", play.heard())


def check_removed(folder):
    """A console goes away while the session looks whether it can go on there."""
    with played(folder, has_record=False, count=2) as play:
        one, two = play.nodes
        agrees = play.session.agrees

        def agrees_and_goes(seat):
            found = agrees(seat)
            os.rename(two.console, two.console + ".gone")
            return found

        with mock.patch.object(play.session, "agrees", agrees_and_goes):
            one.close()
            play.type(b"x")
        play.await_said("console of node 2 is not known or cannot be read")
        os.rename(two.console + ".gone", two.console)
        play.await_said("The keys that waited are typed now: the session continues at node 2")
    passed("a console that goes away while it is looked at")


def check_not_kept(folder):
    """Where `supervise` has given old bytes of a console back to the disk, the session begins and
    goes on with those that are kept."""
    with played(folder, has_record=False, count=2) as play:
        one, two = play.nodes
        text = bytes(65 + it % 26 for it in range(6000))
        for it in (one, two):
            it.show(text)
        play.await_that(lambda: play.shown == b"> " + text, "all is shown")
        two.give_back(5000)
        one.close()
        play.await_said("continues at node 2")
        two.show(b"more")
        play.await_that(lambda: play.shown == b"> " + text + b"more", "it goes on there")
        late = Play([two])
        expect("a new session begins with what is kept", late.shown == (text + b"more")[4998:])
        late.session.close()


def check_cut(folder):
    """A console that is cut, and written again, is shown once."""
    with played(folder, has_record=False, count=1) as play:
        console = play.nodes[0].console
        play.nodes[0].show(b"abcdef")
        play.await_that(lambda: play.shown == b"> abcdef", "it is shown")
        cut(console, 4)
        play.step()
        play.nodes[0].show(b"cd")
        play.step()
        play.nodes[0].show(b"efgh")
        play.await_that(lambda: play.shown == b"> abcdefgh", "what is new is shown")
        expect("a console that is cut is not shown twice", not play.said(), play.said())
        cut(console, 4)
        play.nodes[0].show(b"otherwise")
        play.await_said("console of node 1 is another one than was shown")
        expect("and what contradicts is not shown", play.shown == b"> abcdefgh", play.shown)


def check_long(folder):
    """Of a long console the end is shown, a piece at a time, and then what comes."""
    node = Made(1, folder, False)
    text = b"".join(b"line %d\n" % it for it in range(200000))
    node.show(text)
    play = Play([node])
    try:
        play.await_that(lambda: len(play.shown) == 1 << 18, "the end is shown")
        expect("it is the end", text.endswith(play.shown))
        node.show(b"more")
        play.await_that(lambda: play.shown.endswith(b"\nmore"), "what comes is shown")
    finally:
        play.close()


def check_lost(folder):
    """Each key is named that no record has; what one record has, once its place has other keys."""
    with played(folder) as play:
        one, two, three = play.nodes
        play.type(b"abc")
        expect("three keys wait", play.session.waiting() == 3, play.session.waiting())
        for it in play.nodes:
            it.vote(0, (1, 1), (1, 1, 1, b"a"))
        play.step()
        expect("the first is chosen", play.session.waiting() == 2, play.session.waiting())
        one.vote(1, (1, 1), (1, 1, 2, b"b"))
        one.close()
        play.await_said('A key that was typed at node 1, which has ended, is lost, unless node 2 '
                        'or node 3 has heard of it, which is stopped, does not move, or is not '
                        'seen here: "c".')
        play.await_said('typed at node 1 is chosen by no majority yet, and may be: "b"')
        for it in (two, three):
            it.vote(1, (2, 2))
        play.await_said('here: "b".')
        expect("nothing waits", play.session.waiting() == 0, play.session.waiting())
        expect("nothing is typed again", play.heard()[1:] == [b"", b""], play.heard())


def check_late(folder):
    """A vote of one record that is chosen after all is not called lost."""
    with played(folder) as play:
        play.type(b"ab")
        play.nodes[0].vote(0, (1, 1), (1, 1, 1, b"ab"))
        play.nodes[0].close()
        play.await_said("may be")
        for it in play.nodes[1:]:
            it.vote(0, (2, 2), (1, 1, 1, b"ab"))
        play.await_that(lambda: play.session.waiting() == 0, "they are chosen")
        expect("nothing is called lost", not any("lost:" in it for it in play.said()), play.said())


def check_came(folder):
    """A key that was called lost, and is chosen later: a node that was stopped had heard of it."""
    with played(folder) as play:
        play.type(b"ab")
        play.nodes[0].close()
        play.await_said('2 keys that were typed at node 1, which has ended, are lost, unless')
        for it in play.nodes[1:]:
            it.vote(0, (2, 2), (1, 1, 1, b"ab"))
        play.await_said('2 keys that were called lost have come after all: "ab". Do not type them')


def check_kept(folder):
    """The session leaves a node that still runs, as its console is another one. What was typed
    there is not called lost."""
    with played(folder) as play:
        play.nodes[0].show(b"some text")
        for it in play.nodes[1:]:
            it.show(b"some text")
        play.await_that(lambda: play.shown == b"> some text", "it is shown")
        play.type(b"ab")
        cut(play.nodes[0].console, 0)
        play.nodes[0].show(b"the console of another program")
        play.await_said("continues at node 2")
        play.await_said('Node 1 still runs, and has 2 keys that were typed there: "ab".')
        for it in play.nodes:
            it.vote(0, (1, 1), (1, 1, 1, b"ab"))
        play.await_that(lambda: play.session.waiting() == 0, "they come")
        expect("nothing is called lost", not any("lost:" in it for it in play.said()), play.said())


def check_starts(folder):
    """A node that is started again gives its keys serials from 1 on in a new start. What is typed
    there is told from what was typed before, also where the characters are the same."""
    with played(folder, count=1) as play:
        one = play.nodes[0]
        play.session.tally.size = 1
        play.type(b"abab")
        one.vote(0, (1, 1), (1, 1, 1, b"ab"))
        one.close()
        play.step()
        one.start()
        one.bind()
        play.await_said('2 keys that were typed at node 1, which has ended, are lost: "ab".')
        play.type(b"abx")
        one.vote(1, (2, 1), (1, 2, 1, b"abx"))
        play.await_that(lambda: play.session.waiting() == 0, "what was typed later is chosen")
        expect("nothing else is said of these keys", len(play.said()) == 3, play.said())


def check_renewed(folder):
    """The session is renewed: what was typed and is not chosen is called lost, and what is typed
    then is told from it, though starts and serials begin anew."""
    with played(folder) as play:
        play.type(b"ab")
        play.nodes[0].close()
        play.step()
        for it in play.nodes:
            it.begin(8)
        play.await_said('the one before are lost unless they are shown: "ab".')
        play.nodes[0].close()
        play.nodes[0].bind()
        play.type(b"c")
        at = play.session.at + 1
        for it in play.nodes:
            it.vote(0, (1, 1), (at, 1, 1, b"c"))
        play.await_that(lambda: play.session.waiting() == 0, "what is typed later is chosen")
        expect("it was typed once", b"".join(play.heard()).count(b"c") == 1, play.heard())


def check_others(folder):
    """Keys of others at the same node, before and between."""
    with played(folder, count=1) as play:
        one = play.nodes[0]
        one.vote(0, (1, 1), (1, 1, 1, b"other"))
        play.step()
        play.session.tally.size = 1
        play.type(b"mine")
        expect("what others have typed is not ours", play.session.waiting() == 4)
        one.vote(1, (1, 1), (1, 1, 6, b"miXne"))
        play.await_that(lambda: play.session.waiting() == 0, "ours are found among others")


def check_window(folder):
    """At most 128 keys are at the node that no record has. What waits here is typed at the next
    node, in its order."""
    with played(folder) as play:
        text = bytes(33 + it % 90 for it in range(500))
        play.type(text)
        expect("the first node has 128 keys", play.heard()[0] == text[:128], len(play.heard()[0]))
        for it in play.nodes:
            it.vote(0, (1, 1), (1, 1, 1, text[:32]))
        play.await_that(lambda: len(play.heard()[0]) == 160, "32 more are typed")
        play.nodes[0].close()
        play.await_said("continues at node 2")
        play.await_that(lambda: len(play.heard()[1]) == 128, "it goes on at the next node")
        expect("in their order", play.nodes[1].got == text[160:288], play.nodes[1].got)


def check_full(folder):
    """It is said that keys wait since no place is left, once a majority has voted at the last."""
    def votes(places):
        return b"".join(b"\3" + struct.pack(">IIB", it, 1, 1) + b"\0" for it in places)

    with played(folder) as play:
        play.type(b"x")
        for it in play.nodes[::2]:
            it.write(b"\2" + struct.pack(">IB", 1, 1) + votes(range(65535)))
        play.nodes[0].write(votes([65535]))
        play.await_that(lambda: play.session.tally.decided.count(1) == 65535, "it has seen them")
        full = "all places are taken; renew the session"
        expect("a place is left", play.session.why_waiting() != full)
        play.nodes[2].write(votes([65535]))
        play.await_that(lambda: play.session.why_waiting() == full, "no place is left")
    passed("why keys wait at a session that is full")


CHECKS = (
    check_refused, check_heard, check_nobody, check_consoles, check_removed, check_not_kept,
    check_cut, check_long, check_lost, check_late, check_came, check_kept, check_starts,
    check_renewed, check_others, check_window,
)
