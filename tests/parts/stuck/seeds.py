"""The scripts of tests/stuck: of a seed, in `sim` and by the rules alone."""

import functools
import random

from shared.replica.protocol import Protocol

from ..findings import Finding
from ..storms import FOREVER, Storm
from ..trials import finding_in
from .costs import most_cost
from .end import Going, candidate_of, ending_of
from .long import LongStorm
from .search import search, two_values_in


def make_worse(bias, chance, size):
    """In half of all seeds one kind of message is mostly lost while many campaign, in some most
    saves fail while all may be down, and in some all that is on its way takes long."""
    if chance.random() < 0.5:
        bias.weights["campaign"] = chance.choice((5, 20, 60))
        bias.kind = chance.choice(("accept", "accepted", "promise", "tell"))
        bias.lost_of_kind = chance.choice((0.5, 0.9, 0.97))
    if chance.random() < 0.3:
        bias.failing, bias.most_down = chance.choice((0.05, 0.2, 0.4)), size
    if chance.random() < 0.2:
        bias.spread, bias.most_on_way = 200, FOREVER


def storm_of(seed, events, rules=Protocol, is_minority=False):
    """The script of a seed. A group of one has no minority, so that it is not made then."""
    chance = random.Random(seed)
    storm = Storm(chance, events, functools.partial(ending_of, is_minority=is_minority), rules)
    make_worse(storm.bias, chance, storm.group.size)
    return storm.make() if storm.ending.members else None


def long_of(seed):
    """A script of many places."""
    chance = random.Random(seed)
    return LongStorm(chance, 0, ending_of).make()


def found_in(play):
    """What `sim` shows of a script that should not be, or that more was sent than may be."""
    found = finding_in(play)
    if found or play.took is None or play.took.is_mixed:
        return found
    cost, most = play.took.cost.messages, play.took.most.messages
    return Finding("too many messages", f"{cost}, at most {most}") if cost > most else None


def verdict_on(play, ending, seed):
    """What becomes of the nodes that go on behind a play, by the group's rules, and a place with
    two values, or None."""
    members = ending.members
    going = Going(play, members)
    going.set_up(ending.typing)
    keys = going.waiting()
    rounds = most_cost(play.group, members, candidate_of(play.group, members)).rounds
    verdict, plays = search(play, members, keys, rounds, random.Random(seed))
    places = (two_values_in(play, it) for it in plays)
    return verdict, next((it for it in places if it is not None), None)
