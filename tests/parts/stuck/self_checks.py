"""What tests/stuck tries besides seeds: that it can see, what worlds cost whose cost is known, and
changed rules. Each check is a function of a folder."""

import functools

from shared.replica.protocol import Proposer

from ..checks import expect
from ..findings import finding_of
from ..trials import case_of, finding_in
from . import changed
from .changes import CHANGES, name_of, outcome_of
from .costs import Cost
from .end import end_play
from .seeds import storm_of, verdict_on
from .worlds import gone_on, places_in, wanted_of, worlds

MINORITIES = 20
# What is found of a group in which a key is not read.
UNREAD = ("hole stays", "key waits")
# How many seeds are tried of a change, from the one that is known on: at least, and at most where a
# change of the scripts has left that one without what it had.
LEAST_SEEDS, MOST_SEEDS = 5, 40


# That it can see.


def check_minority(_folder, events):
    """A minority cannot read what is typed at one of its nodes, and `sim` shows that."""
    storms = [storm_of(seed, events, is_minority=True) for seed in range(1, MINORITIES + 1)]
    storms = [it for it in storms if it]
    for it in storms:
        end_play(it.play, it.ending)
    found = [finding_in(it.play) for it in storms]
    count = sum(it is not None and it.kind in UNREAD for it in found)
    text = f"minorities are found stuck in {count} of {len(storms)} scripts"
    expect(text, count == len(storms) > 0, found)


class NoVotesProposer(Proposer):
    def keep(self, sender, fields):
        return super().keep(sender, {**fields, "votes": []})


class KeepsNoVotes(changed.ChangedProposing):
    """keeps no vote of a promise"""

    proposing = NoVotesProposer


def check_unsafe(_folder, events):
    """A change that is not safe is seen."""
    for seed in range(1, MOST_SEEDS + 1):
        storm = storm_of(seed, events, KeepsNoVotes)
        place = verdict_on(storm.play, storm.ending, seed)[1]
        if place is not None:
            break
    expect(f"two values are found where a node {KeepsNoVotes.__doc__}", place is not None)


# Costs.


def measured(world, shows):
    """The rounds and messages after which all nodes know all places, by what `sim` has shown:
    before the campaign, after it, and after each round."""
    for rounds, show in enumerate(shows[1:]):
        if {it.known for it in show.nodes.values()} == {str(places_in(world))}:
            return Cost(rounds, show.sent - shows[0].sent)
    return None


def text_of(world, cost):
    holes = " at the last alone" if world.has_holes else ""
    keys = " and ".join(map(str, world.waiting))
    return (f"nodes {world.size}, open places {world.opened}, voters {world.voters}{holes},"
            f" keys {keys}, places lacking {world.lacking}:"
            f" rounds {cost.rounds}, messages {cost.messages}")


def check_costs(_folder):
    """It takes as many rounds and messages as the rules say."""
    for world in worlds():
        case = case_of(gone_on(world))
        came, wanted, found = measured(world, case.shows), wanted_of(world), finding_of(case)
        expect(text_of(world, wanted), came == wanted and found is None, came, found)


# Changes.


def check_change(_folder, change, events):
    """Some script comes to the worst to which those of the change come."""
    outcomes = {}
    for seed in range(change.seed, change.seed + MOST_SEEDS):
        outcomes[seed] = outcome_of(change, seed, events)
        if change.worst in outcomes.values() and len(outcomes) >= LEAST_SEEDS:
            break
    first = next((it for it, outcome in outcomes.items() if outcome == change.worst), None)
    expect(f"{name_of(change)}: {change.worst}, by seed {first}", first is not None, outcomes)


def checks(events):
    """The checks of this file."""
    some = [check_minority, check_unsafe]
    some = [functools.partial(it, events=events) for it in some] + [check_costs]
    return some + [functools.partial(check_change, change=it, events=events) for it in CHANGES]
