"""What becomes of groups of changed nodes: of each change of a rule whether some script leaves a
majority stuck."""

import collections

from ..program import must
from ..small import Small
from . import changed
from .search import copied
from .seeds import storm_of, verdict_on

# What a script comes to, from the best to the worst.
OUTCOMES = READ, LATER, STUCK = "read after one campaign", "read after other campaigns", "stuck"

# A change: its nodes; what its scripts come to at the worst; and a seed of 600 events at which they
# do. Where that is not STUCK the reason stands here, and a change near it follows.
Change = collections.namedtuple("Change", "rules worst seed")

CHANGES = (
    Change(changed.Unchanged, READ, 1),
    # A campaign of the node with the least front proposes again what it lacks.
    Change(changed.PassesOverAsks, LATER, 5),
    Change(changed.PassesOverLearned, STUCK, 5),
    Change(changed.LeavesLastVote, STUCK, 3),
    # Each campaign begins at the front, so that it learns eight places more.
    Change(changed.TakesFirstParts, LATER, 31),
    Change(changed.AsksFromNought, STUCK, 31),
    Change(changed.CoversVotesAlone, STUCK, 1),
    Change(changed.NeverCovers, STUCK, 1),
    # A campaign asks anew for promises, and proposes anew what was voted for.
    Change(changed.SendsNothingAgain, READ, 1),
    Change(changed.SubmitsOnce, STUCK, 8),
    Change(changed.CountsOldBallots, STUCK, 9),
    Change(changed.SubmitsToFirst, STUCK, 3),
)


def name_of(change):
    text = " ".join(change.rules.__doc__.split())
    return f"a node that {text} ({change.rules.__name__})"


def outcome_of(change, seed, events):
    """What the script of a seed comes to. Broken where a place has two values, or the script is
    stuck and yet something still changes, or it is worse than all of this change."""
    storm = storm_of(seed, events, change.rules)
    verdict, place = verdict_on(storm.play, storm.ending, seed)
    outcome = READ if verdict.by_one else LATER if verdict.by_any else STUCK
    where = f"{change.rules.__name__}, seed {seed}, {outcome}"
    must(place is None, f"{where}: place {place} has two values")
    must(OUTCOMES.index(outcome) <= OUTCOMES.index(change.worst), where)
    must(outcome != STUCK or verdict.stands_still, f"{where}: something still changes")
    return outcome


def least_script(change, seed, events):
    """The play of a seed whose majority is stuck, without the lines that are not needed for that,
    and the majority."""
    storm = storm_of(seed, events, change.rules)

    def find(play):
        verdict, _ = verdict_on(copied(play), storm.ending, seed)
        return None if verdict.by_any else STUCK

    return Small(storm, find, lambda play, _: play.show()).make(), storm.ending
