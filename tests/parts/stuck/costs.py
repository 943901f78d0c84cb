"""How many rounds and messages take a majority from a campaign to where all of it has read all that
waited, by the rules of docs/FORMATS.md, "What a node does".

All that is sent is delivered in order before the next event, to the majority alone. First one node,
the leader, campaigns. Its ballot is above all that the others have promised. Then come rounds, in
each of which every node of the majority ticks once, until all have one front and no key waits. A
message to all counts once.

- Prepare to all is one message. A Promise has at most 8 votes, so a node with v votes from the
  leader's front on answers in parts(v) = max(1, ceil(v / 8)) Promises, and the leader asks for each
  but the first by one Prepare more: 2 parts(v) - 1 messages for each node, and 1.
- Open places are those from the leader's front up to the last vote that is reported to it. Each of
  them is proposed again, or as a no-op: an Accept, and an Accepted of each node. A pump proposes at
  most 16. There is one with each Promise, and with each tick of the leader.
- Each tick sends an Ask. A node whose front is below the leader's is told 16 places with each, by
  each node that knows them.
- Each tick of a node with waiting keys sends a Submit of at most 32 of them. The leader proposes
  them as soon as it has nothing of the first two kinds left: an Accept, and an Accepted of each.
  All learn it before the next tick.

So n nodes with one front, of which all have votes at the next k places, and w keys at one of them,
take ceil(w / 32) rounds of n ticks, and

    1 + n (2 parts(k) - 1) + k (n + 1) + ceil(w / 32) (2n + 2)

messages: in a round there are n Asks, a Submit, an Accept, and n Accepteds."""

import collections

from shared.record import MOST_KEYS
from shared.replica.datagram import MOST_VOTES
from shared.replica.protocol import MOST_PUMPED, MOST_TOLD, WINDOW

from ..endings import places_of

Cost = collections.namedtuple("Cost", "rounds messages")


def over(number, share):
    """How many shares are begun."""
    return -(-number // share)


def promises_of(votes):
    """The parts of the promise of a node that has so many votes from the leader's front on."""
    return max(1, over(votes, MOST_VOTES))


def batches_of(waiting):
    """How many batches become of so many keys at each of some nodes."""
    return sum(over(it, MOST_KEYS) for it in waiting)


def asked_for(parts):
    """The Prepares and Promises of a campaign whose promises have so many parts."""
    return 1 + sum(2 * it - 1 for it in parts)


# Worlds that are made for it: all n nodes are up, node 1 campaigns, and each but node n has learned
# the first places, which are lacking at node n.


def cost_of(size, opened, voters, waiting, lacking):
    """What it takes where so many nodes have votes at each of so many open places, where so many
    keys wait at each of these nodes, and node n lacks so many places. At a node that lacks some no
    key waits.

    The parts come one after the other, so that all open places are proposed without a tick. Node n
    asks last in its rounds: by then the others have learned a batch of each node at which so many
    waited."""
    batches = [over(it, MOST_KEYS) for it in waiting]
    asks = over(lacking, MOST_TOLD)
    rounds = max(asks, *batches)
    told = 0
    for at in range(asks):
        known = lacking + opened + sum(min(it, at + 1) for it in batches)
        told += min(MOST_TOLD, known - MOST_TOLD * at)
    parts = [promises_of(opened)] * voters + [1] * (size - voters)
    messages = (asked_for(parts) + opened * (size + 1) + rounds * size
                + batches_of(waiting) * (1 + 1 + size) + told * (size - 1))
    return Cost(rounds, messages)


def cost_of_holes(size, opened):
    """What it takes where only the last of the open places has votes, and no key waits. The promise
    of a majority covers all places. The one that completes it pumps, each later one, and then each
    tick of the leader."""
    pumps = size - (size // 2 + 1) + 1
    rounds = over(max(0, opened - MOST_PUMPED * pumps), MOST_PUMPED)
    return Cost(rounds, asked_for([1] * size) + opened * (size + 1) + rounds * size)


# Any world.


def rounds_lacking(front, opened, fronts, batches):
    """In how many rounds all know the open places, and up to which place some may be told others.

    At least one pump is made as the places are covered. Meanwhile those whose fronts are below the
    leader's are told what they lack. But where a place is not open to them all, all of them may
    have to be told, and a node that lacks some may have put one more there in each round."""
    least = min(fronts)
    rounds = max(over(max(0, opened - MOST_PUMPED), MOST_PUMPED), over(front - least, MOST_TOLD))
    if front + opened + sum(rounds + it for it in batches) - least <= WINDOW:
        return rounds, max(fronts)
    rounds = over(front + opened + sum(batches) - least, MOST_TOLD - len(batches))
    return rounds, front + opened + sum(rounds + it for it in batches)


def most_cost(group, members, leader):
    """Within how many rounds and messages it is over, before `leader` campaigns.

    Once all know the open places each round puts 32 keys of each node at a place. A node may submit
    in each round before that too."""
    nodes, count = [group.nodes[it] for it in members], len(members)
    front, fronts = group.nodes[leader].learner.front, [it.learner.front for it in nodes]
    opened = max(0, places_of([group.stored[it] for it in members]) - front)
    batches = [over(len(it.waiting), MOST_KEYS) for it in nodes if it.waiting]
    before, known = rounds_lacking(front, opened, fronts, batches)
    rounds, submits = before + max(batches, default=0), sum(before + it for it in batches)
    told = sum(MOST_TOLD * over(known - it, MOST_TOLD) for it in fronts)
    messages = (asked_for([promises_of(opened)] * count) + opened * (1 + count) + rounds * count
                + submits * (1 + 1 + count) + told * (count - 1))
    return Cost(rounds, messages)
