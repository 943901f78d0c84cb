"""Asks the supervisors of a group for their state."""

import collections
import secrets
import select
import socket
import time

from ..supervising.key import is_signed, signed
from .texts import QUESTION, TIMES, question, state_in

# How often a question is sent to those that have not answered, in the time that is waited.
TIMES_ASKED = 4


def states_of(addresses, session, key=None, seconds=1.0):
    """What the supervisors at these addresses, in the order of the nodes, answer within this time:
    the session, which is another one if theirs continues the one that is asked for, and the states
    by the numbers of their nodes."""
    nonce, nodes = secrets.token_hex(8), {it: node for node, it in enumerate(addresses, 1)}
    data = question(session, nonce, (lambda it: signed(it, key)) if key else None)
    states, end = {}, time.monotonic() + seconds
    with socket.socket(socket.AF_INET, socket.SOCK_DGRAM) as asker:
        asker.setblocking(False)
        for turn in range(1, TIMES_ASKED + 1):
            for address in (it for it, node in nodes.items() if node not in states):
                try:
                    asker.sendto(data, address)
                except OSError:
                    pass  # There is no way to it now.
            until = end - seconds * (1 - turn / TIMES_ASKED)
            for source, came in heard_until(asker, until, lambda: len(states) == len(nodes)):
                node, (of, state) = nodes.get(source), state_of(came, nonce, key)
                if state and state.node == node:
                    states[node] = of, state
    counts = collections.Counter(of for of, _ in states.values())
    session = max(counts, key=lambda it: (counts[it], it != session), default=session)
    return session, {node: it for node, (of, it) in sorted(states.items()) if of == session}


def heard_until(asker, end, is_over):
    """Yields what comes until then, or until it is over: from where, and its bytes."""
    while not is_over():
        left = end - time.monotonic()
        if left <= 0 or not select.select([asker], [], [], left)[0]:
            return
        try:
            data, source = asker.recvfrom(TIMES * QUESTION + 1)
        except OSError:
            continue  # Nobody has a port that was asked.
        yield source, data


def state_of(data, nonce, key):
    """The session and the state in an answer to the question with this nonce, or None twice."""
    found = state_in(data) if not key or is_signed(data, key) else None
    return (found[0], found[2]) if found and found[1] == nonce else (None, None)
