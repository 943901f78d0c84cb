"""What is said of a group by the answers of its supervisors, for tests/group_asked: each answer is
made by hand, and so is what can be known by them."""

from shared.asking.forms import json_of, metrics_of
from shared.asking.texts import QUESTION, TIMES, State, answer, asked_in, question, state_in
from shared.asking.view import NOT, UNKNOWN, UP, View
from shared.record import Ballot
from shared.supervising.process import Node

from ..checks import expect

ADDRESSES = [f"10.7.0.{it}:7201" for it in range(1, 4)]
B1, B2 = Ballot(1, 1), Ballot(2, 2)
UNSAID = "whether a majority is up is unknown"


def of(node, process="up", leader=None, leads=False):
    return State(node, 3, 0.0, process=process, leader=leader, leads=leads, heard={})


# What is answered, the heading behind the session, and the status of --check.
CASES = (
    ("nothing is answered", [], f"0 of 3 nodes are known to be up, {UNSAID}; who leads is unknown",
     UNKNOWN),
    ("all answer", [of(1, "up", B1, True), of(2, "up", B1), of(3, "up", B1)],
     "3 of 3 nodes are up, a majority; node 1 leads, ballot 1.1", UP),
    ("one is cut off", [of(1, "up", B1, True), of(2, "up", B1)],
     "2 of 3 nodes are known to be up, a majority; node 1 leads, ballot 1.1", UP),
    ("only the one that was cut off answers", [of(3)],
     f"1 of 3 nodes are known to be up, {UNSAID}; who leads is unknown", UNKNOWN),
    ("the leader does not answer here", [of(2, "up", B1), of(3, "up", B1)],
     "2 of 3 nodes are known to be up, a majority; node 1 leads, ballot 1.1, as node 2 hears", UP),
    ("only one that hears the leader answers", [of(3, "up", B1)],
     f"1 of 3 nodes are known to be up, {UNSAID}; node 1 leads, ballot 1.1, as node 3 hears",
     UNKNOWN),
    ("the leader was just killed", [of(1, "down", B1), of(2, "up", B1), of(3, "up", B1)],
     "2 of 3 nodes are up, a majority; nobody leads", NOT),
    ("the leader was stopped", [of(1, "held"), of(2, "up"), of(3, "up")],
     "2 of 3 nodes are up, a majority; nobody leads", NOT),
    ("two are down", [of(1, "down"), of(2, "down"), of(3, "up")],
     "1 of 3 nodes are up, no majority; nobody leads", NOT),
    ("two are known to be down", [of(1, "down"), of(2, "down")],
     "0 of 3 nodes are known to be up, no majority; nobody leads", NOT),
    ("one is down, and one does not answer", [of(1, "down"), of(2, "up")],
     f"1 of 3 nodes are known to be up, {UNSAID}; nobody leads", NOT),
    ("two lead in the eyes of others", [of(1, "up", B1, True), of(2, "up", B2, True)],
     "2 of 3 nodes are known to be up, a majority; node 2 leads, ballot 2.2", UP),
)


def check_views(_folder):
    for what, states, heading, status in CASES:
        view = View(7, ADDRESSES, {it.node: it for it in states})
        said = view.heading()
        expect(f"{what}: {heading}", said == f"session 7: {heading}", said)
        expect(f"{what}: status {status}", view.status() == status, view.status())
        # No text for other programs says more.
        majority = {True: "true", False: "false", None: "null"}[view.has_majority()]
        is_so = f'"majority": {majority},' in json_of(view)
        is_known, metrics = majority != "null", metrics_of(view)
        is_said = ("\npgroup_majority{" in metrics) == is_known
        is_said &= f'\npgroup_majority_known{{session="7"}} {int(is_known)}\n' in metrics
        expect(f"{what}: as JSON and as metrics", is_so and is_said, metrics)


def longest():
    """The state with the most to say of it."""
    last, number = Ballot(4294967295, 9), 2**63 - 1
    heard = {node: (99999.0, last) for node in range(1, 9)}
    return State(
        9, 9, 1e10, "held", number, 4294967295, last, 65536, True, last, heard, number,
        "execution error 99 in procedure 255 at 65535", (1e10, "f" * 300), "v" * 60, "a" * 16,
        "b" * 16, 3600.0, 65536, 256,
    )


def check_known(_folder):
    """How far a node knows the session: unknown as long as it does not say so."""
    for front, waiting, said in ((None, None, ("unknown",) * 2), (12, 0, ("12", "0"))):
        view = View(7, ADDRESSES, {1: of(1)._replace(front=front, waiting=waiting)})
        line, json, metrics = list(view.lines())[1], json_of(view), metrics_of(view)
        shown = "known front {}, keys waiting {}".format(*said)
        is_so = f"; {shown}; " in line
        told = [it.replace("unknown", "null") for it in said]
        is_so &= '"known_front": {},\n   "keys_waiting": {},'.format(*told) in json
        for name, value in zip(("known_front", "keys_waiting"), said):
            sample = f'\npgroup_node_{name}{{session="7",node="1"}} {value}\n'
            is_so &= sample in metrics or value == "unknown" and name not in metrics
        expect(f"{shown}: in the line, in JSON and in the metrics", is_so, line, json, metrics)
    node = Node.__new__(Node)  # Nothing of it is needed but what it notes.
    node.front, node.learned = None, 0
    for text, known in (("known front 12 waiting 3", (12, 3)), ("leads ballot 4.2", (12, 3)),
                        ("known front 65536 waiting 256", (65536, 256))):
        node.note(text)
        is_so = (node.front, node.waiting) == known
        expect(f"a node's log: {text}", is_so, node.front, node.waiting)


def check_texts(_folder):
    """A question, and answers to it."""
    asked = question(7, "0123456789abcdef")
    expect("a question has its length", len(asked) == QUESTION)
    expect("a question is read", asked_in(asked) == (7, "0123456789abcdef"), asked)
    for what, data in (("shorter", asked[:-1]), ("longer", asked + b"\n"), ("none", b"")):
        expect(f"a question that is {what} is none", asked_in(data) is None)
    for it in (longest(), of(1), of(2, "down", B1), of(3)._replace(end="", fault=(5.0, "a é"))):
        data = answer(7, "0123456789abcdef", it)
        expect("an answer is at most ten times as long", len(data) <= TIMES * QUESTION, len(data))
        session, nonce, state = state_in(data)
        is_so = (session, nonce, state.node) == (7, "0123456789abcdef", it.node)
        wanted = it._replace(heard=it.heard or {}, fault=it.fault and (it.fault[0], state.fault[1]),
                             version=it.version and it.version[:40])
        expect("an answer is read as it was meant", is_so and state == wanted, state, wanted)
    signed = answer(7, "0123456789abcdef", longest(), lambda it: it + b"m" * 69)
    expect("a signed one too", len(signed) <= TIMES * QUESTION, len(signed))
    for data in (b"", b"pgroup state", bytes(range(256)), b"pgroup state 7 1 x\n"):
        expect("noise is no answer", state_in(data) is None)
