"""What a person can do about a group while its program stands still: now, and if that lasts longer
than a minute."""

from .heading import enough_of, few_of, losses_of, majority_of, runs
from .sentences import listed, lower, nodes_named

SUPERVISED = "One of the nodes takes the lead by itself within seconds. You need do nothing."
PERHAPS = ("If supervisors run, one of the nodes takes the lead by itself within seconds. You can "
           "wait for that.")
STOOD = "The program has stood still for a minute."
GONE = ("All nodes have ended, and their records are not there any more: a demo removes them when "
        "it ends. This page has nothing more to show.")
# What is typed to see a node's log, if it is in no file that is known here.
JOURNAL = "journalctl -u pgroup@NAME"
HEARS = ("Otherwise nodes do not hear each other: look at the network between their machines. "
         "docs/NIGHT.md says more under \"Quick answers\".")


def due_of(nodes, size, is_nobody, is_supervised=False, waiting=0, is_late=False,
           are_gone=False, last=()):
    """What a person can do: a sentence, and the node that is best asked to lead, or None. It says
    what supervisors do as a fact where one is known to run. `is_late` says whether the program has
    stood still for a minute, and `are_gone` whether there is no record any more. `last` has who was
    lost last."""
    if are_gone:
        return {"text": GONE, "at": None}
    if not is_nobody or any(it.get("end") for it in nodes):
        return None
    keys = f"{waiting} key{'' if waiting == 1 else 's'} wait{'s' if waiting == 1 else ''}"
    lost = losses_of(nodes, last)
    if majority_of(nodes, size) is False:
        kept = f"What is typed is kept: {keys}." if waiting else "What is typed is kept until then."
        still = STOOD if is_late else "The program stands still."
        parts = [f"{lost}{few_of(nodes, size)}.", still, kept]
        more = [late_of(nodes, size)] if is_late else starts_of(nodes, size)
        return {"text": " ".join([*parts, *more]), "at": None}
    waits = f"{keys}." if waiting else "What is typed waits until one does."
    best = best_of(nodes)
    asked = SUPERVISED if is_supervised else PERHAPS
    if is_late:
        asked = f"{STOOD} {late_of(nodes, size)}"
    text = f"{lost}{enough_of(nodes, size, last)}Nobody leads. {waits} {asked}"
    return {"text": text, "at": best["at"], "node": best["node"]} if best else {
        "text": text, "at": None}


def starts_of(nodes, size):
    """What becomes of the nodes that do not run, and then of the program, in sentences."""
    down = [it for it in nodes if it["state"] == "down"]
    kept = [it["node"] for it in down if it.get("supervised")]
    others = [it["node"] for it in down if not it.get("supervised")]
    least = size // 2 + 1 - len(runs(nodes))
    if kept:
        whose = "their supervisors" if len(kept) > 1 else "its supervisor"
        are = "are" if len(kept) > 1 else "is"
        yield f"{nodes_named(kept)} {are} started again by {whose}."
        if len(kept) >= least:
            yield goes_on(least, len(kept))
            yield "You need do nothing, unless that takes longer than a minute."
            return
    if others:
        yield f"Start {lower(nodes_named(others))}, unless supervisors do so."
    yield from moved_again(nodes)


def goes_on(least, count):
    """When the program continues."""
    run = "it runs" if count == 1 else "one of them runs" if least == 1 else (
        f"{least} of them run")
    return f"Once {run}, a node takes the lead by itself, and the program continues."


def moved_again(nodes):
    for it in nodes:
        if it["state"] == "stopped":
            how = f"kill -CONT {it['pid']}" if it.get("pid") else "kill -CONT"
            yield f"Node {it['node']} is stopped: let it move again by {how}."


def late_of(nodes, size):
    """What to do once the program has stood still for a minute."""
    return " ".join(late_few(nodes) if majority_of(nodes, size) is False else late_idle(nodes))


def late_few(nodes):
    down = [it for it in nodes if it["state"] == "down"]
    kept = [it for it in down if it.get("supervised")]
    others = [it["node"] for it in down if not it.get("supervised")]
    if kept:
        who, does = nodes_named([it["node"] for it in kept]), "do" if len(kept) > 1 else "does"
        yield f"{who} {does} not stay up, though supervised: look why, in {logs_of(kept)}."
    if others:
        yield (f"Start {lower(nodes_named(others))} again: by systemctl start pgroup@NAME, or as "
               "before but without --new.")
    yield from moved_again(nodes)
    unknown = [it["node"] for it in nodes if it["state"] == "unknown"]
    if unknown:
        yield f"Of {lower(nodes_named(unknown))} nothing is known here: look there."
    yield ("If the nodes are on several machines, do so on each. docs/NIGHT.md says more under "
           "\"What was lost\".")


def late_idle(nodes):
    if best_of(nodes):
        yield "Press the button that asks a node to lead, and once more if it is refused."
    yield f"If nobody leads then, look in {logs_of(runs(nodes))}."
    yield HEARS


def logs_of(nodes):
    """Where the logs of these nodes are."""
    found = list(dict.fromkeys(it["log"] for it in nodes if it.get("log")))
    return listed(found) if found else JOURNAL


def best_of(nodes):
    """The node that knows the greatest ballot: the one of another may be refused. Of several it is
    the one whose console is longest, since a node that lacks something has to hear it first. Of
    these it is the one that a supervisor asks."""
    able, turn = [it for it in nodes if it.get("can_lead")], turn_in(nodes)
    return max(able, default=None, key=lambda it: (
        ballot_in(it), it["bytes"] or 0, not it.get("is_new"), -turn(it)))


def turn_in(nodes):
    """How many nodes come before a node, if supervisors ask them to lead."""
    last = max(map(ballot_in, nodes), default=(0, 0))[1]
    return lambda it: (it["node"] - last - 1) % max(len(nodes), 1)


def ballot_in(node):
    text = node.get("promised") or "-"
    return tuple(map(int, text.split("."))) if text != "-" else (0, 0)
