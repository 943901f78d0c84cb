"""The sentence above a page that says how its group is."""

from .sentences import lower, nodes_named, upper, who_was_lost

RUNS = ("up", "leads")
SHORTLY = ("The program waits until a node leads, usually within a second. Go on typing: what "
           "you type is kept.")
ASKED = ("The program waits until a node leads. Unless a supervisor asks one, a person has to: it "
         "is said below. What you type is kept.")


def runs(nodes):
    return [it for it in nodes if it["state"] in RUNS]


def majority_of(nodes, size):
    """Whether a majority runs, or None if that is not known."""
    up = len(runs(nodes))
    unknown = size - sum(it["state"] != "unknown" for it in nodes)
    if 2 * up > size:
        return True
    # Of a group without a size nothing is known yet.
    return None if 2 * (up + unknown) > size or not size else False


def few_of(nodes, size):
    """That no majority runs, in words for everybody."""
    up, least = len(runs(nodes)), size // 2 + 1
    is_known = len(nodes) == size and all(it["state"] != "unknown" for it in nodes)
    one, more = ("runs", "run") if is_known else ("is known to run", "are known to run")
    needed = f"{least} {'is' if least == 1 else 'are'} needed"
    if up == 0:
        return f"None of {size} nodes {one}, and {needed}"
    return f"Only {up} of {size} nodes {one if up == 1 else more}, and {needed}"


def are(nodes, what):
    """That these nodes are something, as a part of a sentence."""
    return f"{lower(nodes_named(nodes))} {'is' if len(nodes) == 1 else 'are'} {what}"


def missing_of(nodes):
    """Which nodes do not run, in words, or an empty text."""
    by_state = {"missing": "down", "stopped": "stopped"}
    found = {what: [it["node"] for it in nodes if it["state"] == state]
             for what, state in by_state.items()}
    return " and ".join(are(them, what) for what, them in found.items() if them)


def losses_of(nodes, lost=()):
    """How the nodes were lost that do not run, and those that `lost` has, each with its time, its
    node and a verb; the first one first, in sentences."""
    told = {it[1] for it in lost}
    down = [it for it in nodes if it["state"] in ("down", "stopped") and it["node"] not in told]
    seen = [(it["loss"][0], it["node"], it["loss"][1]) for it in down if it.get("loss")]
    seen += map(tuple, lost)
    rest = [it["node"] for it in down if not it.get("loss")]
    parts = [who_was_lost(seen)] if seen else []
    if rest:
        parts.append(f"{nodes_named(rest)} {'does' if len(rest) == 1 else 'do'} not run")
    return "".join(f"{it}. " for it in parts)


def enough_of(nodes, size, lost=()):
    """That a majority runs, though nobody leads, in a sentence; or an empty text."""
    up, least = len(runs(nodes)), size // 2 + 1
    if size == 1 or not majority_of(nodes, size):
        return ""
    run = f"all {'run again' if lost else 'run'}" if up == size else f"{up} run"
    return f"{least} of {size} nodes are needed, and {run}. "


def heading_of(nodes, size, leader, is_nobody, is_soon=False, lost=()):
    """`leader` is the text of who leads, or None. `is_soon` says that a supervisor asks a node to
    lead, and that the program has not stood still for long. `lost` has who was lost last."""
    up, is_known = len(runs(nodes)), all(it["state"] != "unknown" for it in nodes)
    run = "run" if is_known and len(nodes) == size else "are known to run"
    ends = [it["end"] for it in nodes if it.get("end")]
    ended = f"{ends[0].replace('its', 'the')}, and reads no key any more" if ends else ""
    majority, missing = majority_of(nodes, size), missing_of(nodes)
    is_seen = lost or any(it.get("loss") for it in nodes)
    why = losses_of(nodes, lost) if is_seen and not ended else ""
    if majority is False:
        who = why or (f"{upper(missing)}. " if missing and up else "")
        return f"{who}{few_of(nodes, size)}: {ended or 'the program stands still'}"
    more = f"; {ended}" if ended else ""
    said = "a majority" if majority else "and whether a majority runs is unknown"
    run = f"{up} of {size} nodes {run}, {said}{f'; {missing}' if missing else ''}"
    if is_nobody and not ended:
        return why + (SHORTLY if is_soon else ASKED)
    if is_nobody:
        return f"Nobody leads; {run}{more}"
    return f"{run}; {leader or 'who leads is unknown'}{more}"


def flow_of(nodes, size, is_nobody):
    """What becomes of what is typed: it `goes` on, it `waits`, or the program has `ended`."""
    if any(it.get("end") for it in nodes):
        return "ended"
    return "waits" if is_nobody or majority_of(nodes, size) is False else "goes"


def why_not_asked(node, is_majority):
    """Why a node cannot be asked to lead now, or None."""
    reasons = {
        "leads": "it leads already", "down": "it does not run", "stopped": "it is stopped",
        "unknown": "nothing is known of it",
    }
    if node["state"] in reasons:
        return reasons[node["state"]]
    if is_majority is False:
        return "no majority runs"
    return None if node.get("can_lead") else "its address for keys is not known here"


def with_reasons(nodes, size):
    """The nodes, each with why it cannot be asked to lead."""
    is_majority = majority_of(nodes, size)
    whys = [why_not_asked(it, is_majority) for it in nodes]
    return [{**it, "can_lead": why is None, "why_not": why} for it, why in zip(nodes, whys)]


def until_of(nodes, size, flow):
    """Until when typed keys wait, or would wait, or None."""
    if flow != "waits":
        return None
    is_few = majority_of(nodes, size) is False
    return f"until {size // 2 + 1} nodes run" if is_few else "until a node leads"
