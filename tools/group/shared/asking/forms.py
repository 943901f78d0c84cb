"""What is known of a group for other programs: as JSON, and as the text of metrics that the node
exporter of Prometheus takes from a file. What is unknown is null, or left out."""

import json

from ..record import text_of_ballot


def ballot(it):
    return None if it is None else text_of_ballot(it)


def node_of(view, node):
    it = view.states.get(node)
    if it is None:
        return {"node": node, "answered": False}
    return {
        "node": node, "answered": True, "process": it.process, "pid": it.pid, "leads": it.leads,
        "hears_leader": ballot(it.leader), "starts": it.starts, "promised": ballot(it.promised),
        "places": it.places, "known_front": it.front, "keys_waiting": it.waiting,
        "console_bytes": it.console, "program_ended": it.end is not None,
        "execution_error": it.end or None, "hears": sorted(it.heard),
        "fault": it.fault and {"time": it.fault[0], "text": it.fault[1]},
        "version": it.version, "program_sum": it.program, "code_sum": it.code, "time": it.now,
    }


def json_of(view):
    leader = view.leader()
    return json.dumps({
        "session": view.session, "size": view.size, "majority": view.has_majority(),
        "leader": None if leader is None else {"node": leader.node, "ballot": ballot(leader)},
        "nobody_leads": True if view.leads_nobody() else False if leader else None,
        "nodes": [node_of(view, it) for it in view.nodes],
    }, indent=1) + "\n"


# The metrics of a node: the name, what it is, and its value in an answer, or None.
METRICS = (
    ("node_up", "whether the node's process runs and moves", lambda it: it.process == "up"),
    ("node_leads", "whether the node leads, as its supervisor hears", lambda it: it.leads),
    ("node_starts", "how often the node was started", lambda it: it.starts),
    ("node_promised_round", "the round of the ballot that it has promised",
     lambda it: it.promised and it.promised.round),
    ("node_places", "the places of the session up to its last vote", lambda it: it.places),
    ("node_known_front", "the first place that the node has not learned", lambda it: it.front),
    ("node_keys_waiting", "how many typed keys wait at the node", lambda it: it.waiting),
    ("node_console_bytes", "the length of its console", lambda it: it.console),
    ("node_program_ended", "whether its program has ended", lambda it: it.end is not None),
    ("node_hears", "how many other supervisors its own hears", lambda it: len(it.heard)),
    ("node_fault_time", "when something went wrong last, in seconds since 1970",
     lambda it: it.fault and it.fault[0]),
)


def metric(name, what, samples):
    """The lines of a metric, of which these samples are known: labels and a value."""
    known = [(labels, value) for labels, value in samples if value is not None]
    if not known:
        return ""
    head = f"# HELP pgroup_{name} {what}\n# TYPE pgroup_{name} gauge\n"
    return head + "".join(f"pgroup_{name}{{{labels}}} {text_of(it)}\n" for labels, it in known)


def text_of(value):
    return f"{value:.3f}" if isinstance(value, float) else str(int(value))


def metrics_of(view):
    whole = f'session="{view.session}"'
    labels = {node: f'{whole},node="{node}"' for node in view.nodes}
    leader = view.leader()
    number = leader.node if leader else 0 if view.leads_nobody() else None
    parts = [
        metric("majority_known", "whether it is known if a majority of the nodes is up",
               [(whole, view.has_majority() is not None)]),
        metric("majority", "whether a majority of the nodes is up", [(whole, view.has_majority())]),
        metric("leader", "the node that leads; 0 is nobody", [(whole, number)]),
        metric("node_answers", "whether the node's supervisor has answered",
               [(labels[it], it in view.states) for it in view.nodes]),
    ]
    for name, what, value_of in METRICS:
        samples = [(labels[node], value_of(it)) for node, it in view.states.items()]
        parts.append(metric(name, what, samples))
    return "".join(parts)
