"""The scene of traces: what the nodes of a group did, as their traces have it."""

from ..replica.cuts import explain
from ..replica.following import Cut, Differs, Following
from ..replica.script import Event
from .scene import Scene


def scene_of_traces(paths, bounds, note=lambda scene, line, event, happened, call: None,
                    is_short=False):
    """The scene of the traces in these files, and what ended it before its end, or None. `note` is
    told of each event, once the scene has it. With `is_short` a rest takes few columns."""
    following = Following(paths, {}, keeps_all=True)
    scene, fault = Scene(following.group, bounds, is_short), None
    shown = dict.fromkeys(following.group.nodes, 0)
    try:
        for line, (event, happened, call) in enumerate(following.steps(), 2):
            event = Event(*event)
            scene.add(line, event, happened, call and call.time)
            if event.kind == "release" and call.deed.number == shown[event.node]:
                shown[event.node] += 1
                scene.show_console(line, event.node, bytes([call.deed.byte]))
            note(scene, line, event, happened, call)
    except Differs as differs:
        fault = differs
    fault = explain(following, fault)
    what = "cut" if isinstance(fault, Cut) else "differs"
    return scene.close(), fault and f"{what}: {fault}"
