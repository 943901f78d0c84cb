"""How the consoles grow as a script goes on, as `sim` shows it."""

from .script import SETTLE, SHOW, Event, text_of_event
from .shown import run_sim, shows_of

# At how many lines of a script its consoles are looked at: what is printed there grows with the
# script, so that all lines would take too long.
MOST_LOOKS = 400


def looks_of(lines):
    """The numbers of the lines behind which consoles are looked at: of those that may show
    something evenly chosen ones, among them the last."""
    shows = [it.number for it in lines if it.event == SETTLE or is_release(it.event)]
    every = -(-len(shows) // MOST_LOOKS) or 1
    return set(shows[::-1][::every])


def is_release(event):
    return isinstance(event, Event) and event.kind == "release"


def texts_of(lines):
    for it in lines:
        yield text_of_event(it.event) if isinstance(it.event, Event) else it.event


def growth_of(program, file, script):
    """What is new on each console, by lines: pairs of a node and bytes. SimFailed where `sim` does
    not take the script."""
    looks, texts, looked = looks_of(script.lines), [], []
    for it, text in zip(script.lines, texts_of(script.lines)):
        texts.append(text)
        looked += [it.number] if it.event == SHOW else []
        if it.number in looks:
            texts.append(SHOW)
            looked.append(it.number)
    head = f"size {script.size} session {script.session}"
    data = "".join(line + "\n" for line in [head, *texts]).encode("ascii")
    growth, before = {}, {}
    for number, shown in zip(looked, shows_of(run_sim(program, file, data))):
        for node, line in shown.nodes.items():
            more = line.console[len(before.get(node, b"")) :]
            before[node] = line.console
            if more:
                growth.setdefault(number, []).append((node, more))
    return growth
