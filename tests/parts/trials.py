"""Tries random scripts in `sim`: what was found in one, how much it had, and what is left of it as
it is made small."""

import collections
import os
import subprocess
import tempfile

from shared.replica.shown import SimFailed, SimHangs, run_sim, shows_of

from .echo_code import ECHO
from .findings import Case, Finding, finding_of
from .program import PROGRAM, SCRIPTS
from .small import Small

# How long `sim` may take for a script, in seconds: it takes less than one for 5,000 events.
MOST_SECONDS = 600
HANGS = "hangs"


def seeds_of(text):
    """The seeds of the words A..B."""
    first, _, last = text.partition("..")
    seeds = range(int(first), int(last) + 1)
    if not seeds:
        raise ValueError
    return seeds


def case_of(play):
    """What `sim` prints on a play, and what is known of it. SimFailed where `sim` does not end."""
    printed = run_sim(PROGRAM, ECHO, play.text().encode("ascii"), MOST_SECONDS)
    refused = [it for it in printed.splitlines() if it.startswith("line ")]
    known = play.typed, play.learned, play.wanted, play.refused, play.end
    return Case(shows_of(printed), refused, *known)


def finding_in(play):
    try:
        return finding_of(case_of(play))
    except SimHangs as fault:
        return Finding(HANGS, str(fault))
    except SimFailed as fault:
        return Finding("refused", str(fault))


def counts_of(storm):
    """What a script had."""
    kinds = collections.Counter(it if isinstance(it, str) else it.kind for it in storm.play.lines)
    group = storm.group
    return collections.Counter(
        events=storm.play.events, messages=len(group.sent), typed=len(storm.play.typed),
        places=len({it.place for it in storm.play.learned}), campaigns=kinds["campaign"],
        starts=sum(it.starts for it in group.stored.values()), shows=kinds["show"],
    )


def text_of_counts(counts):
    return ", ".join(f"{number:,} {name}" for name, number in counts.items())


def write_script(path, play):
    with open(path, "w", encoding="ascii") as file:
        file.write(play.text())


def report(seed, storm, find, end_play):
    """Says what `find` finds in a script, and writes one that is as small as it gets, and its
    picture. `end_play` ends a play with the storm's ending."""
    found = find(storm.play)
    folder = tempfile.mkdtemp()
    script = os.path.join(folder, f"seed{seed}.script")
    picture = os.path.join(folder, f"seed{seed}.svg")
    write_script(script, storm.play)
    print(f"seed {seed}: {found.kind}: {found.text}\nthe script: {script}", flush=True)
    if found.kind == HANGS:
        return
    small = Small(storm, lambda play: getattr(find(play), "kind", None), end_play)
    play = small.make()
    write_script(script, play)
    more = "" if small.is_least() else f", after {small.tries} tries; more could be left out"
    print(f"of {len(storm.play.lines)} lines {len(play.lines)} are left{more}")
    there = find(play)
    print(f"there: {there.kind}: {there.text}", flush=True)
    draw = os.path.join(SCRIPTS, "draw")
    words = [draw, script, "--file", ECHO, "--program", PROGRAM, "--out", picture]
    if subprocess.run(words, check=False).returncode == 0:
        print(f"drawn: {picture}")
