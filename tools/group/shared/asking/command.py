"""The part of `status` that asks supervisors: its words, and what it prints."""

import argparse
import shlex
import sys

from ..continued import follow_words
from ..files import Refused, text_of_fault
from ..frozen import told_of
from ..full import told_of_full, told_of_machines
from ..supervising.key import key_of
from ..words import address_of, put_out, text_of_address
from .forms import json_of, metrics_of
from .questions import states_of
from .view import UP, View


def add_words(add):
    add("--group", metavar="FILE", help="the arguments of a supervisor of the group, as it takes "
        "them by @FILE: for --beats, --session and --beats-key")
    add("--beats", metavar="ADDR", type=address_of, nargs="+",
        help="asks the supervisors at these addresses, in the order of the nodes")
    add("--session", metavar="N", type=int, help="the group's number")
    add("--beats-key", metavar="FILE", help="the key that the supervisors share")
    add("--wait", metavar="SECONDS", type=float, default=1.0,
        help="how long answers are waited for (1)")
    form = "prints one line, and ends with 0 if a majority is up and one leads, 1 if not, and 2 if "
    add("--check", action="store_true", help=form + "that is unknown")
    add("--json", action="store_true", help="prints all that is known as JSON")
    add("--metrics", action="store_true", help="prints it as a text of metrics for Prometheus")


class Words(argparse.ArgumentParser):
    """A parser of words that nobody has typed just now: it ends nothing."""

    def error(self, message):
        raise ValueError(message)


def words_in(path):
    """What a file of a supervisor's words says of the group, and of its own node's record."""
    found = Words(add_help=False, allow_abbrev=False)
    found.add_argument("--beats", type=address_of, nargs="+")
    found.add_argument("--session", type=int)
    found.add_argument("--beats-key")
    found.add_argument("--id", type=int)
    found.add_argument("--record")
    found.add_argument("--console")
    found.add_argument("--file")
    found.add_argument("--renew-at", type=int)
    try:
        with open(path, encoding="utf-8") as file:
            lines = file.read().split("\n")
        parts = [it for line in lines for it in shlex.split(line, comments=True)]
        return found.parse_known_args(parts)[0]
    except OSError as fault:
        fault.filename = path
        raise Refused(text_of_fault(fault))
    except ValueError as fault:
        raise Refused(f"{path}: {fault}")


def take_file(words):
    """Takes from a file of a supervisor's words what was not said. The session may have been
    renewed since."""
    taken = words.taken = words_in(words.group)
    follow_words(taken)
    for name in ("beats", "session", "beats_key", "file"):
        if getattr(words, name) is None:
            setattr(words, name, getattr(taken, name))


def is_asked(words):
    """Whether supervisors are to be asked."""
    return words.group is not None or words.beats is not None


def check_words(parser, words):
    if words.beats is None or words.session is None:
        parser.error("to ask supervisors say --beats and --session, or --group FILE that has them")
    if len(words.beats) not in (1, 3, 5, 7, 9) or len(set(words.beats)) != len(words.beats):
        parser.error("--beats wants the address of each supervisor, 1, 3, 5, 7 or 9, each once")
    if not 0 <= words.session < 1 << 32:
        parser.error("the session is 0 to 4294967295")
    if not 0.05 <= words.wait <= 60:
        parser.error("--wait is 0.05 to 60 seconds")
    if words.records or words.logs or words.consoles or words.follow:
        parser.error("records, logs and consoles are read here: supervisors are asked without them")
    if words.check + words.json + words.metrics > 1:
        parser.error("only one of --check, --json and --metrics")


def told_of_places(words, session, places):
    """What to type as most places are taken. The code file that is named is of the session that was
    asked for."""
    taken, file = getattr(words, "taken", None), words.file if session == words.session else None
    hosts = [host for host, _ in words.beats]
    if len(set(hosts)) == 1:
        return told_of_full(session, places, file)
    return told_of_machines(session, places, hosts, file, taken)


def ask(words):
    """Asks and prints. Returns the status."""
    key = key_of(words.beats_key) if words.beats_key else None
    session, states = states_of(words.beats, words.session, key, words.wait)
    view = View(session, [text_of_address(it) for it in words.beats], states)
    if words.check:
        put_out(view.heading() + "\n")
        return view.status()
    if words.json or words.metrics:
        put_out(json_of(view) if words.json else metrics_of(view))
    else:
        put_out("".join(f"{it}\n" for it in [*view.lines(), *told_of(words.file)]))
        places = max((it.places or 0 for it in states.values()), default=0)
        for it in told_of_places(words, session, places):
            print(it, file=sys.stderr)
    return UP if states else 1
