"""Reads and writes a script of `sim`, as docs/FORMATS.md describes it, and refuses all that is
none."""

import collections
import re

# What happens at a node: `number` is the character of a type, the steps of a run, and the message
# of a deliver; `outcome` is `failold`, `failnew`, or None.
Event = collections.namedtuple("Event", "kind node number outcome", defaults=(None, None))
# A line of a script: its number, and an event, SETTLE or SHOW.
Line = collections.namedtuple("Line", "number event")
Script = collections.namedtuple("Script", "size session lines")

SETTLE, SHOW = "settle", "show"
FAILURES = ("failold", "failnew")
NODE, WORD, MESSAGE = 255, 4294967295, 18446744073709551615
# The events with a node alone, with a number behind it, and a deliver with one before it.
ALONE = re.compile(r"(start|crash|campaign|tick|release) (\d+)", re.ASCII)
RUN = re.compile(r"(run) (\d+) (\d+)", re.ASCII)
TYPE = re.compile(r"(type) (\d+) ([0-9A-Fa-f]{2})", re.ASCII)
DELIVER = re.compile(r"(deliver) (\d+) (\d+)", re.ASCII)
FORMS = {"run": "run {0} {1}", "type": "type {0} {1:02X}", "deliver": "deliver {1} {0}"}
SIZE = re.compile(r"size (\d+) session (\d+)", re.ASCII)


class Bad(Exception):
    """The line that is none of a script, or that cannot happen, as `sim` says it."""


def number(text, most):
    value = int(text)
    if value > most:
        raise ValueError
    return value


def event_of(text):
    """The event of a line. ValueError where it is none."""
    words, _, last = text.rpartition(" ")
    outcome = last if last in FAILURES else None
    text = words if outcome else text
    alone, run, typed = (it.fullmatch(text) for it in (ALONE, RUN, TYPE))
    delivered = DELIVER.fullmatch(text)
    if alone:
        return Event(alone[1], number(alone[2], NODE), None, outcome)
    if run:
        return Event("run", number(run[2], NODE), number(run[3], WORD), outcome)
    if typed:
        return Event("type", number(typed[2], NODE), int(typed[3], 16), outcome)
    if delivered:
        message = number(delivered[2], MESSAGE)
        return Event("deliver", number(delivered[3], NODE), message, outcome)
    raise ValueError


def line_of(at, text):
    if text in (SETTLE, SHOW):
        return Line(at, text)
    try:
        return Line(at, event_of(text))
    except ValueError:
        raise Bad(f"line {at} refused script")


def script_of(data):
    """The script whose bytes these are."""
    try:
        texts = data.decode("utf-8").split("\n")
    except UnicodeDecodeError:
        raise Bad("refused file")
    if texts[-1] == "" and len(texts) > 1:
        texts.pop()
    first = SIZE.fullmatch(texts[0])
    if not first or int(first[1]) > NODE or int(first[2]) > WORD:
        raise Bad("line 1 refused script")
    lines = [line_of(at, text) for at, text in enumerate(texts[1:], 2)]
    if int(first[1]) not in (1, 3, 5, 7, 9):
        raise Bad("line 1 refused V6")
    return Script(int(first[1]), int(first[2]), lines)


def form_of(kind, outcome):
    """How the line of an event is written, with its node as {0} and its number as {1}."""
    form = FORMS.get(kind, kind + " {0}")
    return f"{form} {outcome}" if outcome else form


def text_of_event(event):
    """The line of an event, without its end."""
    return form_of(event.kind, event.outcome).format(event.node, event.number)


def text_of_script(size, session, events):
    """The script of these events, each a line."""
    lines = [f"size {size} session {session}", *map(text_of_event, events)]
    return "".join(line + "\n" for line in lines)
