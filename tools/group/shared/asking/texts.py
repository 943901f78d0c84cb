"""The datagrams of a question of state and of its answer, as docs/FORMATS.md has them."""

import collections
import re

from ..plain import plain
from ..record import Ballot

ASK = b"pgroup ask "
# A question has so many bytes, and an answer at most so many times as many.
QUESTION, TIMES = 200, 10
HEAD = re.compile(rb"pgroup ask (\d{1,10}) ([0-9a-f]{16})\n")
ANSWER = re.compile(rb"pgroup state (\d{1,10}) ([1-9]) ([0-9a-f]{16})")
# The most characters of what is told of a fault.
MOST_TOLD = 200

# What a supervisor knows of its own node, and whom it hears. Each field is None where it is not
# known. `process` is up, held (it does not move) or down, and `leads` whether the node leads as far
# as the supervisor hears; `leader` the ballot of the leader that it hears; `heard` has for each
# other node how long ago its supervisor was heard, in seconds, and what its record had promised.
# `console` is the length of the console, `end` how the program has ended, and `fault` a time and a
# text. `version` and the checksums are of the program, and of it and the code file. `front` is the
# first place that the node has not learned, and `waiting` how many keys wait at it.
State = collections.namedtuple(
    "State", "node size now process pid starts promised places leads leader heard console end "
    "fault version program code silent front waiting",
    defaults=(None,) * 18,
)


def question(session, nonce, sign=None):
    """The bytes of a question, filled up to its length."""
    signature = len(sign(b"")) if sign else 0
    head = f"pgroup ask {session} {nonce}\n".encode("ascii")
    filled = head + b"." * (QUESTION - len(head) - signature - 1) + b"\n"
    return sign(filled) if sign else filled


def asked_in(data):
    """The session and the nonce of a question, or None."""
    found = HEAD.match(data) if len(data) == QUESTION else None
    return found and (int(found[1]), found[2].decode("ascii"))


def text_of(value):
    """A word, by which nothing else is spelled."""
    if value is None:
        return "-"
    if isinstance(value, Ballot):
        return f"{value.round}.{value.node}"
    if isinstance(value, bool):
        return str(int(value))
    return f"{value:.3f}" if isinstance(value, float) else str(value)


def told(text):
    """A text as it may stand in an answer, and as it is taken from one."""
    return plain(text).encode("ascii", "replace").decode("ascii")[:MOST_TOLD]


def answer(session, nonce, it, sign=None):
    """The bytes of an answer. What has no room for is left out from its end."""
    lines = [
        f"node {text_of(it.process)} {text_of(it.pid)}",
        f"size {it.size} silent {text_of(it.silent)}",
        f"record {text_of(it.starts)} {text_of(it.promised)} {text_of(it.places)}",
        f"leader {text_of(it.leads)} {text_of(it.leader)}",
        f"known {text_of(it.front)} {text_of(it.waiting)}",
        *(f"heard {node} {text_of(ago)} {text_of(promised)}"
          for node, (ago, promised) in sorted((it.heard or {}).items())),
        f"console {text_of(it.console)}",
        *([f"end {told(it.end)}".rstrip()] if it.end is not None else []),
        f"sums {text_of(it.program)} {text_of(it.code)}",
        *([f"version {told(it.version)[:40]}"] if it.version else []),
        f"now {text_of(it.now)}",
        *([f"fault {it.fault[0]:.3f} {told(it.fault[1])}"] if it.fault else []),
    ]
    room = TIMES * QUESTION - (len(sign(b"")) if sign else 0)
    data = f"pgroup state {session} {it.node} {nonce}\n".encode("ascii")
    for line in lines:
        more = data + line.encode("ascii") + b"\n"
        data = more if len(more) <= room else data
    return sign(data) if sign else data


# The lines of an answer behind the first: each a pattern, and the fields that it gives.
NUMBER, SECONDS, BALLOT = r"(-|\d{1,19})", r"(-|\d{1,12}\.\d{3})", r"(-|\d{1,10}\.\d)"
LINES = {
    "node": (rf"(-|up|held|down) {NUMBER}", "process pid"),
    "size": (rf"([1-9]) silent {SECONDS}", "size silent"),
    "record": (rf"{NUMBER} {BALLOT} {NUMBER}", "starts promised places"),
    "leader": (rf"(-|[01]) {BALLOT}", "leads leader"),
    "known": (rf"{NUMBER} {NUMBER}", "front waiting"),
    "console": (NUMBER, "console"),
    "sums": (r"(-|[0-9a-f]{16}) (-|[0-9a-f]{16})", "program code"),
    "now": (SECONDS, "now"),
}
HEARD = re.compile(rf"heard ([1-9]) {SECONDS} {BALLOT}", re.ASCII)
FAULT = re.compile(r"fault (\d{1,12}\.\d{3}) (.*)", re.ASCII)
BALLOTS, TEXTS = ("promised", "leader"), ("process", "program", "code")


def ballot_of(text):
    first, second = map(int, text.split("."))
    return Ballot(first, second)


def value_of(name, text):
    if text == "-":
        return None
    if name in BALLOTS:
        return ballot_of(text)
    if name in TEXTS:
        return text
    if name == "leads":
        return text == "1"
    return float(text) if "." in text else int(text)


def fields_of(line):
    """The fields of a line of an answer. One that is not known gives none."""
    word, _, rest = line.partition(" ")
    if word in LINES:
        pattern, names = LINES[word]
        found = re.fullmatch(pattern, rest, re.ASCII)
        values = found.groups() if found else ()
        return {name: value_of(name, text) for name, text in zip(names.split(), values)}
    if word in ("end", "version"):
        return {word: told(rest)}
    fault = FAULT.fullmatch(line)
    return {"fault": (float(fault[1]), told(fault[2]))} if fault else {}


def state_in(data):
    """The session, the nonce and the state of an answer, or None where it is none."""
    first, *lines = data.split(b"\n")
    head = ANSWER.fullmatch(first)
    if head is None:
        return None
    fields, heard = {"size": None, "now": None}, {}
    for line in (it.decode("ascii", "replace") for it in lines):
        found = HEARD.fullmatch(line)
        if found:
            ago, promised = value_of("ago", found[2]), value_of("promised", found[3])
            heard[int(found[1])] = (ago, promised)
        fields.update(fields_of(line))
    state = State(int(head[2]), **{**fields, "heard": heard})
    return int(head[1]), head[3].decode("ascii"), state
