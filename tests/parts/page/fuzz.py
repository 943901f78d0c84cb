"""Bodies that are nearly requests of keys."""

import json
import random

from ..checks import expect

# What each body may be answered. Those that are requests by chance have an unknown name.
DUE = (400, 409, 413)
VALUES = ("", "a", "\u20ac\ud800", 0, 1, -1, 1.5, True, None, [], {}, ["a"], {"a": 1}, 10**30,
          "a" * 5000, "\x00\x1b[6n", float("nan"))
NAMES = ("client", "number", "keys", "at", "token", "", "__proto__")


def bodies(draw, count):
    """Objects with wrong values, and texts of such with some bytes changed, left out or added."""
    for _ in range(count):
        names = draw.sample(NAMES, draw.randrange(len(NAMES) + 1))
        value = {name: draw.choice(VALUES) for name in names}
        data = bytearray(json.dumps(value, ensure_ascii=draw.random() < 0.9).encode(
            "utf-8", "surrogatepass"))
        for _ in range(draw.choice((0, 0, 1, 3))):
            at = draw.randrange(len(data) + 1)
            change = draw.randrange(3)
            if change == 0:
                data[at : at + 1] = bytes([draw.randrange(256)])
            elif change == 1:
                del data[at : at + draw.randrange(8)]
            else:
                data[at:at] = draw.randbytes(draw.randrange(8)) if hasattr(
                    draw, "randbytes") else bytes(draw.randrange(256) for _ in range(4))
        yield bytes(data)


def check_bodies(page, visitor, words):
    draw, wrong = random.Random(words.seed), []
    before = visitor.group["waiting"]
    for data in bodies(draw, words.bodies):
        path = draw.choice(("/keys", "/keys", "/lead", "/go", "/enter"))
        try:
            status, answer = visitor.post(path, data)
        except OSError as fault:
            status, answer = None, str(fault)
        due = (*DUE, 403) if path == "/enter" else DUE
        if status not in due or not isinstance(answer.get("text"), str):
            # A node may be named by chance.
            if not (path in ("/lead", "/go") and b'"at"' in data):
                wrong.append((path, data[:200], status, answer))
    expect(f"{words.bodies} bodies that are no requests are refused", not wrong, *wrong[:5])
    expect("none of them has typed a key", visitor.group["waiting"] == before, visitor.group)
