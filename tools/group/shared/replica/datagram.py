"""Reads a datagram, writes one, and prints it as `show` does, as docs/FORMATS.md describes it and
apart from the program."""

import collections
import struct

from ..record import LAST_SERIAL, MOST_KEYS, PLACES, Ballot, Batch

# A datagram's fields, by their names, and its votes: a place, a ballot and a value each.
Message = collections.namedtuple("Message", "kind sender fields")

# How many votes a promise has at most, and the kinds by their numbers, from 1 on.
MOST_VOTES = 8
KINDS = ("prepare", "promise", "accept", "accepted", "refused", "submit", "ask", "tell")

# A datagram's head, a number, a ballot, and a batch without its characters.
HEAD, NUMBER = struct.Struct(">2sBBBBI"), struct.Struct(">I")
BALLOT, VALUE = struct.Struct(">IB"), struct.Struct(">BBIIB")


def kind_of(data):
    """The name of a datagram's kind by its number, whatever else it has, or None."""
    number = data[3] if len(data) > 3 else 0
    return KINDS[number - 1] if 1 <= number <= len(KINDS) else None


class BytesRefused(Exception):
    """Bytes that are no datagram, or no code file: the code of the first check that fails, as the
    command prints it."""


def refuse_unless(holds, code):
    if not holds:
        raise BytesRefused(code)


class Reader:
    """Takes fields off the front of a datagram of a group."""

    def __init__(self, data, size):
        self.data, self.at, self.size = data, 0, size
        self.sender = None

    def take(self, length):
        taken = self.data[self.at : self.at + length]
        refuse_unless(len(taken) == length, "G1")
        self.at += length
        return taken

    def number(self, length):
        return int.from_bytes(self.take(length), "big")

    def ballot(self, is_senders=False):
        round_ = self.number(4)
        refuse_unless(round_, "G7")
        node = self.number(1)
        refuse_unless(1 <= node <= self.size, "G7")
        refuse_unless(not is_senders or node == self.sender, "G7")
        return Ballot(round_, node)

    def place(self, most=PLACES - 1):
        place = self.number(4)
        refuse_unless(place <= most, "G8")
        return place

    def value(self, is_submitted=False):
        tag = self.number(1)
        refuse_unless(tag == 1 or tag == 0 and not is_submitted, "G9")
        if tag == 0:
            return None
        node = self.number(1)
        refuse_unless(1 <= node <= self.size and (not is_submitted or node == self.sender), "G9")
        start = self.number(4)
        refuse_unless(start, "G9")
        first, count = self.number(4), self.number(1)
        refuse_unless(first and 1 <= count <= MOST_KEYS and first + count - 1 <= LAST_SERIAL, "G9")
        return Batch(node, start, first, self.take(count))

    def votes(self, count, ballot, first, upto):
        votes, last = [], -1
        for _ in range(count):
            place = self.number(4)
            refuse_unless(place > last, "G10")
            refuse_unless(first <= place < upto, "G8")
            under = self.ballot()
            refuse_unless(under <= ballot, "G7")
            votes.append((place, under, self.value()))
            last = place
        return votes


def promise_of(reader):
    ballot = reader.ballot()
    first = reader.place()
    upto = reader.place(PLACES)
    refuse_unless(first < upto, "G8")
    count = reader.number(1)
    refuse_unless(count <= MOST_VOTES, "G11")
    votes = reader.votes(count, ballot, first, upto)
    return {"ballot": ballot, "first": first, "upto": upto, "votes": votes}


def refusal_of(reader):
    ballot, promised = reader.ballot(), reader.ballot()
    refuse_unless(promised > ballot, "G7")
    return {"ballot": ballot, "promised": promised}


def fields_of(reader, kind):
    """The fields behind the header."""
    if kind == "promise":
        return promise_of(reader)
    if kind == "refused":
        return refusal_of(reader)
    fields = {}
    if kind in ("prepare", "accept", "accepted"):
        fields["ballot"] = reader.ballot(is_senders=kind != "accepted")
    if kind != "submit":
        fields["place"] = reader.place(PLACES if kind == "ask" else PLACES - 1)
    if kind in ("accept", "accepted", "submit", "tell"):
        fields["value"] = reader.value(is_submitted=kind == "submit")
    return fields


def message_of(data, size, session):
    """The message of a datagram in a group, or BytesRefused with G1 to G12."""
    refuse_unless(len(data) >= 10, "G1")
    refuse_unless(data[:2] == b"PG", "G2")
    refuse_unless(data[2] == 2, "G3")
    kind = kind_of(data)
    refuse_unless(kind, "G4")
    refuse_unless(data[5] == size and data[6:10] == session.to_bytes(4, "big"), "G5")
    refuse_unless(1 <= data[4] <= size, "G6")
    reader = Reader(data, size)
    reader.at, reader.sender = 10, data[4]
    message = Message(kind, data[4], fields_of(reader, kind))
    refuse_unless(reader.at == len(data), "G12")
    return message


def number(value, size):
    return value.to_bytes(size, "big")


def ballot_bytes(ballot):
    return BALLOT.pack(*ballot)


def value_bytes(value):
    if value is None:
        return b"\0"
    node, start, first, characters = value
    return VALUE.pack(1, node, start, first, len(characters)) + characters


def vote_bytes(vote):
    place, ballot, value = vote
    return NUMBER.pack(place) + ballot_bytes(ballot) + value_bytes(value)


def votes_bytes(votes):
    return bytes([len(votes)]) + b"".join(map(vote_bytes, votes))


# How a field is spelled that is no number of four bytes.
SPELLING = {
    "ballot": ballot_bytes, "promised": ballot_bytes, "value": value_bytes, "votes": votes_bytes,
}


def bytes_of(message, size, session):
    """The datagram of a message."""
    data = HEAD.pack(b"PG", 2, KINDS.index(message.kind) + 1, message.sender, size, session)
    for name, field in message.fields.items():
        data += SPELLING.get(name, NUMBER.pack)(field)
    return data


def value_text(value):
    """A value as `show` prints it."""
    if value is None:
        return "noop"
    return f"key {value.node} {value.start} {value.first} {value.characters.hex().upper()}"


def shown(name, field):
    """A field as `show` prints it, behind its name where it has one there."""
    if name in ("ballot", "promised"):
        return f"{name} {field[0]}.{field[1]}"
    if name == "value":
        return value_text(field)
    return f"votes {len(field)}" if name == "votes" else f"{name} {field}"


def text_of_message(message):
    """The lines that `show` prints for a message."""
    fields = [shown(*it) for it in message.fields.items()]
    lines = [" ".join([message.kind, f"from {message.sender}", *fields])]
    for place, ballot, value in message.fields.get("votes", []):
        lines.append(f"vote {place} {ballot[0]}.{ballot[1]} {value_text(value)}")
    return "".join(line + "\n" for line in lines)
