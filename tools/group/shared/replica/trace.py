"""Reads the trace that a node writes where PGROUP_TRACE names a file, as docs/FORMATS.md describes
it, call by call, and refuses what is none."""

import binascii
import collections
import os
import re

# Whom a datagram to all is for.
ALL = "all"
# The calls that save.
SAVING = {b"start": "start", b"hear": "hear", b"campaign": "campaign"}
HEAD = re.compile(rb"(?:@(\d{1,15}) )?trace ([12]) node (\d{1,20}) size (\d{1,20}) "
                  rb"session (\d{1,20})")
HEAD_WORDS = b"trace "
# Version 2 names a datagram again, if it is one of so many that the process has written whole.
MOST_RECENT = 1024
LF = 10
# What no line begins with.
NEVER = b"\n\n"
# What was read last: the same datagram stands in the traces of all that send and hear it, so lines
# come again. So many are kept, of at most so many bytes.
MOST_KNOWN, LONGEST_KNOWN = 8192, 1024


class Bad(Exception):
    """What is wrong with a trace, and in which line."""


class Deed:
    """What the line of a call says: its kind, and the bytes heard (and from where), the bytes of
    the record or None, a character, steps, or the number and the byte of a release. `is_done` is
    false where the call was only begun, and `has_failed` true where its save has failed."""

    __slots__ = "kind", "data", "source", "number", "byte", "is_done", "has_failed"

    def __init__(self, kind, data=None, source=None, number=None, byte=None, is_done=True):
        self.kind, self.data, self.source, self.number, self.byte = kind, data, source, number, byte
        self.is_done, self.has_failed = is_done, False


class Call:
    """A call of a node: its `deed`, which lines that are the same share; `sends`, pairs of whom a
    datagram is for and its bytes; `at`, its line, and `time`, the milliseconds there, or None.
    There are millions, and one is made without a method of its own for the time that this takes."""

    __slots__ = "deed", "at", "time", "sends"


class Known(dict):
    """What was read last, by its text."""

    def keep(self, text, value):
        if len(text) <= LONGEST_KNOWN:
            if len(self) >= MOST_KNOWN:
                self.clear()
            self[text] = value
        return value


# Bytes by their HEX; what a line says by its text, in version 1 and 2; and what was heard, by from
# where and its bytes.
HEX, LINES, HEARD = Known(), {1: Known(), 2: Known()}, Known()
# The lines of calls that say the same wherever they stand.
SAME = frozenset((b"hear", b"press", b"tick", b"run", b"release"))
SAME_IN = {1: SAME, 2: SAME - {b"hear"}}


class Process:
    """One process of a node. Once all its calls are read, `status` is how it has ended by itself,
    or None; `last` and `ended` are its last line and the time there, or None; and `torn` is the
    line that was cut off behind it, or None, and what is wrong with that line."""

    def __init__(self, path, at, time, node, size, session):
        self.path, self.at, self.node, self.size, self.session = path, at, node, size, session
        self.begun = self.ended = time
        self.status, self.last, self.torn = None, at, None


def bytes_of_hex(text):
    """The bytes of HEX. ValueError where it is none."""
    data = HEX.get(text)
    if data is not None:
        return data
    if not text or text.upper() != text:
        raise ValueError
    return HEX.keep(text, binascii.unhexlify(text))


def number_of(text):
    if not text.isdigit() or len(text) > 20:
        raise ValueError
    return int(text)


def time_of(text):
    """The time that the first word of a line says, or None where it is none."""
    if text[:1] != b"@":
        return None
    if not text[1:].isdigit() or len(text) > 16:
        raise ValueError
    return int(text[1:])


def is_datagram(data):
    return data.startswith(b"PG\x02") and len(data) > 10 and 1 <= data[3] <= 8


class Reader:
    """Reads a file line by line. `items` gives each process, and behind it each of its calls, once
    all that it has sent is read."""

    def __init__(self, path):
        self.path, self.at, self.time = path, 0, None
        self.process, self.call, self.begun, self.is_torn = None, None, None, False
        self.recent = None  # the last datagrams that the process has written whole, in version 2
        self.known, self.same = {}, ()  # the lines that were read, and which kinds may be the same
        self.made = {
            b"hear": self.on_hear, b"send": self.on_send, b"begin": self.on_begin,
            b"tick": self.on_tick, b"run": self.on_run, b"release": self.on_release,
            b"press": self.on_press, b"start": self.on_start, b"campaign": self.on_campaign,
            b"failed": self.on_failed, b"end": self.on_end,
        }

    def must(self, holds, text):
        if not holds:
            raise Bad(f"{self.path}:{self.at}: {text}")

    def items(self):
        # What lines begin with while the time is the same, and the line and the time before that.
        clock, size, since, before = NEVER, 0, 0, None
        made, known = self.made, {}
        with open(self.path, "rb") as file:
            for self.at, line in enumerate(file, 1):
                try:
                    if not line.startswith(clock):
                        since, before = self.at, self.time
                        clock = self.clock_of(line)
                        size, clock = len(clock), clock or NEVER
                    text = line[size:]
                    deed = known.get(text)
                    if deed is not None:
                        call = Call()
                        call.deed, call.at, call.time, call.sends = deed, self.at, self.time, ()
                    else:
                        call = self.read(text, made, known)
                except (ValueError, KeyError, Bad) as fault:
                    found = HEAD_WORDS in line and line[-1] == LF and HEAD.search(line)
                    if found:
                        self.time = before if since == self.at else self.time
                        yield from self.end(line[: found.start()])
                        yield self.begin(line, found)
                        made, known, clock = self.made, self.known, NEVER
                    else:
                        self.refuse(line, fault)
                        # Behind what was cut off no line has a meaning.
                        made, known = ({}, {}) if self.is_torn else (made, known)
                    continue
                if call is not None:
                    last, self.call, self.begun = self.call, call, None
                    if last is not None:
                        yield last
        self.at += 1
        yield from self.end(b"")

    def clock_of(self, line):
        """Takes the time of a line, and returns what it begins with then."""
        if line[-1] != LF:
            self.time = None
            raise ValueError
        first = line[:-1].partition(b" ")[0]
        self.time = time_of(first)
        return b"" if self.time is None else first + b" "

    def read(self, text, made, known):
        """The call whose line this is, without its time, or None."""
        if not text.endswith(b"\n"):
            self.time = None
            raise ValueError
        kind, _, rest = text[:-1].partition(b" ")
        call = made[kind](rest)
        if kind in self.same:
            known.keep(text, call.deed)
        return call

    def refuse(self, line, fault):
        """A line that is none. What was cut off is left, and all behind it up to the next
        process."""
        if self.is_torn:
            return
        if isinstance(fault, Bad):
            raise fault
        is_cut, is_zeroed = line[-1] != LF, b"\0" in line
        if not is_cut and not is_zeroed:
            self.must(False, shown(line))
        if self.process is not None:
            self.tear("has zeros" if is_zeroed else "is cut off")

    def tear(self, what):
        """The process has no whole line from here on."""
        self.note_last()
        self.process.torn, self.is_torn = (self.at, what), True

    def note_last(self):
        """The line before this one was the last of the process."""
        if not self.is_torn:
            self.process.last = self.at - 1
            self.process.ended = self.time or self.process.begun

    def begin(self, line, found):
        if found.end() != len(line) - 1:
            self.must(False, shown(line[found.start() : -1]))
        time, version, node, size, session = (it and int(it) for it in found.groups())
        is_one = size in (1, 3, 5, 7, 9) and 1 <= node <= size and session < 2**32
        self.must(is_one, f"node {node} of {size}, session {session}")
        self.time = time
        self.recent = None if version == 1 else collections.deque(maxlen=MOST_RECENT)
        self.known, self.same = LINES[version], SAME_IN[version]
        self.process = Process(self.path, self.at, time, node, size, session)
        return self.process

    def end(self, before):
        """The last call of a process, once the line of the next one, which has this before it, or
        the end has come."""
        if self.process is not None:
            if before and not self.is_torn:
                self.tear("has zeros" if b"\0" in before else "is cut off")
            self.note_last()
        left = [it for it in (self.call, self.begun) if it is not None]
        self.call, self.begun, self.is_torn = None, None, False
        return left

    def call_of(self, deed):
        """The call whose line this is. One that was begun before it and is not this one was
        refused, and changed nothing."""
        if self.process is None:
            self.must(False, "a line before that of a process")
        call = Call()
        call.deed, call.at, call.time, call.sends = deed, self.at, self.time, ()
        return call

    def datagram_of(self, text):
        """The datagram that a line names, in HEX or by how many back it was written whole."""
        if self.recent is None:
            return bytes_of_hex(text)
        if text[:1] == b"=":
            back = number_of(text[1:])
            if not 1 <= back <= len(self.recent):
                self.must(False, f"the process has written {len(self.recent)} datagrams, "
                          f"and not {back}")
            return self.recent[-back]
        data = bytes_of_hex(text)
        self.recent.append(data)
        return data

    # The lines. Those of calls return the call.

    def on_begin(self, rest):
        kind, _, text = rest.partition(b" ")
        self.must(self.process, "a line before that of a process")
        data = self.datagram_of(text) if kind == b"hear" else None
        if kind not in SAVING or text and data is None:
            raise ValueError
        self.begun = self.call_of(Deed(SAVING[kind], data, is_done=False))

    def on_start(self, rest):
        self.must(self.call is None, "a second start of a process")
        return self.call_of(Deed("start", None if rest == b"-" else bytes_of_hex(rest)))

    def on_hear(self, rest):
        source, _, text = rest.partition(b" ")
        if not source:
            raise ValueError
        data = self.datagram_of(text)
        deed = HEARD.get((source, data))
        if deed is None:
            deed = Deed("hear", data, source)
            if len(data) <= LONGEST_KNOWN:
                HEARD.keep((source, data), deed)
        return self.call_of(deed)

    def on_press(self, rest):
        return self.call_of(Deed("press", number=self.byte_of(rest)))

    def on_campaign(self, rest):
        return self.alone("campaign", rest)

    def on_tick(self, rest):
        return self.alone("tick", rest)

    def alone(self, kind, rest):
        if rest:
            raise ValueError
        return self.call_of(Deed(kind))

    def on_run(self, rest):
        return self.call_of(Deed("run", number=number_of(rest)))

    def on_release(self, rest):
        number, _, byte = rest.partition(b" ")
        number, byte = number_of(number), self.byte_of(byte)
        return self.call_of(Deed("release", number=number, byte=byte))

    def byte_of(self, text):
        byte = number_of(text)
        if byte > 255:
            self.must(False, f"byte {byte}")
        return byte

    def on_send(self, rest):
        if self.call is None or self.begun is not None:
            self.must(False, "nothing was called that could send")
        to, _, data = rest.partition(b" ")
        data, to = self.datagram_of(data), ALL if to == b"all" else number_of(to)
        if not is_datagram(data):
            self.must(False, "what was sent is no datagram")
        if self.call.sends:
            self.call.sends.append((to, data))
        else:
            self.call.sends = [(to, data)]

    def on_failed(self, rest):
        call, kind = self.begun, SAVING[rest]
        is_begun = call is not None and call.deed.kind == kind
        self.must(is_begun, f"a {kind} that was not begun has failed")
        call.deed.has_failed = True
        return call

    def on_end(self, rest):
        self.must(self.process, "a line before that of a process")
        self.process.status = number_of(rest)


def shown(line):
    return f"this is no line of a trace: {line[:60].decode('ascii', 'replace')}"


def is_trace(data):
    """Whether a file begins as a trace does."""
    return re.match(rb"(@\d+ )?trace ", data) is not None


def parts_of(path):
    """The files of a trace, the oldest first: those that it was renamed to, and itself."""
    folder, name = os.path.split(path)
    part = re.compile(re.escape(name) + r"\.([1-9]\d{0,8})")
    found = filter(None, map(part.fullmatch, os.listdir(folder or ".")))
    numbers = sorted(int(it[1]) for it in found)
    return [*(f"{path}.{it}" for it in numbers), path]
