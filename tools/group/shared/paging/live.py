"""What a page's server does for a group that runs: the stream of events, and what browsers ask
for."""

import json
import socket
import time

from ..words import ask, text_of_address
from ..watch import refusals_at
from .guard import TYPES, Refused
from .marks import now
from .server import HEADERS, STREAMS, WATCHED, Handler

# The most bytes of keys in a request, lines above the screen with which a browser begins, and bytes
# that wait until a browser reads them.
KEYS, BEGIN, UNREAD = 4096, 500, 1 << 15
# How many marks, and lines above the screen, come in one event: on a slow link each has to come
# within the time in which a browser wants to hear something. After how many seconds a stream says
# that it is there.
MARKS, ABOVE, BEAT = 50, 25, 1.0


class Live:
    """`about` has what a browser is told once: the page's name, and so on."""

    def __init__(self, table, about):
        self.table, self.about = table, about
        self.gets = {"/events": self.events, "/known": self.known}
        self.posts = {"/enter": Handler.enter, "/keys": self.keys, "/lead": self.lead,
                      "/go": self.go}

    # What a browser asks for.

    def known(self, handler, role, words):
        """Tells a browser that it is known."""
        handler.answer_json(200, {"role": role})

    def keys(self, handler, asked):
        client, number, keys = asked.get("client"), asked.get("number"), asked.get("keys")
        if not (isinstance(client, str) and type(number) is int and number > 0):
            raise Refused(400, "Keys have a client and a number.")
        if not isinstance(keys, str):
            raise Refused(400, "Keys are text.")
        # A lone half of a pair, as a browser may send it, becomes a question mark.
        data = keys.encode("utf-8", "replace")
        if not 0 < len(data) <= KEYS:
            raise Refused(400, f"At most {KEYS} bytes are typed at once.")
        status, why = self.table.type(client, number, data)
        handler.answer_json(status, {"text": why})

    def seat_of(self, asked):
        at = asked.get("at")
        if type(at) is not int or not 0 <= at < len(self.table.session.seats):
            raise Refused(400, "There is no such node here.")
        return at

    def go(self, handler, asked):
        why = self.table.go_to(self.seat_of(asked))
        handler.answer_json(200 if why is None else 409, {"text": why and sentence(why)})

    def lead(self, handler, asked):
        at = self.seat_of(asked)
        why = self.ask_to_lead(at)
        handler.answer_json(200 if why is None else 409, {"text": why and sentence(why)})

    def ask_to_lead(self, at):
        """Asks a node to lead. Why that is not done, or None."""
        seat = self.table.session.seats[at]
        if seat.keys is None:
            return f"where the keys of {seat.name(at)} come is not known here"
        for why in refusals_at(seat.keys):
            return f"{seat.name(at)} is not asked: {why}"
        self.table.note_asked(at)
        address = text_of_address(seat.keys)
        try:
            why = f"nobody receives at {address}" if ask(seat.keys, 0.05) else None
        except OSError as fault:
            why = f"{address}: {fault.strerror}"
        if why:
            self.table.drop_ask(at)
        return why

    # The stream.

    def events(self, handler, role, words):
        if self.table.is_over:
            handler.close_connection = True  # Whoever was told that it ends need not come again.
            return
        if not handler.server.takes_stream(role):
            count = STREAMS if role == TYPES else WATCHED
            raise Refused(503, f"{count} browsers listen already.")
        handler.server.idle.pop(handler.request, None)
        with self.table.changed:
            client = self.table.clients.enter(words.get("client"))
        try:
            handler.close_connection = True
            # What a browser does not read is kept here, up to this.
            handler.connection.setsockopt(socket.SOL_SOCKET, socket.SO_SNDBUF, UNREAD)
            handler.send_response(200)
            handler.send_header("Content-Type", "text/event-stream; charset=utf-8")
            for name, value in {**HEADERS, "Connection": "close"}.items():
                handler.send_header(name, value)
            handler.end_headers()
            about = dict(self.about)
            if role != TYPES:
                about.pop("again", None)
            hello = {**about, "role": role, "client": client, "now": now()}
            handler.wfile.write(event("hello", hello))
            is_known = client == words.get("client")
            heard = heard_in(words, self.table) if is_known else None
            Stream(self.table, handler.wfile.write, heard).go_on()
        finally:
            with self.table.changed:
                self.table.clients.leave(client)
                self.table.changed.notify_all()
            handler.server.end_stream(role)


def heard_in(words, table):
    """Which line a browser says that it was read last, if there is one with this number."""
    text = words.get("heard", "")
    is_number = text.isascii() and text.isdigit() and len(text) < 16
    return int(text) if is_number and int(text) <= table.readings.count else None


def sentence(text):
    return text[0].upper() + text[1:] + ("" if text.endswith(".") else ".")


def event(kind, value):
    return f"event: {kind}\ndata: {json.dumps(value)}\n\n".encode()


class Stream:
    """What one browser was told, and tells it what is new."""

    def __init__(self, table, write, heard=None):
        """`heard` is the number of the line that the browser was read last, or None."""
        self.table, self.write, self.heard = table, write, heard
        self.version, self.screens, self.mark, self.said = -1, -1, 0, 0
        self.lines, self.left, self.group = None, None, None

    def go_on(self):
        """Tells all that is new, as long as the browser reads: OSError ends it."""
        table, beaten = self.table, time.monotonic()
        while True:
            with table.changed:
                table.changed.wait_for(lambda: table.version != self.version, BEAT)
                out = self.news()
            if time.monotonic() - beaten >= BEAT:
                beaten = time.monotonic()
                # The second clock is never set: by it a browser sees that its link is slow.
                out.append(("beat", [now(), int(beaten * 1000)]))
            for it in out:
                self.write(event(*it))
            if table.is_over:
                return

    def news(self):
        table, out = self.table, []
        if self.version == table.version:
            return out
        self.version = table.version
        if self.screens != table.screens:
            self.screens = table.screens
            out += [("screen", it) for it in self.screen()]
        if self.mark != table.marks.count:
            marks, self.mark = table.marks.since(self.mark), table.marks.count
            out += [("marks", [now(), it]) for it in pieces(marks, MARKS)]
        if self.group is not table.group:
            self.group = table.group
            out.append(("group", table.group))
        out += [("say", it) for it in table.sentences if it[0] > self.said]
        self.said = table.said
        if self.heard != table.readings.count:
            out.append(("read", table.readings.since(self.heard)))
            self.heard = table.readings.count
        return [*out, ("over", now())] if table.is_over else out

    def screen(self):
        """What has changed on the screen: lines that have left it, rows, and the cursor. Many lines
        come in pieces, and the rows with the last one."""
        it = self.table.terminal
        left = max(0, it.left - BEGIN) if self.left is None else self.left
        gone = min(it.left - left, len(it.history))
        above = it.history[len(it.history) - gone :]
        rows = [
            [at, *stripped(line)] for at, line in enumerate(it.lines)
            if self.lines is None or line != self.lines[at]
        ]
        self.lines, self.left = list(it.lines), it.left
        parts = pieces([stripped(line) for line in above], ABOVE) or [[]]
        changed = [[]] * (len(parts) - 1) + [rows]
        return [[*both, it.y, it.x, it.is_hidden] for both in zip(parts, changed)]


def pieces(things, most):
    return [things[it : it + most] for it in range(0, len(things), most)]


def stripped(line):
    return [it.rstrip() for it in line]
