"""A page's server, and a visitor that does over HTTP what the page does in a browser."""

import http.client
import json
import re
import signal
import socket
import subprocess
import threading
import time

from ..group import Running
from ..program import Broken
from ..scripts import path_of

SECONDS = 30.0


class Page(Running):
    """The script `page`, with these words."""

    def __init__(self, folder, *words, around=()):
        """`around` are words that come before the command."""
        self.errors = open(f"{folder}/page-errors", "w+b")
        self.process = subprocess.Popen(
            [*around, path_of("page"), *map(str, words)], stdin=subprocess.DEVNULL,
            stdout=subprocess.PIPE, stderr=self.errors, text=True,
        )
        self.tokens, self.port = {}, None
        for line in iter(self.process.stdout.readline, ""):
            role, port, token = re.match(r"to (\w+):\s+http://127\.0\.0\.1:(\d+)/#(\S+)$",
                                         line).groups()
            self.tokens[role], self.port = token, int(port)
            if role == "watch":  # It is the last one.
                return
        raise Broken(f"the page has not started: {self.said()}")

    def said(self):
        self.errors.seek(0)
        return self.errors.read().decode()

    def stop(self):
        """Ends it as systemd does, and returns its status."""
        self.process.send_signal(signal.SIGTERM)
        status = self.process.wait(SECONDS)
        self.process = None
        return status

    def end(self):
        super().end()
        self.errors.close()


def answer_to(port, data, seconds=SECONDS, host="127.0.0.1"):
    """The status and the whole answer to these bytes, or None where the connection is ended without
    an answer."""
    with socket.create_connection((host, port), seconds) as it:
        try:
            it.sendall(data)
            it.shutdown(socket.SHUT_WR)
            came = b"".join(iter(lambda: it.recv(65536), b""))
        except OSError:
            return None, b""  # It was ended.
    found = re.match(rb"HTTP/1\.1 (\d{3}) ", came)
    return (int(found[1]) if found else None), came


def connection_to(port):
    return http.client.HTTPConnection("127.0.0.1", port, timeout=SECONDS)


class Visitor:
    """A browser's part: its cookie, its stream, and its numbered keys. `port` may be that of a
    proxy before the page."""

    def __init__(self, page, role="type", port=None):
        self.port, self.page_port = port or page.port, page.port
        self.cookie, self.role = None, None
        self.connection, self.number, self.client = None, 0, ""
        self.rows, self.above, self.cursor = [""] * 24, [], (0, 0)
        self.sentences, self.marks, self.group, self.said = [], [], None, 0
        # What was read out, the number of the last line of that, and whether the page has ended.
        self.heard, self.last, self.has_ended = [], 0, False
        self.changed, self.fault, self.is_over = threading.Condition(), None, False
        self.repeated = self.connected = 0
        self.enter(page.tokens[role])
        threading.Thread(target=self.listen, daemon=True).start()
        self.await_that(lambda: self.client, "the stream has begun")

    # Requests.

    def headers(self):
        it = {"Origin": f"http://127.0.0.1:{self.page_port}", "Content-Type": "application/json"}
        it["Host"] = f"127.0.0.1:{self.page_port}"
        return {**it, "Cookie": self.cookie} if self.cookie else it

    def post(self, path, asked):
        """The status and the value of the answer. OSError where the connection is lost."""
        body = asked if isinstance(asked, bytes) else json.dumps(asked).encode()
        try:
            self.connection = self.connection or connection_to(self.port)
            self.connection.request("POST", path, body, self.headers())
            answer = self.connection.getresponse()
            value = json.loads(answer.read())
        except (OSError, ValueError, http.client.HTTPException) as fault:
            self.leave()
            raise OSError(str(fault))
        self.last_headers = answer.headers
        return answer.status, value

    def ask(self, path, asked):
        """The same by a new connection: the page ends one at which nothing comes for a while."""
        self.leave()
        return self.post(path, asked)

    def leave(self):
        if self.connection:
            self.connection.close()
        self.connection = None

    def insist(self, path, asked):
        """Posts it again and again until an answer comes, for a minute at most."""
        end = time.monotonic() + 60
        while True:
            try:
                return self.post(path, asked)
            except OSError as fault:
                if time.monotonic() > end:
                    raise Broken(f"the page does not answer: {fault}")
                self.repeated += 1
                time.sleep(0.01)

    def enter(self, token):
        status, answer = self.insist("/enter", {"token": token})
        if status != 200:
            raise Broken(f"the token is refused: {answer}")
        self.cookie = self.last_headers["Set-Cookie"].split(";")[0]
        self.role = answer["role"]

    def press(self, text):
        """Types keys by one request, which is repeated while no answer comes."""
        self.number += 1
        asked = {"client": self.client, "number": self.number, "keys": text}
        status, answer = self.insist("/keys", asked)
        if status != 200:
            raise Broken(f"the keys {text!r} are refused: {answer}")

    # The stream.

    def listen(self):
        while not self.is_over:
            try:
                self.listen_once()
            except (OSError, http.client.HTTPException):
                time.sleep(0.02)
            except Exception as fault:  # pylint: disable=broad-except
                self.fault = fault
                return

    def listen_once(self):
        connection = connection_to(self.port)
        try:
            headers = {**self.headers(), "Sec-Fetch-Site": "same-origin"}
            words = f"client={self.client}&heard={self.last if self.client else ''}"
            connection.request("GET", f"/events?{words}", headers=headers)
            answer = connection.getresponse()
            if answer.status != 200:
                raise OSError(f"status {answer.status}")
            self.connected += 1
            event = {}
            for line in iter(answer.readline, b""):
                name, _, value = line.decode("utf-8", "replace").rstrip("\n").partition(": ")
                if name:
                    event[name] = value
                    continue
                # An empty line ends an event; one that is cut is none.
                with self.changed:
                    getattr(self, f"on_{event['event']}")(json.loads(event["data"]))
                    self.changed.notify_all()
                event = {}
        finally:
            connection.close()

    def on_hello(self, hello):
        if hello["client"] != self.client:
            self.client, self.number, self.last = hello["client"], 0, 0
        self.rows, self.above = [""] * 24, []

    def on_screen(self, it):
        above, rows, y, x, _ = it
        self.above += [text for text, _ in above]
        for at, text, _ in rows:
            self.rows[at] = text
        self.cursor = y, x

    def on_marks(self, it):
        known = {mark[0] for mark in self.marks[-5000:]}
        self.marks += [mark for mark in it[1] if mark[0] not in known]

    def on_group(self, it):
        self.group = it

    def on_say(self, it):
        if it[0] > self.said:
            self.said = it[0]
            self.sentences.append(it[3])

    def on_read(self, it):
        self.heard += [text for number, text in it if number > self.last]
        self.last = max([self.last, *(number for number, _ in it)])

    def on_beat(self, _):
        pass

    def on_over(self, _):
        self.has_ended = True

    # What is seen.

    def text(self):
        """All that is on the screen and has left it."""
        return "\n".join([*self.above, *self.rows]).rstrip("\n")

    def await_that(self, is_so, what, seconds=60.0):
        end = time.monotonic() + seconds
        with self.changed:
            while not is_so():
                if self.fault:
                    raise self.fault
                if time.monotonic() > end:
                    raise Broken(f"it did not come in {seconds:.0f} seconds: {what}; "
                                 f"said was {self.sentences[-5:]}, shown {self.text()[-400:]!r}")
                self.changed.wait(0.1)

    def node(self, number):
        """What the group's last picture has of a node."""
        nodes = self.group["nodes"] if self.group else []
        return next((it for it in nodes if it["node"] == number), {"state": None})

    def end(self):
        self.is_over = True
        self.leave()


class Seated(Visitor):
    """A visitor as `play_kills` wants a session."""

    def type(self, keys):
        self.press(keys.decode("latin-1"))

    def look(self):
        time.sleep(0.02)

    @property
    def shown(self):
        return str(self.sentences[-10:]).encode()

    def at(self):
        """The number of the node that has the session, or None."""
        seat = self.group and self.group["seat"]
        at = None if seat is None else [it for it in self.group["nodes"] if it["at"] == seat]
        return at[0]["node"] if at else None

    def finish(self):
        self.end()
        return self.sentences


def await_page(visitor):
    """Waits until the page has seen all nodes."""
    def is_seen():
        return visitor.group and all(it["state"] != "down" for it in visitor.group["nodes"])

    visitor.await_that(is_seen, "all nodes are up")
