"""What a page's server does for a run that is over: it tells what there was at each moment, and
changes nothing."""

import threading

from .guard import Refused
from .server import Handler


class Walk:
    def __init__(self, past, about):
        self.past, self.about, self.lock = past, about, threading.Lock()
        self.gets = {"/run": self.run, "/part": self.part}
        self.posts = {"/enter": Handler.enter}

    def run(self, handler, role, words):
        handler.answer_json(200, {**self.about, **self.past.run()})

    def part(self, handler, role, words):
        at = words.get("at", "")
        is_number = at.isascii() and at.isdigit() and len(at) < 12
        if not is_number or int(at) >= len(self.past.moments):
            raise Refused(400, "There is no such moment.")
        # One at a time: each takes some milliseconds of a processor.
        with self.lock:
            part = self.past.part(int(at))
        handler.answer_json(200, part)
