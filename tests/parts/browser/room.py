"""A group with its page and a browser, for tests/browser, and what is looked for on the page."""

import json
import os
import time

from shared.words import ask

from ..echo_code import ECHO
from ..group import await_that
from ..page.visitor import Page
from ..supervised import group_of
from .chromium import Chromium


class Room:
    """A group, its page and a browser."""

    def __init__(self, folder, *words, silent=3600, size=3, code=ECHO):
        self.group = group_of(size, folder, silent=silent, code=code)
        self.page, self.browser = None, None
        try:
            for it in self.group:
                it.begin("--new")
            for it in self.group:
                await_that(it.is_up, f"node {it.number} is up")
            ask(self.group[0].keys)
            self.page = Page(folder, *words, *[it.record for it in self.group])
            self.browser = Chromium()
        except BaseException:
            self.end()
            raise

    def __enter__(self):
        return self

    def __exit__(self, *_):
        self.end()

    def address(self, role="type", port=None):
        return f"http://127.0.0.1:{port or self.page.port}/#{self.page.tokens[role]}"

    def open(self, role="type", port=None, **more):
        tab = self.browser.open(self.address(role, port), **more)
        tab.await_that("document.querySelector('.dot.on') !== null", "the page is there")
        return tab

    def end(self):
        for it in (self.browser, self.page, *self.group):
            if it:
                it.end()


def shown(text):
    """An expression: whether the console shows this."""
    text = json.dumps(text)
    return f"document.getElementById('screen').innerText.replace(/\\n/g, '').includes({text})"


def said(text):
    return f"document.getElementById('said').innerText.includes({json.dumps(text)})"


DUE = "!document.getElementById('due').hidden"
NOTE = "(document.getElementById('note').hidden || document.getElementById('note').textContent)"
FOCUS = "(document.activeElement.getAttribute('aria-label') || document.activeElement.textContent)"


def picture(tab, words, name):
    if words.pictures:
        os.makedirs(words.pictures, exist_ok=True)
        time.sleep(0.3)  # The lanes are drawn anew meanwhile.
        tab.picture(os.path.join(words.pictures, f"{name}.png"))
