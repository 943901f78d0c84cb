"""A group with its page and visitors, for tests/page."""

import os
import signal

from ..files import bytes_of
from ..group import await_that
from ..supervised import group_of
from .visitor import Page, Visitor


class Room:
    """A group under supervisors, and a page of it."""

    def __init__(self, folder, *words, silent=3600, size=3):
        self.group, self.visitors, self.page = group_of(size, folder, silent), [], None
        try:
            for it in self.group:
                it.begin("--new")
            for it in self.group:
                await_that(it.is_up, f"node {it.number} is up")
            self.page = Page(folder, *words, *[it.record for it in self.group])
        except BaseException:
            self.end()
            raise

    def __enter__(self):
        return self

    def __exit__(self, *_):
        self.end()

    def visit(self, role="type", kind=Visitor, port=None):
        self.visitors.append(kind(self.page, role, port))
        return self.visitors[-1]

    def await_shown(self, text, nodes=None):
        for it in nodes or self.group:
            await_that(lambda it=it: bytes_of(it.console) == text,
                       f"node {it.number} shows {text}, and not {bytes_of(it.console)[-80:]}")

    def end(self):
        for it in [*self.visitors, *([self.page] if self.page else []), *self.group]:
            it.end()


def kill(node):
    """Kills a node's process; its supervisor starts it again."""
    pid = node.node()
    if pid is not None:
        os.kill(pid, signal.SIGKILL)
