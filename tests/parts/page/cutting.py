"""A proxy before a page that cuts connections, in any state of a request, or is slow."""

import select
import socket
import threading
import time


class Cutting:
    """Passes bytes on, and cuts some connections before, within or behind what it passes: this
    share of the times when something passes. With a `rate` so many bytes pass in a second."""

    def __init__(self, port, draw, share=0.08):
        self.to, self.draw, self.share = port, draw, share
        self.is_cutting, self.is_over, self.cuts, self.rate = False, False, 0, None
        self.listener = socket.create_server(("127.0.0.1", 0))
        self.port = self.listener.getsockname()[1]

    def __enter__(self):
        threading.Thread(target=self.serve, daemon=True).start()
        return self

    def __exit__(self, *_):
        self.is_over = True
        self.listener.close()

    def serve(self):
        while not self.is_over:
            try:
                one, _ = self.listener.accept()
            except OSError:
                return
            threading.Thread(target=self.join, args=[one], daemon=True).start()

    def join(self, one):
        with one, socket.create_connection(("127.0.0.1", self.to)) as other:
            try:
                while self.pass_on(one, other):
                    pass
            except OSError:
                pass  # One of them has gone.

    def pass_on(self, one, other):
        """Passes what is there. Whether the connection goes on."""
        for it in select.select([one, other], [], [], 1)[0]:
            data = it.recv(64 if self.rate else 65536)
            time.sleep(len(data) / self.rate if self.rate else 0)
            if not data or self.is_over:
                return False
            to = other if it is one else one
            if self.is_cutting and self.draw.random() < self.share:
                self.cuts += 1
                to.sendall(data[: self.draw.randrange(len(data) + 1)])
                return False
            to.sendall(data)
        return True
