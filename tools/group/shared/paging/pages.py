"""The files of a page, by the paths at which a browser finds them."""

import os

from ..drawing.colours import css_of
from ..drawing.legend import page_legend
from .server import FOLDER

MODULES = {
    "live": ("page", "screen", "keys", "nodes", "lanes", "said", "away", "look", "enter"),
    "past": ("past", "moment", "look", "enter"),
}
LEGEND = "<!-- legend -->"


def html_of(kind):
    """A page with the legend that pictures have too."""
    with open(os.path.join(FOLDER, f"{kind}.html"), encoding="utf-8") as file:
        return file.read().replace(LEGEND, page_legend(kind)).encode()


def files_of(kind):
    """The files of the page of a group that runs (`live`), or of one that is over (`past`)."""
    files = {"/page.css": "page.css", "/icon.svg": "icon.svg"}
    files.update({f"/{it}.js": f"{it}.js" for it in MODULES[kind]})
    files["/"] = lambda: ("text/html", html_of(kind))
    files["/colours.css"] = lambda: ("text/css", css_of().encode())
    return files
