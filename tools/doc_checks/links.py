"""Links of the pages: to files, to sections, and to names in sources."""
import os
import re

from . import tree
from .tree import fault, text_of

LINK = re.compile(r"\[([^\]]*)\]\(([^)\s]+)\)")
# The sections of pages that were looked at.
ANCHORS = {}


def anchor_of(heading):
    """The name by which a link leads to a heading, as GitHub and pandoc make it."""
    text = re.sub(r"\[([^\]]*)\]\([^)]*\)", r"\1", heading).strip().lower()
    return re.sub(r"\s", "-", re.sub(r"[^\w\s-]", "", text))


def anchors_of(path):
    """The names of all headings of a page; one that comes again has a number behind it."""
    if path not in ANCHORS:
        found, times = set(), {}
        text = re.sub(r"^```.*?^```[^\n]*$", "", text_of(path), flags=re.M | re.S)
        for heading in re.findall(r"^#+ +(.*)$", text, re.M):
            anchor = anchor_of(heading)
            number = times.get(anchor, 0)
            found.add(f"{anchor}-{number}" if number else anchor)
            times[anchor] = number + 1
        ANCHORS[path] = found
    return ANCHORS[path]


def check_name(path, text, file):
    """A link whose text is a name in backquotes leads to a file that has the name."""
    if file.endswith(".case"):
        if os.path.basename(file) != f"{text.strip('`')}.case":
            fault(f"{path}: {text} is not the name of {file}")
    elif file.endswith((".rt", ".antt")):
        if not re.search(rf"(?<![\w-]){text.strip('`')}(?![\w-])", text_of(file)):
            fault(f"{path}: there is no {text} in {file}")


def check(path):
    for text, target in LINK.findall(text_of(path)):
        if "://" in target:
            continue
        place, _, anchor = target.partition("#")
        file = os.path.normpath(os.path.join(os.path.dirname(path), place)) if place else path
        if not os.path.exists(f"{tree.TOP}/{file}"):
            fault(f"{path}: the link to {target} leads nowhere")
        elif anchor and anchor not in anchors_of(file):
            fault(f"{path}: the link to {target} leads to no section of {file}")
        elif re.fullmatch(r"`\w+`", text):
            check_name(path, text, file)
