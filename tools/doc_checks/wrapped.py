"""Lines of the pages that are written by hand: tools/check-docs --write wraps them at 100 columns.

Tables, headings and code stay as they are. A word, a link's address and a text in backquotes are
never broken."""
import re

from . import tree
from .tree import fault, text_of

MOST = 100
# What sources or scripts make.
MADE = ("docs/DEFINITIONS.md", "docs/reference/")
ITEM = re.compile(r"( *)([-*]|\d+\.) (?=\S)")
TOKEN = re.compile(r"(?:`[^`]*`|[^\s`])+")
# How lines begin that stay as they are: headings, rows of tables, code.
KEPT = ("#", "|", "    ", "<")
# What a line may not begin with, since it would be read as a list, a heading, a table or a quote.
MARK = re.compile(r"(?:[-+*>]|\d+[.)]|#+|=+|-+)$|[|>#]")


def pages():
    """The pages that are written by hand."""
    found = ["README.md", "CHANGELOG.md"]
    for folder in ("docs", "examples", "bench", "tests", "tools"):
        found += tree.files_below(folder, ".md")
    return [it for it in found if not it.startswith(MADE)]


def tokens_of(text):
    found = TOKEN.findall(text)
    return found if "".join(found) == re.sub(r"\s", "", text) or "`" in text else text.split()


def wrapped(text, first, other):
    """The lines of a paragraph, with what the first line and the other ones begin with."""
    text = " ".join(text.split())
    tokens = tokens_of(text)
    if " ".join(tokens) != text:
        tokens = text.split(" ")
    lines, line = [], []
    width = lambda words, front: len(front) + len(" ".join(words))
    for token in tokens:
        front = other if lines else first
        if line and width([*line, token], front) > MOST:
            carried = [token]
            while MARK.match(carried[0]) and len(line) > 1:
                carried.insert(0, line.pop())
            lines.append(front + " ".join(line))
            line = carried
        else:
            line.append(token)
    return [*lines, (other if lines else first) + " ".join(line)]


class Reader:
    """Reads the lines of a page, and gives them as they have to be."""

    def __init__(self, lines):
        self.lines, self.at, self.found = lines, 0, []
        self.is_in_list = False

    def peek(self):
        return self.lines[self.at] if self.at < len(self.lines) else None

    def keep(self):
        self.found.append(self.lines[self.at])
        self.at += 1

    def keep_fence(self):
        mark = self.peek().strip()[:3]
        self.keep()
        while self.peek() is not None and not self.peek().strip().startswith(mark):
            self.keep()
        if self.peek() is not None:
            self.keep()

    def take_text(self, first_line):
        """The text of a paragraph or a point, whose first line is given without its front."""
        texts = [first_line]
        self.at += 1
        while self.peek() is not None and is_text(self.peek()):
            texts.append(self.peek())
            self.at += 1
        return " ".join(texts)

    def step(self):
        line = self.peek()
        item = ITEM.match(line)
        if line.strip().startswith("```"):
            self.keep_fence()
        elif item and (self.is_in_list or len(item[1]) < 4):
            self.is_in_list = True
            other = " " * len(item[0])
            self.found += wrapped(self.take_text(line[len(item[0]):]), item[0], other)
        elif not line.strip() or line.startswith(KEPT):
            self.is_in_list = self.is_in_list and not line.startswith(("#", "|"))
            self.keep()
        else:
            front = re.match(" *", line)[0]
            self.is_in_list = self.is_in_list and bool(front)
            self.found += wrapped(self.take_text(line), front, front)

    def read(self):
        while self.peek() is not None:
            self.step()
        return self.found


def is_text(line):
    """Whether a line goes on with the paragraph before it."""
    return bool(line.strip()) and not ITEM.match(line) and not line.startswith(("#", "|", "```"))


def page_of(text):
    return "\n".join(Reader(text.split("\n")).read())


def check(is_write):
    for path in pages():
        text = text_of(path)
        page = page_of(text)
        if page == text:
            continue
        if is_write:
            with open(f"{tree.TOP}/{path}", "w", encoding="utf-8") as file:
                file.write(page)
        else:
            pairs = zip(page.split("\n"), text.split("\n"))
            number = next((it for it, (one, two) in enumerate(pairs, 1) if one != two), 1)
            fault(f"{path}:{number}: is not wrapped at {MOST} columns; tools/check-docs --write "
                  "wraps it")
