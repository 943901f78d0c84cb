"""How long the pages may be: README's lines, and the words of all that a person writes there."""
from . import tree
from .pages import PART
from .tree import fault, text_of

# How many lines README may have, and how many words PROMISES.
LINES_OF_README, WORDS_OF_PROMISES = 129, 3000
# How many words README and docs may have without what sources make. It was 80,568 for the pages of
# 0.11.0, so a page that gets longer lets another one get shorter. Who adds a page that is needed
# raises it, and says in the commit why.
MOST = 80470
# What sources make, wholly or but for a few lines.
MADE = ("docs/DEFINITIONS.md", "docs/reference/")


def words_of(path):
    """The words of a page, without the parts of sources that it shows: these stand in them word for
    word."""
    return len(PART.sub("", text_of(path)).split())


def check():
    lines = text_of("README.md").count("\n")
    if lines > LINES_OF_README:
        fault(f"README.md: has {lines} lines, more than {LINES_OF_README}")
    count = words_of("docs/PROMISES.md")
    if count > WORDS_OF_PROMISES:
        fault(f"docs/PROMISES.md: has {count} words, more than {WORDS_OF_PROMISES}")
    written = ["README.md", *(it for it in tree.files_below("docs", (".md", "promises.txt"))
                              if not it.startswith(MADE))]
    total = sum(words_of(it) for it in written)
    if total > MOST:
        fault(f"README.md and docs: have {total} words that a person writes, more than {MOST}")
