"""Widths of lines: of sources, definitions and proofs, and of scripts in bash and Python."""
import io
import os
import re
import tokenize

from . import manpages, tree
from .tree import fault, text_of

# How many columns a line may have, and one of a proof.
MOST, MOST_OF_PROOF = 100, 140
FOLDERS = (("src", MOST), ("specs", MOST), ("proofs", MOST_OF_PROOF))
# Imports, attributes and lines of literal text in a crate.
SPARED = re.compile(r"\s*(?:(?:pub |ghost )*use |#|\")")
# Where scripts are, besides the top.
PLACES = (".ci", "bench", "docs", "examples", "tests", "tools")
# What comes before a docstring, and before nothing else that is one text.
FRONT = (tokenize.ENCODING, tokenize.NEWLINE, tokenize.INDENT, tokenize.DEDENT)


def language_of(path):
    """`python` or `sh` for a script, by its ending or its first line, or None."""
    ending = os.path.splitext(path)[1]
    if ending:
        return {".py": "python", ".bash": "sh"}.get(ending)
    with open(f"{tree.TOP}/{path}", "rb") as file:
        found = re.match(rb"#!.*\b(python|sh|bash)", file.readline())
    return found and ("python" if found[1] == b"python" else "sh")


def scripts():
    """The scripts and modules, each with its language."""
    top = sorted(it for it in os.listdir(tree.TOP) if tree.is_file(it))
    for path in (*top, *(it for place in PLACES for it in tree.files_below(place, ""))):
        language = language_of(path)
        if language:
            yield path, language


def lines_of_texts(text):
    """The numbers of the lines of a Python text that stand in a literal of several lines, but for
    docstrings."""
    found, before = set(), tokenize.ENCODING
    for it in tokenize.generate_tokens(io.StringIO(text).readline):
        if it.type == tokenize.STRING and before not in FRONT and it.start[0] < it.end[0]:
            found.update(range(it.start[0], it.end[0] + 1))
        if it.type not in (tokenize.COMMENT, tokenize.NL):
            before = it.type
    return found


def lines_of_pages():
    """The lines of the man pages: help texts stand there as they are printed."""
    for path in tree.files_below(manpages.FOLDER, ".1"):
        yield from text_of(path).replace("\\-", "-").split("\n")


def is_word(line):
    """Whether a line has one word, which cannot be broken."""
    return len(line.lstrip(" #").split()) == 1


def tell_wide(path, most, is_spared):
    for number, line in enumerate(text_of(path).split("\n"), 1):
        if len(line) > most and not is_spared(number, line):
            fault(f"{path}:{number}: has {len(line)} columns, more than {most}")


def check():
    for folder, most in FOLDERS:
        for crate in tree.all_crates():
            for path in tree.files_below(f"crates/{crate}/{folder}", ("rt", "antt")):
                tell_wide(path, most, lambda _, line: SPARED.match(line))
    shown = set(lines_of_pages())
    for path, language in scripts():
        inside = lines_of_texts(text_of(path)) if language == "python" else ()

        def is_spared(number, line, inside=inside):
            return number in inside or line in shown or is_word(line)

        tell_wide(path, MOST, is_spared)
