"""The book: the pages as HTML, which pandoc makes, in the order of its chapters."""

import concurrent.futures
import glob
import html
import os
import re
import shutil
import subprocess

from . import manual

TOP = manual.TOP
# The chapters, each part with its pages.
PARTS = (
    ("What is proved, and how", ("docs/BEGIN.md", "docs/THEOREM.md", "docs/READING.md",
                                 "docs/PROMISES.md", "docs/DECISIONS.md")),
    ("A group", ("docs/TRY.md", "docs/OPERATE.md", "docs/NIGHT.md", "docs/MANUAL.md",
                 "docs/GROUP.md")),
    ("Programs", ("docs/PROGRAMS.md", "docs/PASCAL.md", "examples/README.md")),
    ("Reference", ("docs/FORMATS.md", "docs/LIBRARY.md", "docs/ARCHITECTURE.md",
                   "docs/DEFINITIONS.md", "docs/reference/README.md", "bench/RESULTS.md",
                   "tests/cases/README.md", "CHANGELOG.md", "README.md")),
)
# The pages that the last chapter leads to.
MORE = ("docs/reference/*.md",)
PICTURES = ("docs/pictures/*",)
STYLE = """
body { max-width: 46rem; margin: 2rem auto; padding: 0 1rem; line-height: 1.5;
  font-family: serif; color: #1a1a1a; background: #fff; }
h1, h2, h3, nav { font-family: sans-serif; line-height: 1.25; }
pre { overflow-x: auto; padding: 0.6rem; background: #f4f4f0; line-height: 1.35; }
code { font-size: 0.88em; }
table { border-collapse: collapse; display: block; overflow-x: auto; }
td, th { border: 1px solid #ccc; padding: 0.2rem 0.5rem; vertical-align: top; text-align: left; }
img { max-width: 100%; }
@media print { nav { display: none; } pre { white-space: pre-wrap; } }
"""
PAGE = """<!DOCTYPE html>
<html lang="en">
<head>
<meta charset="utf-8">
<meta name="viewport" content="width=device-width, initial-scale=1">
<title>{title}</title>
<style>{style}</style>
</head>
<body>
<nav>{nav}</nav>
{body}
<nav>{nav}</nav>
</body>
</html>
"""


class NoBook(Exception):
    """Why there is no book."""


def chapters():
    return [it for _, pages in PARTS for it in pages]


def pages():
    """All pages of the book, from the top of the repository."""
    found = chapters()
    for pattern in MORE:
        found += sorted(os.path.relpath(it, TOP) for it in glob.glob(os.path.join(TOP, pattern)))
    return list(dict.fromkeys(found))


def name_of(page):
    """The file of a page in the book."""
    return f"{os.path.splitext(page)[0]}.html"


def title_of(page):
    with open(os.path.join(TOP, page), encoding="utf-8") as file:
        return re.search(r"^# (.*)$", file.read(), re.M)[1].replace("`", "")


def from_page(page, target):
    return os.path.relpath(target, os.path.dirname(page) or ".")


def with_links(page, body, all_pages):
    """The body with links to pages of the book, and without those that lead out of it."""
    def link(it):
        place, _, anchor = html.unescape(it[1]).partition("#")
        if "://" in place or not place:
            return it[0]
        target = os.path.normpath(os.path.join(os.path.dirname(page), place))
        if target in all_pages:
            where = from_page(page, name_of(target)) + (f"#{anchor}" if anchor else "")
            return f'<a href="{html.escape(where)}"{it[2]}>{it[3]}</a>'
        return it[3]

    return re.sub(r'<a\s+href="([^"]*)"([^>]*)>(.*?)</a>', link, body, flags=re.S)


def nav_of(page):
    """The way to the chapters before and after a page, and to all of them."""
    order = chapters()
    links = [f'<a href="{from_page(page, "index.html")}">All chapters</a>']
    if page in order:
        at = order.index(page)
        for where, other in (("Before", at - 1), ("Next", at + 1)):
            if 0 <= other < len(order):
                title = html.escape(title_of(order[other]))
                to = from_page(page, name_of(order[other]))
                links.append(f'{where}: <a href="{to}">{title}</a>')
    return " · ".join(links)


def body_of(page):
    """A page as HTML, as pandoc makes it."""
    command = ["pandoc", "--from", "gfm", "--to", "html5", "--wrap=preserve",
               os.path.join(TOP, page)]
    done = subprocess.run(command, check=False, capture_output=True)
    if done.returncode != 0:
        raise NoBook(f"pandoc fails at {page}: {done.stderr.decode().strip()}")
    return done.stdout.decode()


def write(folder, name, text):
    path = os.path.join(folder, name)
    os.makedirs(os.path.dirname(path), exist_ok=True)
    with open(path, "w", encoding="utf-8") as file:
        file.write(text)
    os.chmod(path, 0o644)


def index():
    """The list of the chapters."""
    found = ["<h1>pgroup</h1>"]
    for part, names in PARTS:
        points = "".join(f'<li><a href="{name_of(it)}">{html.escape(title_of(it))}</a></li>\n'
                         for it in names)
        found.append(f"<h2>{part}</h2>\n<ol>\n{points}</ol>")
    return PAGE.format(title="pgroup", style=STYLE, nav="", body="\n".join(found))


def is_possible():
    return shutil.which("pandoc") is not None


def make(folder):
    """Writes the book into a folder."""
    if not is_possible():
        raise NoBook("there is no pandoc: apt-get install pandoc")
    all_pages = pages()
    with concurrent.futures.ThreadPoolExecutor(os.cpu_count()) as pool:
        bodies = list(pool.map(body_of, all_pages))
    for page, body in zip(all_pages, bodies):
        text = PAGE.format(title=html.escape(title_of(page)), style=STYLE, nav=nav_of(page),
                           body=with_links(page, body, set(all_pages)))
        write(folder, name_of(page), text)
    write(folder, "index.html", index())
    for pattern in PICTURES:
        for path in sorted(glob.glob(os.path.join(TOP, pattern))):
            to = os.path.join(folder, os.path.relpath(path, TOP))
            os.makedirs(os.path.dirname(to), exist_ok=True)
            shutil.copyfile(path, to)
            os.chmod(to, 0o644)
