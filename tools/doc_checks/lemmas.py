"""Lemmas: something else than itself cites each, but for those of base and what the prover asks
for."""
import re

from . import pages, tree
from .tree import fault, text_of

# A lemma with its place on the line. What the prover asks for has the type `goal.NAME`.
SIGNATURE = re.compile(r"^( *)(?:pub )?([A-Za-z_][\w'-]*) :(?!.*\bgoal\.\2$)(?= |$)", re.M)
RECORD = re.compile(r"^(?:pub )?record .*?where\n((?:  .*\n|\n)*)", re.M)
WORD = re.compile(r"[A-Za-z_][\w'-]*")


def texts_of_proofs():
    """What may cite a lemma: the proofs and the sources, by their paths, without the comments of
    proofs."""
    for crate in tree.all_crates():
        for path in tree.files_below(f"crates/{crate}", (".antt", ".rt")):
            text = text_of(path)
            is_proof = path.endswith(".antt")
            yield path, re.sub(r"--.*$", "", text, flags=re.M) if is_proof else text


def lemmas_of(text):
    """The lemmas of a file of proofs, each with its indent: what has a clause, and no field of a
    record."""
    fields = {
        it.start(1) + at.start() for it in RECORD.finditer(text) for at in SIGNATURE.finditer(it[1])
    }
    for it in SIGNATURE.finditer(text):
        clause = re.compile(rf"^{it[1]}{re.escape(it[2])}(?![\w'-])(?! :)", re.M)
        if it.start() not in fields and clause.search(text):
            yield len(it[1]), it[2]


def others(text, indent, name):
    """The lines of a text without a lemma's own: its signature and clauses, and what stands below
    them."""
    is_own = False
    for line in text.split("\n"):
        at = len(line) - len(line.lstrip())
        if line.strip() and at <= indent:
            own = rf" {{{indent}}}(?:pub )?{re.escape(name)}(?![\w'-]).* [:=]"
            is_own = re.match(own, line) is not None
        if not is_own:
            yield line


def may_cite(path, home):
    """Whether a file may cite the lemmas of another: of its own crate, and what others may
    cite."""
    crate = path.split("/")[1]
    module = home.removeprefix("crates/").removesuffix("antt").replace("/", ".")
    return crate == home.split("/")[1] or pages.may_cite(crate, module)


def check():
    texts = dict(texts_of_proofs())
    homes = {}
    for path, text in texts.items():
        for word in set(WORD.findall(text)):
            homes.setdefault(word, set()).add(path)
    for path, text in texts.items():
        if "/proofs/" not in path or path.startswith("crates/base/"):
            continue
        for indent, name in lemmas_of(text):
            is_alone = not any(may_cite(it, path) for it in homes[name] - {path})
            if is_alone and not any(name in WORD.findall(it) for it in others(text, indent, name)):
                fault(f"{path}: nothing cites {name}")
