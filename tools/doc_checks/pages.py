"""Rules of the pages and of the layout: LIBRARY's Rust, names of definitions, imports."""
import importlib
import os
import re
import sys

from . import tree
from .tree import fault, text_of


# The tests that compile what docs/LIBRARY.md shows, in its order.
SHOWN = [
    "crates/paxos_tests/src/library.rt",
    "crates/group_tests/src/node/by_hand.rt",
    "crates/group_tests/src/node/another_machine.rt",
]


def check_rust_shown():
    page = r"^// docs/LIBRARY\.md shows the lines"
    marks = rf"{page} from here on:\n(.*?){page} up to here\.$"
    tested = [re.findall(marks, text_of(path), re.M | re.S) for path in SHOWN]
    shown = re.findall(r"^```rust\n(.*?)^```$", text_of("docs/LIBRARY.md"), re.M | re.S)
    for path, found in zip(SHOWN, tested):
        if len(found) != 1 or found[0].strip() not in [it.strip() for it in shown]:
            fault(f"docs/LIBRARY.md: its Rust is not what is between the marks of {path}")
    if len(shown) != len(SHOWN):
        fault(f"docs/LIBRARY.md: shows Rust that no test compiles")


# The pages that show parts of sources, each in a fence whose first line names the source.
WITH_PARTS = ("docs/READING.md", "docs/BEGIN.md", "docs/THEOREM.md")
PART = re.compile(r"^```\w+\n(?://|--|#) (crates/\S+)\n(.*?)^```$", re.M | re.S)


def is_whole(path, part, rest):
    """Whether what a page shows of a source ends where a contract or a definition ends: behind a
    contract comes the body, and behind a definition an empty line. `rest` is what comes behind."""
    if " ensures " in part:
        return rest.lstrip().startswith("{")
    return not path.endswith(".antt") or rest[:1] in ("", "\n")


def check_contracts_shown():
    """Each part of a source that these pages show stands so in the source, and is whole."""
    for page in WITH_PARTS:
        shown = PART.findall(text_of(page))
        for path, part in shown:
            _, found, rest = text_of(path).partition(part)
            if not found:
                fault(f"{page}: a part that it shows is not in {path}")
            elif not is_whole(path, part, rest):
                fault(f"{page}: what it shows of {path} goes on there")
        if not shown:
            fault(f"{page}: it shows no part of a source")


CODES = "crates/command_line/src/codes.rt"
# What ends a table.
END = "\n\n"
PROGRAM = "crates/command_line/src/program.rt"


def codes_of_program():
    """The codes that `pgroup help codes` prints, and their sentences. A line that begins with ten
    blanks goes on with the sentence before it."""
    table = re.search(r'^pub const CODES: &str = "[^\n]*\n(.*?)^";$', text_of(CODES), re.M | re.S)
    lines = re.sub(r"\n {10}", " ", table[1]).splitlines() if table else []
    return [re.fullmatch(r"(?:  (\S+) +)?(.*)", it).groups() for it in lines]


def check_sentences(is_write):
    """The sentences of the codes in docs/FORMATS.md are those of the scripts, and the program has
    the same."""
    sys.path.insert(0, f"{tree.TOP}/tools/group")
    sentences = importlib.import_module("shared.codes").SENTENCES
    head = "| Code | Its sentence |\n|---|---|\n"
    before, _, behind = text_of("docs/FORMATS.md").partition(head)
    table = "\n".join(f"| `{code}` | {text} |" for code, text in sentences.items())
    page = f"{before}{head}{table}{END}{behind.partition(END)[2]}"
    if is_write:
        with open(f"{tree.TOP}/docs/FORMATS.md", "w", encoding="utf-8") as file:
            file.write(page)
    elif page != text_of("docs/FORMATS.md"):
        fault("docs/FORMATS.md: the sentences of the codes are not what tools/check-docs --write "
              "writes")
    if codes_of_program() != list(sentences.items()):
        fault(f"{CODES}: the sentences of the codes are not those of tools/group/shared/codes.py")
    named = set(re.findall(r"(?<![\w.])[FOGEDV]\d+\b", text_of("docs/FORMATS.md")))
    named -= sentences.keys()
    if named - {"G13"}:
        fault(f"docs/FORMATS.md: has codes without a sentence: {', '.join(sorted(named))}")


def check_version():
    """The program says the newest version of CHANGELOG.md."""
    sys.path.insert(0, f"{tree.TOP}/tools")
    newest = importlib.import_module("packing.layout").version_of(tree.TOP)[0]
    said = re.findall(r'^const VERSION: &str = "(.*)";$', text_of(PROGRAM), re.M)
    if said != [newest]:
        text = f"the version {', '.join(said)}, and the newest of CHANGELOG.md is {newest}"
        fault(f"{PROGRAM}: says {text}")


# Where the names are that pages may have, and what stands for any name.
SOURCES = ("crates", "tools", "tests", "examples", "bench", "tools/doc_checks")
ANY_NAME = re.compile(r"(?:^|_)xyz(?:_|$)")


def check_names_shown(pages):
    """A name of several words that a page has between backticks is in some source, or is the name
    of a file or a crate."""
    shown = {path: set(re.findall(r"`([a-z]\w*_\w*)`", text_of(path))) for path in pages}
    shown = {path: {it for it in names if not ANY_NAME.search(it)} for path, names in shown.items()}
    missing = set().union(*shown.values()) - set(tree.all_crates())
    for folder in SOURCES:
        for path in tree.files_below(folder, ""):
            missing.discard(os.path.basename(path).split(".")[0])
            if missing and not path.endswith((".md", ".code")):
                with open(f"{tree.TOP}/{path}", encoding="utf-8", errors="replace") as file:
                    text = file.read()
                there = {it for it in missing if it in text}
                missing -= {it for it in there if re.search(rf"(?<!\w){it}(?!\w)", text)}
    for path, names in shown.items():
        for name in sorted(names & missing):
            fault(f"{path}: names {name}, which is nowhere else")


# What begins a definition, and its name.
DEFINED = re.compile(
    r"^(?:(?:abbrev|unfoldable|opaque|pub|record|data) +)+([A-Za-z_][\w'-]*)", re.M
)
# The module that has names of another on purpose.
BATCHES = "crates/paxos_msg/specs/Batches.antt"


def check_names():
    homes = {}
    for crate in tree.crates():
        for path in tree.files_below(f"crates/{crate}/specs", ".antt"):
            if path != BATCHES:
                for name in DEFINED.findall(text_of(path)):
                    homes.setdefault(name, set()).add(path)
    for name, paths in sorted(homes.items()):
        if len(paths) > 1 and name not in ("mod", "use"):
            fault(f"{' and '.join(sorted(paths))}: both define {name}")


# What a proof may cite of the proofs of another crate: the lemmas of base, and three modules on
# std's lists and maps.
SHARED_LEMMAS = re.compile(
    r"base\.|paxos_learner\.proofs\.OnePlace\.|group_protocol\.proofs\.Elements\."
    r"|group_rules\.proofs\.Lists\."
)

# What the proofs of one crate may cite besides: the witnesses of group_world are written down over
# the small programs and the votes of those of group_rules; group_disk cuts off lists of starts as
# group_process does, and has a witness over a small program; and group_progress goes on where the
# invariants of the worlds that are reached end, and no crate stands on it.
LEMMAS_FOR = {
    "group_world": re.compile(r"group_rules\.proofs\.(SmallPrograms|WrittenVotes)\."),
    "group_disk": re.compile(
        r"group_process\.proofs\.RunPrefixes\.|group_rules\.proofs\.SmallPrograms\."
    ),
    "group_progress": re.compile(
        r"group_world\.proofs\.WorldAsGroup\."
        r"|paxos_msg\.proofs\.(Agreement|CountingNodes|Invariant)\."
        r"|paxos_proposer\.proofs\.Proposals\.|pcode_machine\.proofs\.TransitionCases\."
    ),
}


def may_cite(crate, module):
    """Whether the proofs of a crate may cite a module of the proofs of another one."""
    own = LEMMAS_FOR.get(crate)
    is_own = own is not None and own.match(module) is not None
    return is_own or SHARED_LEMMAS.match(module) is not None


def check_citations():
    crates = tree.all_crates()
    for crate in crates:
        for path in tree.files_below(f"crates/{crate}/proofs", ".antt"):
            uses = re.compile(r"^(?:pub )?use Rattle\.(\w+\.proofs\.\S*)", re.M)
            for cited in uses.findall(text_of(path)):
                other = cited.split(".")[0]
                if other in crates and other != crate and not may_cite(crate, cited):
                    needs = "what it needs is a clause or a law there"
                    fault(f"{path}: cites {cited}, a lemma of another crate; {needs}")


def is_used(name, text):
    """Whether a text has a name; of an operator its sign, as `≤` of `◌≤◌`."""
    if name == "if◌then◌else◌":
        name = "then"
    if "◌" in name:
        return name.strip("◌") in text
    return re.search(rf"(?<!\w){re.escape(name)}(?!\w)", text) is not None


def check_imports():
    for crate in tree.all_crates():
        for path in tree.files_below(f"crates/{crate}/src", ".rt"):
            text = text_of(path)
            rest = re.sub(r"^ *(?:pub )?(?:ghost )?use .*$", "", text, flags=re.M)
            for names in re.findall(r"^ *ghost use .*\{(.*)\};$", text, re.M):
                for name in names.split(", "):
                    name = name.split(" as ")[-1]
                    if name != "self" and not is_used(name, rest):
                        fault(f"{path}: imports {name}, which it does not use")
