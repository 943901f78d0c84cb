"""What tools/check-docs says of the public names of crates: of two small ones, whose exports are
written down here by hand, and of a copy of this repository."""

import os
import re
import shutil
import sys

from ..checks import Checks
from ..files import bytes_of
from ..program import TOP, ran
from .clones import SECONDS, append, replace

sys.path.insert(0, os.path.join(TOP, "tools"))
from doc_checks import surface, tree

LIB = """\
//! A crate. pub fn in_a_comment()
#![tactic(auto)]

mod boxes;
mod hidden;
pub mod laws;
pub mod limits;
#[cfg(test)]
mod trials;

pub use boxes::{Crate, Fault, Keeper, Pair};
pub use hidden::Nothing;
pub use limits::MOST;

/// Returns the sum.
pub fn sum<W: Write<Item = u8>>(
    mut one: u8,
    two: &[u8; 2],
    writer: &mut W,
) -> Result<Option<u16>, Fault>
    requires few { one < MOST }
    ensures { result ≡ Some (one', two) }
{
    pub_fn_in_a_body("pub fn in_a_text() {");
    Ok(None)
}

pub(crate) fn inner() {}

#[cfg(test)]
pub fn for_tests() {}
"""
BOXES = """\
use crate::limits::MOST;

/// A crate.
#[derive(Clone, Copy)]
pub struct Crate<'a, S> {
    /// pub old: u8,
    pub width: u8,
    pub names: HashMap<u8, &'a [u8; 3]>,
    pub(crate) inner: S,
    height: u8,
}

impl<'a, S> Model for Crate<'a, S> {
    ghost Value = { CrateState };
    ghost invariant = { λ c. c.width < 3 };
}

impl<'a, S: Drop + Fn(u8) -> u8> Crate<'a, S> {
    ghost use Rattle.one.specs.Crates.{crate_of};

    /// Opens it.
    pub fn open(mut self, lid: Option<(u8, u8)>) -> Self
        requires* shut { self.now.width ≡ 1 }
        ensures { result ≡ crate_of self }
    {
        if self.width < MOST { self } else { self }
    }

    pub(crate) fn inside(&self) {}

    fn nothing(&self) {}

    #[cfg(test)]
    pub fn try_it(&self) {}
}

impl Crate<'_, u8> {
    pub const fn of_bytes() -> u8 {
        b'}'
    }
}

impl<'a, S> Display for Crate<'a, S> {
    fn fmt(&self, f: &mut Formatter<'_>) -> fmt::Result {}
}

#[derive(Error)]
pub enum Fault {
    #[error("a } and a , and a {0}")]
    Broken(#[from] io::Error),
    Wide {
        most: u8,
        by: u8,
    },
    Gone,
}

pub trait Keeper<T>: Wire {
    /// What it keeps.
    ghost kept: { Self → List ℕ };

    type Kept: Copy;

    fn keep(&mut self, what: T) -> bool
        ensures kept { kept self.new ≡ what ∷ kept self.old };

    fn count(&self) -> usize {
        0
    }
}

pub struct Nothing;

pub struct Pair(pub u8, u16);

pub struct Unseen {
    pub field: u8,
}
"""
SOURCES = {
    "crates.txt": "one:\ntwo: one\n",
    "crates/one/src/lib.rt": LIB,
    "crates/one/src/boxes.rt": BOXES,
    "crates/one/src/hidden.rt": "pub use crate::boxes::Nothing;\n\npub fn hidden() {}\n",
    "crates/one/src/trials.rt": "impl Fault {\n    pub fn tried(&self) {}\n}\n",
    "crates/one/src/limits.rt": 'pub const MOST: u8 = 3;\npub const NAME: &str = "one; two";\n',
    "crates/one/src/laws.rt": "mod first;\n\npub use first::{goes, stays};\n\npub fn ends()\n"
                              "    ensures { (n : ℕ) → n ≡ n }\n{\n}\n",
    "crates/one/src/laws/first.rt": "pub fn goes()\n{\n}\n\npub fn stays()\n{\n}\n\n"
                                    "pub fn unsaid()\n{\n}\n",
    "crates/two/src/lib.rt": "pub use one::{Crate, Fault as Blame};\n",
}
EXPORTED = """\
one: struct Crate<'a, S> { .. }
one: Crate.names: HashMap<u8, &'a [u8; 3]>
one: Crate.width: u8
one: Crate<'_, u8>::of_bytes() -> u8
one: Crate<'a, S: Drop + Fn(u8) -> u8>::open(self, lid: Option<(u8, u8)>) -> Self
one: enum Fault
one: Fault::Broken(io::Error)
one: Fault::Gone
one: Fault::Wide { most: u8, by: u8 }
one: trait Keeper<T>: Wire
one: type Keeper::Kept: Copy
one: Keeper::count(&self) -> usize
one: Keeper::keep(&mut self, what: T) -> bool
one: const MOST: u8
one: struct Nothing
one: struct Pair { .. }
one: Pair.0: u8
one: laws::ends
one: laws::goes
one: laws::stays
one: const limits::MOST: u8
one: const limits::NAME: &str
one: sum<W: Write<Item = u8>>(one: u8, two: &[u8; 2], writer: &mut W) -> Result<Option<u16>, Fault>
two: Blame = one::Fault
two: Crate = one::Crate
"""
BOXES_OF_ONE, LIB_OF_ONE = "crates/one/src/boxes.rt", "crates/one/src/lib.rt"
SUM = ("sum<W: Write<Item = u8>>(one: u8, two: &[u8; 2], writer: &mut W) "
       "-> Result<Option<u16>, Fault>")
DECIDE = "or write the decision into docs/DECISIONS.md and run tools/check-docs --write-surface"


def gone(*lines):
    why = "is in docs/surface.txt and no longer public: put the name back"
    return [f"one: {it} {why}, {DECIDE}" for it in lines]


def new(*lines):
    why = "is public and not in docs/surface.txt: make it private"
    return [f"one: {it} {why}, {DECIDE}" for it in lines]


def changed(was, now):
    return [f"one: {was} is in docs/surface.txt, and is now {now}: put it back, {DECIDE}"]


FAULT_LINES = ("enum Fault", "Fault::Broken(io::Error)", "Fault::Gone",
               "Fault::Wide { most: u8, by: u8 }")
OPEN = "Crate<'a, S: Drop + Fn(u8) -> u8>::open(self, lid: Option<(u8, u8)>) -> Self"
COUNT = "Keeper::count(&self) -> usize"
# What is changed, in which file, from what, to what, and what is said of it.
CHANGES = [
    ("a renamed function", LIB_OF_ONE, "pub fn sum", "pub fn total",
     gone(SUM) + new(SUM.replace("sum", "total"))),
    ("a parameter of another type", LIB_OF_ONE, "u8; 2", "u8; 3",
     changed(SUM, SUM.replace("2", "3"))),
    ("a parameter less", LIB_OF_ONE, "    mut one: u8,\n", "",
     changed(SUM, SUM.replace("one: u8, ", ""))),
    ("another result", LIB_OF_ONE, "Option<u16>, Fault", "u16, Fault",
     changed(SUM, SUM.replace("Option<u16>", "u16"))),
    ("a field that becomes private", BOXES_OF_ONE, "    pub width", "    width",
     gone("Crate.width: u8")),
    ("a private field that becomes public", BOXES_OF_ONE, r", u16\);", ", pub u16);",
     changed("struct Pair { .. }", "struct Pair") + new("Pair.1: u16")),
    ("a field of another type", BOXES_OF_ONE, "pub width: u8", "pub width: u16",
     changed("Crate.width: u8", "Crate.width: u16")),
    ("a variant that goes", BOXES_OF_ONE, "    Gone,\n", "", gone("Fault::Gone")),
    ("a variant's field that goes", BOXES_OF_ONE, "        by: u8,\n", "",
     changed("Fault::Wide { most: u8, by: u8 }", "Fault::Wide { most: u8 }")),
    ("an export that goes", LIB_OF_ONE, "Crate, Fault, ", "Crate, ", gone(*FAULT_LINES)),
    ("a module that becomes private", LIB_OF_ONE, "pub mod limits", "mod limits",
     gone("const limits::MOST: u8", "const limits::NAME: &str")),
    ("a renamed method", BOXES_OF_ONE, "pub fn open", "pub fn close",
     new(OPEN.replace("open", "close")) + gone(OPEN)),
    ("a method that becomes private", BOXES_OF_ONE, "pub fn open", "fn open", gone(OPEN)),
    ("a bound of a type's methods", BOXES_OF_ONE, r"Drop \+ Fn", "Fn",
     changed(OPEN, OPEN.replace("Drop + ", ""))),
    ("a method of a trait that goes", BOXES_OF_ONE, "fn count", "ghost count", gone(COUNT)),
    ("a trait above a trait", BOXES_OF_ONE, "Keeper<T>: Wire", "Keeper<T>: Pipe",
     changed("trait Keeper<T>: Wire", "trait Keeper<T>: Pipe")),
    ("a constant of another type", "crates/one/src/limits.rt", "MOST: u8", "MOST: u16",
     changed("const MOST: u8", "const MOST: u16")
     + changed("const limits::MOST: u8", "const limits::MOST: u16")),
    ("a law that goes", "crates/one/src/laws.rt", "goes, ", "", gone("laws::goes")),
    ("a law that comes", "crates/one/src/laws.rt", "goes, ", "goes, unsaid, ", new("laws::unsaid")),
    ("an export that nothing stands for", LIB_OF_ONE, "Keeper, ", "Keeper, Nobody, ",
     ["crates/one: exports boxes::Nobody, which tools/doc_checks/surface.py does not find: teach "
      "it this form"]),
    ("an export of what is no crate here", LIB_OF_ONE, "pub use limits", "pub use borders",
     gone("const MOST: u8")
     + ["crates/one: exports borders::MOST, which tools/doc_checks/surface.py does not find: teach "
        "it this form"]),
    ("a form that is not known", LIB_OF_ONE, "pub mod laws", 'pub extern "C" {}\npub mod laws',
     ['crates/one: has `pub extern "" {}`, which tools/doc_checks/surface.py does not know: teach '
      "it this form"]),
]
# Changes that no caller sees.
INSIDE = [
    ("a body", LIB_OF_ONE, r"Ok\(None\)", "Err(Fault::Gone)"),
    ("a contract", LIB_OF_ONE, "one < MOST", "one ≤ 2"),
    ("a comment", BOXES_OF_ONE, "/// Opens it", "/// pub fn shuts() {"),
    ("a parameter that is changed inside", LIB_OF_ONE, "two: &", "mut two: &"),
    ("a function that is no longer wrapped", LIB_OF_ONE, r"\(\n.*\n.*\n.*\n\)",
     "(one: u8, two: &[u8; 2], writer: &mut W)"),
    ("a private field", BOXES_OF_ONE, "    height: u8", "    depth: u16"),
    ("a method of the crate's own", BOXES_OF_ONE, "fn inside", "fn outside"),
    ("a method for tests alone", BOXES_OF_ONE, "fn try_it", "fn leave_it"),
    ("a public function of a private module", "crates/one/src/hidden.rt", "hidden", "seen"),
    ("a public method of a module of tests", "crates/one/src/trials.rt", "tried", "left"),
    ("a type that is not exported", BOXES_OF_ONE, "Unseen", "Other"),
    ("a path from the module itself", LIB_OF_ONE, "limits::MOST;", "self::limits::MOST;"),
    ("a constant's value", "crates/one/src/limits.rt", "= 3", "= 4"),
]


class OfCrates(Checks):
    """Two small crates with a list of their exports."""

    maxDiff = None

    def setUp(self):
        super().setUp()
        self.addCleanup(setattr, tree, "TOP", tree.TOP)
        self.addCleanup(tree.FAULTS.clear)
        tree.TOP = self.room
        for path, text in SOURCES.items():
            self.write(path, text)
        self.write(surface.PATH, surface.HEAD + EXPORTED)

    def write(self, path, text):
        path = os.path.join(self.room, path)
        os.makedirs(os.path.dirname(path), exist_ok=True)
        with open(path, "w", encoding="utf-8") as file:
            file.write(text)

    def says(self, what, faults):
        with self.check(f"docs/surface.txt: {what}"):
            tree.FAULTS.clear()
            surface.check(False)
            self.assertEqual(sorted(tree.FAULTS), sorted(faults))

    def test_changes(self):
        self.says("what the crates export", [])
        for what, path, old, now, faults in CHANGES:
            replace(os.path.join(self.room, path), old, now)
            self.says(what, faults)
            self.write(path, SOURCES[path])

    def test_changes_inside(self):
        for what, path, old, now in INSIDE:
            replace(os.path.join(self.room, path), old, now)
            self.says(what, [])
            self.write(path, SOURCES[path])

    def test_list(self):
        other = "is not what tools/check-docs --write-surface writes: run that"
        disorder = f"docs/surface.txt: its head, its order or a line that it has twice {other}"
        append(os.path.join(self.room, surface.PATH), f"one: {SUM}\n")
        self.says("a line that it has twice", [disorder])
        self.write(surface.PATH, EXPORTED)
        self.says("no head", [disorder])
        self.write(surface.PATH, surface.HEAD + EXPORTED.replace("::goes\n", "::goes(u8)\n"))
        self.says("a line that a person has changed", changed("laws::goes(u8)", "laws::goes"))
        self.write(surface.PATH, f"{surface.HEAD}<<<<<<< ours\n{EXPORTED}")
        why = "is in docs/surface.txt and no longer public: put the name back"
        self.says("a line that a merge has left", [f"<<<<<<< ours {why}, {DECIDE}"])
        os.remove(os.path.join(self.room, surface.PATH))
        missing = "is missing: get it back from git, or run tools/check-docs --write-surface"
        self.says("no list", [f"docs/surface.txt: {missing}"])


class OfRepository(Checks):
    """A copy of this repository in which a public function is renamed."""

    def test_rename(self):
        copy = os.path.join(self.room, "copy")
        shutil.copytree(TOP, copy, ignore=shutil.ignore_patterns(".git", "out"))
        there = os.path.join(copy, surface.PATH)
        before = bytes_of(there).decode()
        line, crate, name = re.search(r"^((\w+): (\w+)\(.*)$", before, re.M).groups()
        renamed = line.replace(f": {name}(", f": {name}_renamed(")
        for at, _, files in os.walk(os.path.join(copy, "crates", crate, "src")):
            for path in (os.path.join(at, it) for it in files):
                if re.search(rf"\b{name}\b", bytes_of(path).decode()):
                    replace(path, rf"\b{name}\b", f"{name}_renamed")
        check = [os.path.join(copy, "tools", "check-docs")]
        done = ran([*check, "--write"], seconds=SECONDS)
        with self.check("tools/check-docs --write refuses a rename, and leaves the list as it is"):
            wanted = f"tools/check-docs: {line} is in docs/surface.txt and no longer public: "
            self.assertIn(wanted, done.stderr.decode())
            wanted = f"tools/check-docs: {renamed} is public and not in "
            self.assertIn(wanted, done.stderr.decode())
            self.assertEqual((done.returncode, bytes_of(there).decode()), (1, before))
        done = ran([*check, "--write-surface"], seconds=SECONDS)
        with self.check("tools/check-docs --write-surface writes the list"):
            written = "docs: docs/surface.txt is written. Lines that are new: 1. "
            self.assertIn(f"{written}Lines that are gone: 1.\n", done.stdout.decode())
            self.assertNotIn("surface.txt", done.stderr.decode())
            lines = {*before.splitlines()} - {line} | {renamed}
            self.assertEqual({*bytes_of(there).decode().splitlines()}, lines)
