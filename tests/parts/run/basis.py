"""What .ci/basis prints for a crate, once sources of a crate below it have changed: of crates that
are made here."""

import os
import shutil
import subprocess
import sys

from ..checks import Checks
from ..files import file_with
from ..program import TOP

LOW = """//! A crate below.
ghost use Rattle.low.specs.Counts.{HasRisen};
ghost use Rattle.low.specs.Inside.{IsFull};

use std::marker::Model;

/// How many there may be.
const MOST: u32 = 9;

/// A count.
pub struct Count {
    now: u32,
    names: Vec<u8>,
}

impl Model for Count {
    ghost Value = { Count };

    ghost invariant = { \u03bb c. IsFull c.now };
}

/// Doubles, for this file alone.
fn doubled(now: u32) -> u32
    ensures { result \u2261 now + now }
{
    now + now
}

impl Count {
    /// Counts on.
    pub fn rise(&mut self) -> u32
        ensures { HasRisen self.old result }
    {
        self.now = doubled(self.now).min(MOST);
        self.now
    }
}
"""
HIGH = """//! A crate above.
use low::Count;

pub fn rise_twice(count: &mut Count) -> u32
    ensures { HasRisen count.old result }
{
    count.rise();
    count.rise()
}
"""
FILES = {
    "crates.txt": "low:\nhigh: low\nother:\n",
    "crates/low/src/lib.rt": LOW,
    "crates/low/specs/Counts.antt": "use Rattle.low.specs.More.{More}\nHasRisen = More\n",
    "crates/low/specs/More.antt": "More = 1\n",
    "crates/low/specs/Inside.antt": "IsFull = 1\n",
    "crates/low/proofs/Rising.antt": "rises = 1\n",
    "crates/low/proofs/Doubling.antt": "doubles = 1\n",
    "crates/high/src/lib.rt": HIGH,
    "crates/high/proofs/Twice.antt": "use Rattle.low.proofs.Rising.{rises}\n",
    "crates/other/src/lib.rt": "//! Another one.\n",
}
# A change of a file: what it is, the file, what it takes out, and what it puts there.
UNSEEN = (
    ("a body", "crates/low/src/lib.rt", "    now + now\n", "    2 * now\n"),
    ("a function that is not public", "crates/low/src/lib.rt", "fn doubled(now", "fn twice(now"),
    ("its contract", "crates/low/src/lib.rt", "\u2261 now + now", "\u2261 2 * now"),
    ("a private constant", "crates/low/src/lib.rt", "u32 = 9", "u32 = 8"),
    ("a private field that is a number", "crates/low/src/lib.rt", "    now: u32,\n",
     "    now: u32,\n    least: u64,\n"),
    ("an invariant", "crates/low/src/lib.rt", "IsFull c.now }", "IsFull (c.now + 1) }"),
    ("a comment", "crates/low/src/lib.rt", "/// Counts on.", "/// Counts on by one."),
    ("an empty line", "crates/low/src/lib.rt", "::Model;\n", "::Model;\n\n"),
    ("a definition that only the invariant names", "crates/low/specs/Inside.antt", "1", "2"),
    ("a proof that no proof above names", "crates/low/proofs/Doubling.antt", "1", "2"),
    ("a crate that is not below", "crates/other/src/lib.rt", "//!", "pub fn other() {}\n//!"),
)
SEEN = (
    ("a contract", "crates/low/src/lib.rt", "HasRisen self.old", "HasRisen self.new"),
    ("a signature", "crates/low/src/lib.rt", "rise(&mut self) -> u32", "rise(&mut self) -> u64"),
    ("a function that becomes public", "crates/low/src/lib.rt", "fn doubled", "pub fn doubled"),
    ("a field that becomes public", "crates/low/src/lib.rt", "    now: u32", "    pub now: u32"),
    ("a private field of another type", "crates/low/src/lib.rt", "Vec<u8>", "Vec<u16>"),
    ("a definition that a contract names", "crates/low/specs/Counts.antt", "= More", "= 2"),
    ("a definition that this one names", "crates/low/specs/More.antt", "1", "2"),
    ("a proof that a proof above names", "crates/low/proofs/Rising.antt", "1", "2"),
    ("a body of the crate itself", "crates/high/src/lib.rt", "    count.rise();\n", ""),
    ("a proof of the crate itself", "crates/high/proofs/Twice.antt", "rises", "others"),
    ("what the crate depends on", "crates.txt", "high: low", "high: low other"),
)


class OfBasis(Checks):
    """What .ci/basis prints."""

    def printed(self, changed="", text=""):
        tree = os.path.join(self.room, "tree")
        shutil.rmtree(tree, ignore_errors=True)
        for path, its in {**FILES, **({changed: text} if changed else {})}.items():
            os.makedirs(os.path.dirname(os.path.join(tree, path)), exist_ok=True)
            file_with(tree, path, its.encode())
        os.makedirs(os.path.join(tree, ".ci"))
        shutil.copy(os.path.join(TOP, ".ci", "basis"), os.path.join(tree, ".ci"))
        return subprocess.check_output([sys.executable, f"{tree}/.ci/basis", "high"])

    def test_changes(self):
        before = self.printed()
        for changes, is_seen in ((UNSEEN, False), (SEEN, True)):
            for what, path, old, new in changes:
                self.assertEqual(FILES[path].count(old), 1, what)
                now = self.printed(path, FILES[path].replace(old, new))
                with self.check(f"{what} {'counts' if is_seen else 'does not count'}"):
                    self.assertEqual(now != before, is_seen)

    def test_crates(self):
        """It can read each crate of this repository."""
        with open(os.path.join(TOP, "crates.txt"), encoding="utf-8") as file:
            names = [it.split(":")[0].split()[0] for it in file if ":" in it.split("#")[0]]
        for name in names:
            done = subprocess.run([sys.executable, os.path.join(TOP, ".ci", "basis"), name],
                                  check=False, capture_output=True)
            with self.check(f"{name} has a basis"):
                self.assertEqual((done.returncode, done.stderr), (0, b""))
                self.assertIn(f"crates/{name}/src/".encode(), done.stdout)
        done = subprocess.run([sys.executable, os.path.join(TOP, ".ci", "basis"), "none"],
                              check=False, capture_output=True)
        with self.check("a crate that is not there"):
            self.assertEqual((done.returncode, done.stdout), (2, b""))
