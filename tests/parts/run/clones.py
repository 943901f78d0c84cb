"""A copy of this repository in which tests/run calls ./run and ./test, and stand-ins: small scripts
in place of the program, of the toolchain's `rt` and of `uname`."""

import glob
import gzip
import hashlib
import os
import re
import shutil
import subprocess
import sys

from ..checks import Checks
from ..files import bytes_of, file_with
from ..program import TOP, ran

KIT = "kit-of-a-stand-in logic 1"
# How long a script of the copy may take.
SECONDS = 600
# The commands of a machine without the toolchain.
COMMANDS = """
    awk bash cat chmod cmp cp cut dirname env find flock grep gzip head ls mkdir mktemp mv nproc
    paste readlink realpath rm sed sha256sum sleep sort tail tar tee touch tr uname wc xargs
""".split()
UNAME = "#!/usr/bin/env bash\necho aarch64\n"
# It logs its folder and words; `ci`, `lib` and `run` build what BUILT names, FAIL makes them fail,
# HOLD makes `ci` wait for a file, and REFUSED has the edits that it refuses.
RT = r"""#!/usr/bin/env bash
set -euo pipefail
echo "${PWD##*/} $*" >> "$LOG"
build() { mkdir -p "$1/out/rlib" && cp "$BUILT" "$1/out/pgroup"; }
case $1 in
  version) echo "$KIT" && exit ;;
  ci)
    find . -mindepth 1 -path './.git' -prune -o -print | sort > "$LOG.tree"
    echo "${RT_JOBS:-}" > "$LOG.jobs"
    if [ -n "${HOLD:-}" ]; then
      echo $$ > "$HOLD.begun"
      until [ -e "$HOLD" ]; do sleep 0.01; done
    fi
    sed -n 's/^\([a-z_0-9]*\)[ :].*/== \1\nrt: \1 proved/p' crates.txt
    for edit in ${REFUSED:-}; do
      [ -e "crates/${edit/\//\/must-fail\/}" ] || continue
      echo "rt: must-fail $edit: refused, as it must be"
    done
    build crates/pgroup
    ;;
  lib) mkdir -p out/rlib ;;
  run) build . ;;
esac
if [ -n "${FAIL:-}" ]; then
  printf '%s\n' '== base' 'a reason' 'rt: base NOT PROVED' '== digits'
  head -c 100 /dev/zero | tr '\0' '\n'
  exit 1
fi
echo '7 passed, 0 failed'
"""


def sum_of(path):
    return hashlib.sha256(bytes_of(path)).hexdigest()


def script_at(path, text):
    """Writes a script, with what shows that it may be run."""
    with open(path, "w", encoding="utf-8") as file:
        file.write(text)
    os.chmod(path, 0o755)
    return path


def stand_in(path, text):
    """A program that writes the text and its words."""
    return script_at(path, f"#!/usr/bin/env bash\nprintf '%s\\n' '{text}' \"$@\"\n")


def append(path, text):
    with open(path, "a", encoding="utf-8") as file:
        file.write(text)


def replace(path, old, new):
    """Replaces what a pattern finds in a file, which is there."""
    text, count = re.subn(old, new, bytes_of(path).decode(), flags=re.M)
    assert count > 0, (path, old)
    with open(path, "w", encoding="utf-8") as file:
        file.write(text)


def flip(path, offset):
    """Changes one byte of a file."""
    with open(path, "r+b") as file:
        file.seek(offset)
        byte = file.read(1)[0]
        file.seek(offset)
        file.write(bytes([byte ^ 1]))


def make_commands(room):
    """Folders for PATH: the commands of a machine without the toolchain, a stand-in for rt,
    python3, and a uname of another machine."""
    for name in ("plain", "rt", "python", "arm", "tmp"):
        os.mkdir(os.path.join(room, name))
    for name in COMMANDS:
        os.symlink(shutil.which(name), os.path.join(room, "plain", name))
    os.symlink(sys.executable, os.path.join(room, "python", "python3"))
    script_at(os.path.join(room, "arm", "uname"), UNAME)
    script_at(os.path.join(room, "rt", "rt"), RT)


def make_origin(origin):
    """What ./run and ./test read of this repository, but of each crate only the first file; with a
    must-fail edit and a crate that only tests."""
    found = glob.glob(os.path.join(TOP, "crates", "*", "src", "lib.rt"))
    found += glob.glob(os.path.join(TOP, "crates", "*", "src", "main.rt"))
    names = [os.path.relpath(it, TOP) for it in found]
    names += ["run", "test", "crates.txt", "HANDLES", "crates/base/specs/Lib.antt"]
    names += ["tools/bash/sources.bash", "tools/bash/provide.bash", ".ci/basis"]
    for name in names:
        os.makedirs(os.path.dirname(os.path.join(origin, name)), exist_ok=True)
        shutil.copy(os.path.join(TOP, name), os.path.join(origin, name))
    os.makedirs(os.path.join(origin, "crates/base/must-fail"))
    file_with(origin, "crates/base/must-fail/one.edit", b"file: src/lib.rt\n")
    os.makedirs(os.path.join(origin, "crates/only_tests/src"))
    file_with(origin, "crates/only_tests/src/lib.rt", b"// a test\n")
    append(os.path.join(origin, "crates.txt"), "only_tests: base\n")


class Clone(Checks):
    """Calls of scripts of a clone, without and with rt, and with what else the stand-in for rt is
    given. `status`, `output` and `errors` are those of the last call."""

    maxDiff = None

    def setUp(self):
        super().setUp()
        self.room = os.path.realpath(self.room)
        make_commands(self.room)
        make_origin(self.at("origin"))
        self.recorded = stand_in(self.at("recorded"), "recorded")
        self.built = stand_in(self.at("built"), "built")
        self.tree, self.log = self.at("tree"), self.at("log")
        self.plain = self.at("plain")
        self.with_rt = f"{self.at('rt')}:{self.plain}"
        self.with_python = f"{self.at('python')}:{self.with_rt}"
        self.clone()

    def at(self, name):
        return os.path.join(self.room, name)

    def of(self, name):
        """The path of a file of the clone."""
        return os.path.join(self.tree, name)

    def clone(self, has_record=True):
        """Makes the clone anew. Its record is of the first stand-in."""
        shutil.rmtree(self.tree, ignore_errors=True)
        for name in (self.log, self.log + ".tree"):
            if os.path.exists(name):
                os.remove(name)
        shutil.copytree(self.at("origin"), self.tree)
        if has_record:
            os.mkdir(self.of("program"))
            packed = gzip.compress(bytes_of(self.recorded))
            lines = ["# a comment", f"program {sum_of(self.recorded)}",
                     f"packed {hashlib.sha256(packed).hexdigest()}",
                     f"sources {self.sum_of_sources()}", f"kit {KIT}",
                     f"machine {os.uname().machine}", ""]
            file_with(self.of("program"), "pgroup.gz", packed)
            file_with(self.of("program"), "record", "\n".join(lines).encode())

    def told(self, command):
        """What a function of sources.bash says in the clone."""
        words = ["bash", "-c", f". tools/bash/sources.bash; {command}"]
        return subprocess.check_output(words, cwd=self.tree).decode().strip()

    def sum_of_sources(self):
        return self.told("sum_of_sources .")

    def environment(self, path, given):
        more = {"TMPDIR": self.at("tmp"), "LOG": self.log, "KIT": KIT, "BUILT": self.built}
        return {"PATH": path, **more, **given}

    def call(self, path, *words, script="tree/run", **given):
        """Runs a script of the clone with this PATH."""
        done = ran([self.at(script), *words], stdin=subprocess.DEVNULL, seconds=SECONDS,
                   env=self.environment(path, given))
        self.status = done.returncode
        self.output, self.errors = (it.decode().rstrip("\n") for it in (done.stdout, done.stderr))

    def ends(self, name, status, output, errors=None):
        """Checks how the last call has ended, and what it wrote. `errors` is a pattern that the
        errors have; without it there are none."""
        with self.check(name):
            self.assertEqual((self.status, self.output), (status, output), self.errors)
            if errors is None:
                self.assertEqual(self.errors, "")
            else:
                self.assertRegex(self.errors, errors)

    def holds(self, name, is_so):
        with self.check(name):
            self.assertTrue(is_so, (self.status, self.output, self.errors))

    def lines_of_log(self):
        """How rt was called, but for its version."""
        lines = bytes_of(self.log).decode().splitlines() if os.path.exists(self.log) else []
        return [it for it in lines if not it.endswith(" version")]

    def is_tidy(self):
        """Whether nothing is left of what a script made for itself."""
        return not os.listdir(self.at("tmp"))
