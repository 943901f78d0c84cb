"""Runs tools/group/supervise in this process. Once it has looked for a plan, and before it looks at
its files, its session is renewed from beginning to end, as by the supervisor of another node.

    python3 -B late.py SUPERVISE WORDS.."""

import os
import runpy
import sys

TESTS = os.path.dirname(os.path.dirname(os.path.dirname(os.path.realpath(__file__))))
sys.path.insert(0, TESTS)
from parts.program import must
from parts.scripts import run
from shared import files
from shared.renewing import plan as plans


def renew(words):
    frozen = f"{words.record}.frozen-{words.session}.code"
    plan = plans.Plan(words.session, words.file, frozen, [words.record], [words.console])
    plans.begin(plan)
    done = run("renew", *plan.words())
    must(done.returncode == 0, str(done))
    plans.end(plan)


def main():
    del sys.argv[0]
    check = files.check_program

    def check_late(words):
        files.check_program = check
        renew(words)
        check(words)

    files.check_program = check_late
    runpy.run_path(sys.argv[0], run_name="__main__")


if __name__ == "__main__":
    main()
