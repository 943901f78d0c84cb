"""Runs tools/group/supervise in this process. The supervisor of node 1 calls `renew` while nodes
run, as where a node is started just before its supervisor sees the plan. Until `renew` has refused
that, which the file FLAG says then, it finds no node there, and the others see no plan.

    python3 -B early.py FLAG SUPERVISE WORDS.."""

import os
import runpy
import sys

flag, *sys.argv = sys.argv[1:]
sys.path.insert(0, os.path.dirname(sys.argv[0]))
from shared.renewing import plan as plans
from shared.supervising.renewing import Renewing

HOLDERS, PLAN_AT, NOTE_END = plans.holders, plans.plan_at, Renewing.note_end


def holders(plan):
    return HOLDERS(plan) if os.path.exists(flag) else []


def plan_at(record, session):
    plan = PLAN_AT(record, session)
    is_first = plan and plan.records[0] == os.path.realpath(record)
    return plan if is_first or os.path.exists(flag) else None


def note_end(self, plan, why, now):
    with open(flag, "w", encoding="utf-8") as file:
        file.write(str(why))
    NOTE_END(self, plan, why, now)


plans.holders, plans.plan_at, Renewing.note_end = holders, plan_at, note_end
runpy.run_path(sys.argv[0], run_name="__main__")
