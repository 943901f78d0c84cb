"""What supervisors of one machine do together as they renew their session by freezing: a plan,
which one of them writes beside the record of its node, and then beside those of the others.

The first of these files is the plan, and the others are copies. A copy counts as long as the first
one has the same bytes. So the plan begins when the first file is put, and is over when that is
removed, whenever a kill or a cut of the power comes; and no node is started while it counts."""

import contextlib
import json
import os
from typing import List, NamedTuple

from ..files import Refused
from ..locks import holder_of
from ..whole import remove_whole
from .made import list_name, read_list
from .retired import bytes_at, put, retired_name, session_at


class Plan(NamedTuple):
    session: int  # the one that is renewed
    file: str
    frozen: str
    records: List[str]  # in order of the nodes; the supervisor of the first one renews
    consoles: List[str]

    def text(self):
        return (json.dumps(self._asdict(), indent=1) + "\n").encode("ascii")

    def words(self):
        """The words of `renew` for it."""
        return ["--freeze", self.frozen, "--file", self.file, "--session", str(self.session),
                "--yes", *self.records, "--consoles", *self.consoles]


def plan_path(record, session):
    return f"{os.path.realpath(record)}.renewing-{session}"


def plan_of(path):
    """The plan in a file, or None where there is none."""
    data = bytes_at(path)
    try:
        return data and Plan(**json.loads(data))
    except (TypeError, ValueError):
        raise Refused(f"{path} is damaged: it is no plan of a renewal. Put a copy of another "
                      "node's plan there: it is beside that node's record") from None


def plan_at(record, session):
    """The plan that counts at a node, or None. A copy that is void is removed."""
    path = plan_path(record, session)
    plan = plan_of(path)
    if plan is None:
        return None
    first = plan_path(plan.records[0], session)
    if first != path and bytes_at(first) != plan.text():
        remove_whole(path)
        return None
    return plan


def begin(plan):
    """Puts the first file. From then on the plan counts."""
    first = plan.records[0]
    put(plan_path(first, plan.session), plan.text(), first)


def tell(plan):
    """Puts the copies, as far as they are not there."""
    for it in plan.records[1:]:
        path = plan_path(it, plan.session)
        if bytes_at(path) != plan.text():
            like = next(place for place in (it, plan.records[0]) if os.path.exists(place))
            put(path, plan.text(), like)


def end(plan):
    """Removes the first file, so that the plan is over, and then the copies."""
    for it in plan.records:
        remove_whole(plan_path(it, plan.session))


def holders(plan):
    """Who is at the records, in words."""
    return [it for it in map(holder_of, plan.records) if it]


def is_begun(plan):
    """Whether a record is retired, so that the old session cannot continue."""
    return any(session_at(it) != plan.session for it in plan.records)


def take_back(plan):
    """Removes the second names that records have got which are not retired."""
    for it in plan.records:
        name = retired_name(it, plan.session)
        with contextlib.suppress(FileNotFoundError):
            if os.path.samefile(it, name):
                remove_whole(name)


def renewed_into(plan):
    """The session by which it is renewed, if all its records are there, and else None."""
    says = read_list(list_name(plan.records[0], plan.session))
    new = says and says["new session"]
    return new if new and all(session_at(it) == new for it in plan.records) else None
