"""The new records of a renewal, and the list that says what was made of the retired ones.

A new record is written beside its place first. Once that was done for all, the list is put beside
each retired record, and then each new record is renamed to its place. So where there is a list, a
new record that is not in its place was not put there yet if it still stands beside it. Otherwise it
was there, and is lost or was taken away. It is never made again: its node may have voted with it,
and would forget that. What still stands beside its place is put there all the same, so that the
other nodes can continue."""

import contextlib
import hashlib
import json
import os

from ..files import Refused
from .retired import bytes_at, put, retired_name, stone_of, sync_folder, write_anew


def list_name(place, session):
    """The list for the retired record of this session that was at this place."""
    return f"{place}.renewed-{session}"


def read_list(path):
    """What a list says, or None where there is none."""
    data = bytes_at(path)
    if data is None:
        return None
    try:
        return json.loads(data)
    except ValueError:
        raise Refused(f"{path} is damaged: it is no list of what was made")


class Target:
    """A record of the new session: where it is to be, and whether it is there."""

    def __init__(self, node, path, data, like, session):
        self.node, self.path, self.data, self.like = node, path, data, like
        self.session, self.second = session, f"{path}.new-{session}"

    def is_there(self, old):
        """Whether it is there, as it was written, or as its node has gone on with it. Refuses what
        is there instead, but for what stands in the place of a record of the old session."""
        retired = retired_name(self.path, self.session)
        if os.path.exists(retired):
            raise Refused(f"session {self.session} was retired too: {retired} is there")
        there = bytes_at(self.path)
        if there is None or there == stone_of(old, self.path):
            return False
        if not there.startswith(self.data):
            raise Refused(
                f"{self.path} is there already, and has other bytes than the new record; a call "
                "that was interrupted continues with the records that it was given"
            )
        return True

    def has_grown(self):
        """Whether its node has gone on with it: each start adds to a record."""
        return len(bytes_at(self.path) or b"") > len(self.data)

    def waits(self):
        """Whether it stands beside its place."""
        there = bytes_at(self.second)
        if there is not None and there != self.data:
            raise Refused(
                f"{self.second} has other bytes than the new record, which it was to become: its "
                f"disk has changed it. Renew into another session than {self.session}, and give "
                f"no node a record of session {self.session}"
            )
        return there is not None

    def write(self):
        """Writes it beside its place."""
        write_anew(self.second, self.data, self.like)
        sync_folder(self.second)

    def put(self):
        """Puts it in its place."""
        os.rename(self.second, self.path)
        sync_folder(self.path)


class Making:
    """The new records of a renewal. `sources` are the records of the old session. If the program
    was frozen, `frozen` is the path of that file, and its bytes."""

    def __init__(self, sources, targets, old, new, frozen=None):
        self.sources, self.targets, self.old, self.new = sources, targets, old, new
        self.frozen = frozen
        self.lists = {list_name(it.place, old): it for it in sources}

    def wanted(self, path):
        """What a list at this path says."""
        folder = os.path.dirname(path)
        records = [
            {"node": it.node, "record": os.path.relpath(it.path, folder),
             "sha256": hashlib.sha256(it.data).hexdigest()} for it in self.targets
        ]
        says = {"old session": self.old, "new session": self.new, "records": records}
        if self.frozen:
            path, data = self.frozen
            says["frozen"] = {"file": os.path.relpath(path, folder),
                              "sha256": hashlib.sha256(data).hexdigest()}
        return says

    def has_list(self):
        """Whether a list says that this was begun. Refuses one that says another thing."""
        found = {path: read_list(path) for path in self.lists}
        for path, says in found.items():
            if says not in (None, self.wanted(path)):
                raise Refused(
                    f"session {self.old} was renewed before, with other arguments or other "
                    f"records: {path} says as what. A session is renewed once: give the same "
                    f"arguments again, or continue with what was made"
                )
        return any(it is not None for it in found.values())

    def left(self, is_put=False):
        """The new records that are not in their places yet. Refuses to make one that is lost, once
        those that wait beside their places are put there, if that is said."""
        free = {it.place for it in self.sources if not it.is_retired}
        left, there = [], []
        for it in self.targets:
            is_there = it.path not in free and it.is_there(self.old)
            (there if is_there else left).append(it)
        waiting = [it for it in left if it.waits()] if self.has_list() else left
        if len(waiting) < len(left):
            if is_put and not free:
                self.put_waiting(waiting, there)
            self.refuse_lost(next(it for it in left if it not in waiting))
        if left and there and not self.has_list():
            self.refuse_unlisted(left[0], there[0])
        grown = next((it for it in there if it.has_grown()), None)
        if left and grown:
            raise Refused(
                f"session {self.new} has begun without node {left[0].node}: {grown.path} has "
                f"grown, and {left[0].path} was not there. {self.help_for(left[0])}"
            )
        return left

    def help_for(self, lost):
        return (
            f"Continue with the other nodes; node {lost.node} gets a record at the next renewal, "
            f"of session {self.new} into another one, by --to"
        )

    def put_waiting(self, waiting, there):
        """Puts these in their places, unless a majority has begun without them."""
        has_begun = any(it.has_grown() for it in there)
        if not has_begun or 2 * len(there) <= len(self.targets):
            for it in waiting:
                it.put()

    def refuse_lost(self, it):
        raise Refused(
            f"{it.path} was put there for node {it.node} of session {self.new}, and is not there "
            "now: it was taken to its machine, or it is lost. A record that is lost is never made "
            f"again, since its node may have voted with it. {self.help_for(it)}"
        )

    def refuse_unlisted(self, lacking, there):
        """Without a list nobody knows: an earlier version of this has kept none."""
        raise Refused(
            f"{there.path} is of session {self.new}, and {lacking.path} is not there. No list "
            "says whether it was there before: an earlier version has begun this, or the list "
            f"was removed. If a node has ever run in session {self.new}, it is lost. "
            f"{self.help_for(lacking)}. If none has, remove all records of session {self.new}, "
            "and call this again"
        )

    def is_first_seen(self):
        """Whether nothing here says that the old session was renewed, or was not: the retired
        records were brought here."""
        places = [it.place for it in self.sources] + [it.path for it in self.targets]
        return not self.has_list() and not any(os.path.lexists(it) for it in places)

    def finish(self):
        """Makes what is left, once all records of the old session are retired. What is there stays
        as it is."""
        left = self.left(is_put=True)
        if not self.has_list():
            for it in left:
                it.write()
        for path, source in self.lists.items():
            if read_list(path) is None:
                text = json.dumps(self.wanted(path), indent=1) + "\n"
                put(path, text.encode("ascii"), source.retired)
        for it in left:
            it.put()
        for it in self.targets:
            self.clear(it)
        return left

    def clear(self, it):
        """Where a power cut has left both names of a record, one goes."""
        with contextlib.suppress(FileNotFoundError):
            os.unlink(it.second)
