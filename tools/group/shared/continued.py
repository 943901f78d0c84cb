"""By which sessions the session of a node was continued: what `renew --freeze` has left beside the
node's record. So one file of arguments, with the first session and its program, stays good for all
sessions that follow."""

import os

from .files import Refused
from .renewing.made import list_name, read_list


def next_after(record, session):
    """The session that continues this one, and its code file, by the list beside the record. None
    if the session was not renewed by freezing."""
    place = os.path.realpath(record)
    says = read_list(list_name(place, session))
    if says is None or "frozen" not in says:
        return None
    file = os.path.join(os.path.dirname(place), says["frozen"]["file"])
    return says["new session"], os.path.normpath(file)


def sessions_after(record, session, file, is_over=lambda session: True):
    """This session and those that continue it, each with its code file, up to the first of which
    it is not said that it is over."""
    found = {session: file}
    while is_over(session):
        after = next_after(record, session)
        if after is None or after[0] in found:
            break
        session = after[0]
        found[session] = after[1]
    return list(found.items())


def follow_words(words):
    """Takes for words with --record, --session and --file the last session that continues theirs,
    if the record is on this machine."""
    if words.record is None or words.session is None:
        return
    try:
        words.session, words.file = sessions_after(words.record, words.session, words.file)[-1]
    except (OSError, Refused):
        pass  # What is said stays.
