"""What is seen of a group on this machine without asking it: its nodes' records, their processes,
the ends of their consoles, and what their logs say of the end of the program."""

import os
import stat

from .codes import with_sentence
from .consoles import View
from .ends import Log
from .frozen import end_in_original
from .nodes import stat_of
from .ports import is_local, is_owners, user_of, users_at
from .record import (
    PLACES, START, Damaged, Head, places_of, read_record, record_of, text_of_ballot,
)
from .seen import Seen, point_of, point_of_head
from .words import text_of_address

# The greatest round of a ballot.
LAST_ROUND = 4294967295


class Whole(Head):
    """The record of a file with its votes, again and again, and what it had promised when the node
    was started last, where that is known: `before`."""

    has_votes = True

    def __init__(self, path):
        super().__init__(path)
        self.before = None

    def whole(self, data):
        self.before = None
        return record_of(data)

    def note(self, starts, promised, tag, ballot):
        super().note(starts, promised, tag, ballot)
        if tag == START:
            self.before = promised

    def kept(self, record):
        return record

    def point(self, record):
        """How far the record has come, which was read here last."""
        return point_of(record) if self.inode is None else point_of_head(self, record)


def words_of_process(pid):
    try:
        with open(f"/proc/{pid}/cmdline", "rb") as file:
            return [os.fsdecode(it) for it in file.read().split(b"\0")]
    except OSError:
        return []


def link_of(path):
    try:
        return os.readlink(path)
    except OSError:
        return None


def is_at(path, pid, word):
    """Whether a word of a process is the name of this file."""
    folder = link_of(f"/proc/{pid}/cwd")
    if not os.path.isabs(word) and folder is None:
        return False
    return os.path.realpath(os.path.join(folder or "/", word)) == os.path.realpath(path)


def node_processes():
    """The processes of nodes on this machine, each with its words after `node`."""
    found = {}
    for name in os.listdir("/proc"):
        words = words_of_process(name) if name.isdigit() else []
        if len(words) > 2 and words[1] == "node":
            found[int(name)] = words[2:]
    return found


def said_keys(words):
    """The addresses of keys in a node's words."""
    said = [it.split("=", 1)[-1] for it in words if it.startswith("--keys=")]
    return said + [after for word, after in zip(words, words[1:]) if word == "--keys"]


def has_keys_at(words, address):
    """Whether a node with these words takes its keys at this address."""
    return text_of_address(address) in said_keys(words)


def keys_of(words):
    """The port to which the keys of a node with these words come, or 0."""
    return int(next(iter(said_keys(words)), ":0").rpartition(":")[2])


def plain_words(words):
    """The words of a node that are no options and no values of one: FILE, ID, SIZE, SESSION,
    RECORD, TURNS and the addresses."""
    values = {at + 1 for at, word in enumerate(words) if word in ("--seen", "--keys")}
    return [it for at, it in enumerate(words) if at not in values and not it.startswith("--")]


def record_word(words):
    """The word RECORD of a node, or None."""
    plain = plain_words(words)
    return plain[4] if len(plain) > 4 else None


def nodes_at(address):
    """The processes of the nodes whose keys come to this address, each with its words. On this
    machine that is the one who has the port, whoever else says so."""
    is_here, users = is_local(address), users_at(address)
    for pid, words in node_processes().items():
        if has_keys_at(words, address) and not (is_here and user_of(pid) not in users):
            yield pid, words


def records_at(address):
    """The records of the nodes of this machine whose keys come to this address."""
    for pid, words in nodes_at(address):
        word = record_word(words)
        if word:
            try:
                yield read_record(os.path.join(f"/proc/{pid}/cwd", word))
            except (OSError, Damaged):
                pass  # It cannot be seen.


def refusals_at(address):
    """Why the node whose keys come to this address would refuse to campaign, by its record, in a
    list of at most one. Of a node of another machine nothing is known."""
    for record in records_at(address):
        if len(record.votes) == PLACES:
            return [with_sentence("refused D12")]
        if record.promised is not None and record.promised.round == LAST_ROUND:
            return [with_sentence("refused D11")]
    return []


def state_of(pid):
    """The state of a process, and the one that has started it. Both are None where it has ended."""
    try:
        return stat_of(pid)[:2]
    except OSError:
        return None, None


def code_of(pid, words):
    """The code file of a node's process with these words behind `node`, or None."""
    folder, plain = link_of(f"/proc/{pid}/cwd"), plain_words(words)
    return os.path.join(folder, plain[0]) if folder and plain else None


def node_at(path, processes):
    """The process of the node of this record, with its words, or None twice."""
    for pid, words in processes.items():
        if any(is_at(path, pid, it) for it in words) and is_owners(pid, path):
            return pid, words
    return None, None


def file_of(pid, descriptor):
    """The file that a process has there, or None if it has none or that cannot be seen."""
    path = link_of(f"/proc/{pid}/fd/{descriptor}")
    try:
        return path if path and stat.S_ISREG(os.stat(path).st_mode) else None
    except OSError:
        return None


class Watched:
    """A node: what was seen of it when `look` was called last."""

    def __init__(self, path, console, log, screen=None):
        self.path, self.given = path, console
        self.console = console
        self.is_log_given, self.log = log is not None, log and Log(log)
        self.head, self.view = Whole(path), View(screen)
        self.record, self.fault, self.pid, self.state = None, None, None, None
        self.end, self.log_fault, self.code = None, None, None
        # By which run it was seen that the record is older than it was, or None.
        self.later = None

    def look(self, processes, seen):
        self.record, self.fault, self.later = None, None, None
        try:
            self.record = self.head.read()
            self.later = seen.run_after(self.record, self.head.point(self.record))
        except Damaged as fault:
            self.fault = f"damaged: {fault}"
        except OSError as fault:
            self.fault = fault.strerror
        self.pid, words = node_at(self.path, processes)
        is_mine = self.pid is not None
        self.state, parent = state_of(self.pid) if is_mine else (None, None)
        if is_mine:
            self.code = code_of(self.pid, words)
        if self.given is None and is_mine:
            self.console = file_of(self.pid, 1) or self.console
        if not self.is_log_given and is_mine:
            self.find_log(file_of(self.pid, 2) or file_of(parent, 2))
        self.look_at_log()

    def find_log(self, path):
        """Takes the file to which the node, or its supervisor, writes its lines."""
        if path and (self.log is None or self.log.path != path):
            self.log = Log(path)

    def look_at_log(self):
        """Notes how the program has ended, where the log says that it has."""
        self.end, self.log_fault = None, None
        if self.log is None:
            return
        try:
            self.log.look()
        except OSError as fault:
            self.log_fault = f"{self.log.path}: {fault.strerror}"
        if self.record:
            end = self.log.end(self.record.node, self.record.session)
            self.end = end_in_original(self.code, end) if end and self.code else end

    def is_up(self):
        return self.state not in (None, "T", "t", "Z", "X")

    def may_lead(self):
        """The ballot under which it may lead: one of its own, of its present run."""
        it = self.record
        is_own = it and it.promised and it.promised.node == it.node
        return it.promised if is_own and it.promised != self.head.before and self.is_up() else None

    def end_of_console(self, room):
        """At most so many lines of the console's end, as a terminal shows it, or None where no file
        is known to have it."""
        if self.console is None:
            return None
        try:
            self.view.look(self.console)
        except OSError as fault:
            return [f"({self.console}: {fault.strerror})"]
        return self.view.lines(room)


class Group:
    """The nodes whose records are given."""

    def __init__(self, records, consoles, logs, screen=None):
        none = [None] * len(records)
        given = zip(records, consoles or none, logs or none)
        self.nodes = [Watched(*it, screen) for it in given]

    def look(self):
        processes, seen = node_processes(), Seen([it.path for it in self.nodes])
        for it in self.nodes:
            it.look(processes, seen)

    def size(self):
        return max((it.record.size for it in self.nodes if it.record), default=len(self.nodes))

    def leader(self):
        """The greatest ballot that a majority has promised and whose node is up, or None."""
        promised = [it.record.promised for it in self.nodes if it.record]
        mine = [it.may_lead() for it in self.nodes]
        found = [it for it in mine if it and 2 * promised.count(it) > self.size()]
        return max(found, default=None)

    def heading(self):
        up, size, leader = sum(it.is_up() for it in self.nodes), self.size(), self.leader()
        sessions = sorted({it.record.session for it in self.nodes if it.record})
        what = "session" if len(sessions) < 2 else "different sessions"
        names = ", ".join(str(it) for it in sessions)
        elsewhere = max(0, size - len(self.nodes))  # Of these nodes nothing is seen here.
        majority = "a majority" if 2 * up > size else "no majority"
        if majority == "no majority" and 2 * (up + elsewhere) > size:
            majority = "whether a majority runs is unknown"
        who = "who leads is unknown" if elsewhere else "nobody leads"
        if leader:
            who = f"node {leader.node} leads, ballot {text_of_ballot(leader)}"
        return f"{what} {names}: {up} of {size} nodes run here, {majority}; {who}"


def line_of(node, leader):
    """What is seen of a node, in a line."""
    if node.pid is None:
        process = "does not run"
    elif not node.is_up():
        process = f"is stopped, process {node.pid}"
    else:
        does = "leads" if leader and leader == node.may_lead() else "runs"
        process = f"{does}, process {node.pid}"
    it = node.record
    if it is None:
        return f"{node.path}: {node.fault}; its node {process}"
    return (
        f"node {it.node} {process}; starts {it.starts} promised {text_of_ballot(it.promised)} "
        f"places {places_of(it)}"
    )
