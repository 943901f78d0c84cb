"""What a page says of a group and of its nodes, in sentences, for tests/page."""

from shared.paging.due import due_of
from shared.paging.heading import flow_of, heading_of, until_of, with_reasons
from shared.paging.lanes import Lane
from shared.paging.life import Life, Pair
from shared.paging.marks import Marks
from shared.paging.moves import moved_of, still_of
from shared.paging.recovery import Recovery
from shared.paging.sentences import death_of, told_of
from shared.record import Ballot

from ..checks import expect


# Two that were lost last, each with its time, its node and how.
TWO = [[700, 3, "was killed"], [900, 2, "was killed"]]


def nodes(*states):
    return [{"node": at, "state": it} for at, it in enumerate(states, 1)]


def check_heading(_):
    """What is said of a group, by what its nodes are."""
    for what, states, size, leader, nobody in (
        ("3 of 3 nodes run, a majority; node 1 leads", ("leads", "up", "up"), 3, "node 1 leads",
         False),
        ("2 of 3 nodes run, a majority; node 3 is missing; node 1 leads", ("leads", "up", "down"),
         3, "node 1 leads", False),
        ("The program waits until a node leads. Unless a supervisor asks one, a person has to: it "
         "is said below. What you type is kept.", ("down", "up", "up"), 3, None, True),
        ("Node 1 is missing and node 3 is stopped. Only 1 of 3 nodes runs, and 2 are needed: the "
         "program stands still", ("down", "up", "stopped"), 3, None, True),
        ("Nodes 1 and 3 are missing. Only 1 of 3 nodes runs, and 2 are needed: the program stands "
         "still", ("down", "leads", "down"), 3, "node 2 leads", False),
        ("None of 3 nodes runs, and 2 are needed: the program stands still",
         ("down",) * 3, 3, None, True),
        ("Nodes 3, 4 and 5 are missing. Only 1 of 5 nodes is known to run, and 3 are needed: the "
         "program stands still", ("up", "unknown", "down", "down", "down"), 5, None, False),
        ("1 of 3 nodes are known to run, and whether a majority runs is unknown; who leads is "
         "unknown", ("up",), 3, None, False),
        ("0 of 0 nodes run, and whether a majority runs is unknown; who leads is unknown", (), 0,
         None, False),
        ("Nodes 3, 4 and 5 are missing. Only 2 of 5 nodes run, and 3 are needed: the program "
         "stands still", ("up", "up", "down", "down", "down"), 5, None, True),
        ("3 of 5 nodes are known to run, a majority; who leads is unknown",
         ("up", "up", "up", "unknown", "unknown"), 5, None, False),
    ):
        found = heading_of(nodes(*states), size, leader, nobody)
        expect(what, found == what, found)
    ended = [{**it, "end": "its program has ended"} for it in nodes("up", "up", "up")]
    found = heading_of(ended, 3, None, True, True)
    expect("once the program has ended nothing is kept", found == "Nobody leads; 3 of 3 nodes run, "
           "a majority; the program has ended, and reads no key any more", found)
    check_why()
    check_flow()
    check_moved()
    check_stale()
    check_due()
    check_idle()
    check_button()


def check_why():
    """While nobody leads, or no majority runs, the heading says who was lost."""
    soon = ("The program waits until a node leads, usually within a second. Go on typing: what you "
            "type is kept.")
    found = heading_of(nodes("up", "up", "up"), 3, None, True, True)
    expect("while supervisors run, a group that nobody leads alarms nobody", found == soon, found)
    found = heading_of(nodes("up", "up", "up"), 3, None, True, True, TWO)
    expect("why nobody leads, though all run again", found == "Nodes 2 and 3 were killed at the "
           f"same time. {soon}", found)
    found = heading_of(nodes("up", "down", "down"), 3, None, True, True, TWO)
    expect("why no majority runs", found == "Nodes 2 and 3 were killed at the same time. Only 1 of "
           "3 nodes runs, and 2 are needed: the program stands still", found)


def check_flow():
    """What becomes of keys, which nodes are not asked, and what is said of a session."""
    able = [{**it, "can_lead": it["state"] == "up"} for it in nodes("leads", "up", "down")]
    for of, wanted in ((able, ["it leads already", None, "it does not run"]),
                       (able[1:], [None, "it does not run"]),
                       ([*able[1:], able[2]],
                        ["no majority runs", "it does not run", "it does not run"])):
        found = [it["why_not"] for it in with_reasons(of, 3)]
        expect(f"why nodes are not asked: {wanted}", found == wanted, found)
    run, ended = nodes("leads", "up", "down"), [{"node": 1, "state": "up", "end": "ended"}]
    for what, of, nobody, wanted in (
        ("while one leads", run, False, "goes"), ("while nobody leads", run, True, "waits"),
        ("without a majority", nodes("leads", "down", "down"), False, "waits"),
        ("where that is unknown", nodes("up"), False, "goes"),
        ("of a program that has ended", ended, True, "ended"),
    ):
        found = flow_of(of, 3, nobody)
        expect(f"what becomes of keys {what}", found == wanted, found)
    for states, flow, wanted in (
        (("up", "up", "down"), "waits", "until a node leads"),
        (("up", "down", "down"), "waits", "until 2 nodes run"),
        (("leads", "up", "up"), "goes", None),
    ):
        found = until_of(nodes(*states), 3, flow)
        expect(f"until when typed keys would wait: {wanted}", found == wanted, found)


def check_moved():
    """What is said of a session that has moved: who was lost, and all that were lost with it."""
    moved = "Node 1 has ended: the session continues at node 2, and its console is shown."
    for lost, wanted in (
        (None, "Node 1 has ended"), ("Node 1 was killed", "Node 1 was killed"),
        (("Nodes 1 and 3 were killed at the same time",) * 2),
    ):
        found = moved_of(moved, {1: lost}.get)
        expect(f"a session that has moved, {lost}", found == f"{wanted}: you now type at node 2, "
               "and see its console.", found)
    other = "The session continues at node 3, as it was asked for."
    expect("one that a person has moved", moved_of(other, {}.get) == other)
    again = ("The keys that waited are typed now: the session continues at node 2, which runs "
             "again, and its console is shown.")
    still = again.replace("the session continues at", "your session is at")
    for is_still, wanted in ((False, again), (True, still)):
        found = still_of(moved_of(again, {}.get), is_still)
        expect("one that has come back", found == wanted, found)
    recovery, marks = Recovery(clock=lambda: 9000), Marks()
    for when, at in ((1000, 2), (8000, 0), (8400, 2)):
        marks.add(at, "ended", "was killed (SIGKILL)", when)
        marks.add(at, "start", "is up again", when + 50)
    recovery.look(marks, [{"at": at, **it} for at, it in enumerate(nodes("up", "up", "up"))], 3, 2,
                  "kept")
    found = recovery.lost_with(1)
    expect("those that were lost with it are found", found == "Nodes 1 and 3 were killed at the "
           "same time", found)


class Restarted:
    """A node whose record has the ballot of its earlier process until the next one has begun."""

    def __init__(self, process, ballot):
        self.process, self.votes, self.number = process, None, 1
        self.was_seen, self.keys, self.is_dead, self.has_ended = True, None, False, False
        self.node, self.promised, self.session, self.starts = 1, ballot, 7, 1

    def record(self):
        return self

    def may_lead(self):
        is_own = self.promised.node == self.node
        return self.promised if is_own and not self.is_dead else None

    def is_gone(self):
        return self.is_dead

    def is_stopped(self):
        return False

    def is_running(self, process):
        return not (self.is_dead or self.has_ended) and process == self.process

    def size(self):
        return None


def check_stale():
    """A node is not said to lead under a ballot of a process that has ended; and its death is told
    as one by which the program stands still, unless another node leads."""
    old, new = Ballot(1, 1), Ballot(3, 1)
    seat, marks = Restarted((10, 1), Ballot(1, 2)), Marks()
    lane = Lane(0, seat, marks)
    lane.look(Ballot(1, 2), [])
    seat.promised = old
    lane.look(old, [])
    expect("it leads", lane.word == "leads", lane.word)
    seat.is_dead = True
    lane.look(False, [])
    seat.is_dead, seat.process = False, (11, 2)
    for _ in range(2):
        lane.look(old, [])
    expect("its next process does not lead under the old ballot", lane.word == "up", lane.word)
    seat.promised = new
    lane.look(new, [])
    told = [it[3:] for it in marks.since(0) if it[3] in ("leads", "ended", "gone", "start")]
    expect("what is told, in order", told == [("leads", "1.1"), ("ended", "has ended"),
           ("start", "is up again"), ("leads", "3.1")], told)
    seat, marks = Restarted((10, 1), Ballot(1, 2)), Marks()
    lane = Lane(0, seat, marks)
    lane.look(Ballot(1, 2), [])
    seat.promised, seat.has_ended = old, True
    lane.look(old, [])
    told = [it[3] for it in marks.since(0)]
    expect("a node that has ended since it was looked at", "leads" not in told, told)
    for is_still, kind in ((False, "gone"), (True, "ended")):
        marks = Marks()
        follower = Lane(0, Restarted((10, 1), Ballot(1, 2)), marks)
        follower.look(Ballot(1, 2), [])
        follower.seat.is_dead, marks.is_still = True, is_still
        follower.look(not is_still and Ballot(1, 2), [])
        kinds = [it[3] for it in marks.since(0) if it[4] == "has ended"]
        expect(f"the death of a node that does not lead, still {is_still}", kinds == [kind], kinds)


def check_due():
    """What a person is told to do while no majority runs."""
    few, still = "Only 1 of 3 nodes runs, and 2 are needed.", "The program stands still."
    goes = "a node takes the lead by itself, and the program continues."
    by_itself = "You need do nothing, unless that takes longer than a minute."
    killed = {"state": "down", "supervised": True, "loss": (200, "was killed")}
    for what, of, waiting, wanted in (
        ("two that are supervised", [killed, {**killed, "loss": (100, "was killed")}], 10,
         f"Nodes 2 and 3 were killed at the same time. {few} {still} What is typed is kept: 10 "
         f"keys wait. Nodes 2 and 3 are started again by their supervisors. Once one of them runs, "
         f"{goes} {by_itself}"),
        ("two that are lost one after the other",
         [killed, {**killed, "loss": (701, "was killed")}], 10,
         f"Node 2 was killed, then node 3 was killed. {few} {still} What is typed is kept: 10 keys "
         f"wait. Nodes 2 and 3 are started again by their supervisors. Once one of them runs, "
         f"{goes} {by_itself}"),
        ("two that are lost in two ways", [killed, {**killed, "loss": (300, "has ended")}], 10,
         f"Node 2 was killed and node 3 has ended, both at the same time. {few} {still} What is "
         "typed is kept: 10 keys wait. Nodes 2 and 3 are started again by their supervisors. Once "
         f"one of them runs, {goes} {by_itself}"),
        ("one that is supervised", [{"state": "down", "supervised": True}, {"state": "down"}], 1,
         f"Nodes 2 and 3 do not run. {few} {still} What is typed is kept: 1 key waits. Node 2 is "
         f"started again by its supervisor. Once it runs, {goes} {by_itself}"),
        ("none that is supervised", [{"state": "down"}] * 2, 0,
         f"Nodes 2 and 3 do not run. {few} {still} What is typed is kept until then. Start nodes "
         "2 and 3, unless supervisors do so."),
        ("one that is stopped", [{"state": "stopped", "pid": 77, "loss": (50, "is stopped")},
                                 {"state": "down"}], 0,
         f"Node 2 is stopped. Node 3 does not run. {few} {still} What is typed is kept until then. "
         "Start node 3, unless supervisors do so. Node 2 is stopped: let it move again by kill "
         "-CONT 77."),
    ):
        of = [{"node": at, **it} for at, it in enumerate([{"state": "up"}, *of], 1)]
        due = due_of(of, 3, True, True, waiting)
        expect(f"what is due without a majority: {what}", due == {"text": wanted, "at": None}, due)


def check_idle():
    """The same while nobody leads, after a minute, and once there is nothing to do."""
    for is_supervised, more in (
        (True, "One of the nodes takes the lead by itself within seconds. You need do nothing."),
        (False, "If supervisors run, one of the nodes takes the lead by itself within seconds. You "
                "can wait for that."),
    ):
        for states, last, lost, run in (
            (("down", "up", "up"), (), "Node 1 does not run", "2 run"),
            (("up", "down", "up"), TWO, "Nodes 2 and 3 were killed at the same time", "2 run"),
            (("up", "up", "up"), TWO, "Nodes 2 and 3 were killed at the same time",
             "all run again"),
        ):
            due = due_of(nodes(*states), 3, True, is_supervised, last=last)
            expect(f"what is due, supervised {is_supervised}: {lost}, {run}", due["text"] ==
                   f"{lost}. 2 of 3 nodes are needed, and {run}. Nobody leads. What is typed waits "
                   f"until one does. {more}", due)
    for size, states, wanted in ((3, ("up", "up", "up"), "2 of 3 nodes are needed, and all run. "),
                                 (1, ("up",), ""), (5, ("up", "up"), "")):
        due = due_of(nodes(*states), size, True, True)
        expect(f"of {size} nodes {states} run", due["text"].startswith(f"{wanted}Nobody leads."),
               due)
    ended = [{**it, "end": "ended"} for it in nodes("up", "up", "down")]
    expect("nothing is due once the program has ended", due_of(ended, 3, True) is None)
    late = due_of(nodes("down", "up", "down"), 3, True, True, 0, is_late=True)["text"]
    expect("after a minute it says what to do", "You need do nothing" not in late and
           "The program stands still" not in late and "The program has stood still for a minute. "
           "What is typed is kept until then. Start nodes 1 and 3 again" in late, late)
    gone = due_of(nodes("down", "down", "down"), 3, True, True, 0, False, True)["text"]
    expect("of a demo that has ended it says so", gone.startswith("All nodes have ended, and their "
           "records are not there any more"), gone)


def check_button():
    """The button asks the node that a supervisor asks: the next one behind the last that has asked
    to lead. A greater ballot and a longer console come before that."""
    able = {"state": "up", "can_lead": True, "supervised": True, "is_new": False, "bytes": 9,
            "promised": "4.1"}
    down = {"state": "down", "supervised": True, "is_new": False, "bytes": 9, "promised": "4.1"}
    for what, changes, wanted in (
        ("the next one", ({}, {}, {}), 2),
        ("the one behind a node that is down", ({}, down, {}), 3),
        ("not one that has just begun", ({}, {"is_new": True}, {}), 3),
        ("the one with the greatest ballot", ({}, {"promised": "3.3"}, {}), 3),
        ("the one with the longest console", ({}, {}, {"bytes": 10}), 3),
    ):
        of = [{**able, **more, "node": at, "at": at - 1} for at, more in enumerate(changes, 1)]
        of = [{**it, "can_lead": it["state"] == "up"} for it in of]
        due = due_of(of, 3, True, True)
        expect(f"the button: {what}", due["node"] == wanted, due)
        expect(f"no node is promised: {what}", "One of the nodes takes the lead" in due["text"],
               due)


def check_told(_):
    """What is told of the lines of a log: that a program has ended once, and nothing of what the
    lanes show."""
    ended = "says that the program has ended; it goes on, and nobody reads what is typed"
    error = "execution error 6 in procedure 1 at 9"
    for line, wanted in (
        ("program ended", "says that its program has ended"),
        (f"program ended {error}", f"says that its program has ended: {error}"),
        (ended, None), ("started, process 7", None), ("leads ballot 2.2", None),
        ("its console c1 contradicts that of node 2 within the first 9 bytes: ..",) * 2,
        ("is asked to campaign, as no leader is heard",
         "is asked to lead by its supervisor, as no leader is heard"),
        ("refused by 7.1 ballot 6.3", "gives up leading: node 1 has a greater ballot, 7.1"),
        ("refused by 7.1 ballot 5.3", "does not lead: node 1 has a greater ballot, 7.1"),
        ("campaign refused D1", "cannot ask to lead: refused D1"),
    ):
        found = told_of(line, {"6.3"})
        expect(f"what is told of: {line}", found == wanted, found)
    again = "; the node is started again"
    for line, wanted in (
        (f"ended by SIGKILL{again}", "was killed (SIGKILL), and its supervisor starts it again"),
        (f"ended by SIGSEGV{again}",
         "was ended by a signal (SIGSEGV), and its supervisor starts it again"),
        (f"ended with status 1, refused D2: the disk is full{again}",
         "has ended with status 1, refused D2: the disk is full, and its supervisor starts it "
         "again"),
        ("ended with its supervisor, by SIGTERM", "has ended with its supervisor, by SIGTERM"),
        ("started, process 7", None),
    ):
        found = death_of(line)
        expect(f"what is told of a death: {line}", found == wanted, found)


class Told:
    """What is told of a node's life, as far as a person reads it."""

    def __init__(self):
        self.marks = Marks()
        self.life = Life(0, self.marks)
        self.see("A")

    def see(self, process, is_down=False, is_said=True):
        self.life.look(is_down, process, is_said)

    def texts(self):
        """The texts in the order of their times, as a browser lists them."""
        kept = sorted(self.marks.since(0), key=lambda it: it[1])
        return [text for _, _, _, kind, text in kept if text]


def check_life(_):
    """A death is told before the node is up again, and each of both once."""
    told = Told()
    told.see("A", is_down=True)
    told.see("B")
    expect("a death waits for the log, and what comes behind it waits too", not told.texts())
    told.life.note_end("was killed", told.life.died + 5)
    told.see("B")
    expect("a death comes first", told.texts() == ["was killed", "is up again"], told.texts())
    told.see("C")
    told.see("C", is_said=False)
    expect("a process that is another one has died between",
           told.texts()[2:] == ["has ended", "is up again"], told.texts())
    told = Told()
    told.life.note_end("was killed", told.marks.begun)
    told.see("A")
    told.see("A", is_down=True)
    expect("a death that the log tells first is told once", told.texts() == ["was killed"],
           told.texts())
    told.see("B")
    told.see("B", is_down=True)
    told.life.note_end("was killed", told.life.died)
    told.see("C")
    expect("deaths and starts take turns", told.texts() ==
           ["was killed", "is up again"] * 2, told.texts())
    crosses = sum(it[3] == "crash" for it in told.marks.since(0))
    expect("each death has one cross", crosses == 2, told.marks.since(0))
    check_goes_on()


def check_goes_on():
    """A death by which the program does not stand still says so, if that is known."""
    for is_still, running, size, more in (
        (False, {0, 1, 2}, 3, "; it did not lead and the other two run, so the program goes on"),
        (False, {0, 1, 2, 3, 4}, 5,
         "; it did not lead and the other 4 run, so the program goes on"),
        (False, {1, 2, 3}, 5, "; it did not lead and 3 others run, so the program goes on"),
        (False, {0, 1}, 3, ""), (False, set(), 3, ""), (True, {1, 2}, 3, ""),
    ):
        one = Told()
        one.marks.is_still, one.marks.running, one.marks.size = is_still, running, size
        one.life.note_end("was killed", one.marks.begun)
        one.see("A", is_down=True)
        kinds = [it[3] for it in one.marks.since(0) if it[4]]
        expect(f"a death while {running} of {size} run, still {is_still}", one.texts() == [
            f"was killed{more}"] and kinds == ["ended" if is_still else "gone"], one.texts(), kinds)


class Made:
    """What a record says of a node's start."""

    def __init__(self, starts, session=7):
        self.session, self.starts = session, starts


def check_pair(_):
    """The process and the starts of a node change together."""
    pair = Pair()
    for is_down, process, starts, wanted in (
        (False, (10, 1), 1, (10, 1)), (True, (10, 1), 1, (None, 1)), (True, (10, 1), 2, (None, 1)),
        (False, (11, 2), 2, (11, 2)), (False, (12, 3), 2, (None, 2)), (False, (12, 3), 3, (12, 3)),
    ):
        found = pair.look(is_down, process, Made(starts))
        expect(f"process {process[0]} and {starts} starts, down {is_down}: {wanted}",
               found == wanted, found)
