"""Groups of processes whose session is renewed, for tests/renew: what their consoles show, and that
the new records are those of a group at which the same was typed."""

import itertools
import os
import random
import time

from shared.nodes import free_addresses, is_empty_at
from shared.record import PLACES, read_head, read_record
from shared.watch import Whole
from shared.words import text_of_address

from ..checks import expect
from ..echo_code import ECHO, endless_in
from ..files import bytes_of
from ..group import Group, await_that, keys_of, output_of, values_of
from ..program import Broken
from ..scripts import expect_end, path_of
from ..terminals import Terminal
from .cut import renew_cut
from .records import by_number, keys, log, records_in, renew, vote

# The most keys of a datagram.
MOST = 64


def group_in(folder, file=ECHO):
    """A group of three in a folder, none of which runs."""
    addresses = free_addresses(6)
    return Group(folder, 1, file, addresses[3:], [addresses[:3]] * 3)


def start_all(group):
    """Starts all nodes. Nobody leads yet."""
    for node in group.nodes:
        group.start(node, False)
    for node in group.nodes:
        node.await_keys()


def stop_all(group):
    for node in group.up():
        group.kill(node)


def records_of(group):
    return [it.record for it in group.nodes]


def type_at(group, node, data):
    for at in range(0, len(data), MOST):
        group.socket.sendto(data[at : at + MOST], node.keys)
    node.sent += data


def lead(group, node, data):
    """Types at a node, and asks it until something new is shown: its ballot may be refused."""
    before, asked = group.longest(), 0.0
    group.leader = node
    type_at(group, node, data)

    def is_led():
        nonlocal asked
        if time.monotonic() - asked > 0.5:
            asked = time.monotonic()
            group.ask(node)
        return group.longest() > before

    await_that(is_led, f"node {node.number} leads")


def await_settled(group):
    """Waits until all that was typed in the present starts is chosen, and shown on all consoles as
    one run of the program shows it."""
    fault = "nothing yet"

    def is_settled():
        nonlocal fault
        fault = group.final_fault()
        return fault is None

    try:
        await_that(is_settled, "the group settles")
    except Broken as broken:
        raise Broken(f"{broken}: {fault}")


def are_taken(group):
    """Whether each node that runs has taken all datagrams with keys that were sent to it."""
    return all(is_empty_at(it.keys[1]) for it in group.up())


def type_singly(group, places):
    """Types single keys in turn at all nodes that run, until one has voted at so many places. A
    node that is slow is waited for: its socket drops what there is no room for."""
    node = group.up()[0]
    record = Whole(node.record)
    for count in itertools.count(1):
        for it in group.up():
            type_at(group, it, bytes(itertools.islice(group.text, 1)))
        time.sleep(0.001)
        if count % 50 == 0:
            await_that(lambda: are_taken(group), "the nodes take their keys")
            node.check()
            if len(record.read().votes) >= places:
                return


def take_over(group, places):
    """Kills the leader, lets another node lead, and starts the first one again."""
    type_singly(group, places)
    fallen = group.leader
    group.kill(fallen)
    lead(group, group.random.choice(group.up()), b" ")
    group.start(fallen, False)
    fallen.await_keys()


def are_equal(group):
    """Whether all consoles show the same."""
    return len({bytes_of(it.console) for it in group.nodes}) == 1


def characters_in(group):
    """The characters that the group has chosen, in order."""
    values = values_of(records_of(group))
    if isinstance(values, str):
        raise Broken(values)
    return bytes(it[3] for it in keys_of(values)), len(values)


def renew_group(group, old, new):
    """Renews the session of a group that was stopped. Returns what was typed in it."""
    characters, places = characters_in(group)
    done = renewed(group, old, new)
    expect_end(f"a session of {places} places is renewed", done, 0)
    begin_anew(group, new, characters)
    return characters


def renewed(group, old, new):
    return renew("--sessions", old, new, "--yes", *records_of(group))


def begin_anew(group, session, characters):
    """Lets the nodes be of a new session, in which these characters were typed at node 1."""
    for node in group.nodes:
        node.session = session
        node.typed = {1: characters} if node.number == 1 else {}
    chosen, _ = characters_in(group)
    if chosen != characters:
        raise Broken(f"the new session has {len(chosen)} keys, and the old one {len(characters)}")


def has_promised(group):
    """Whether each node has promised 1.1. A node that has just begun has no record yet."""
    records = [it for it in records_of(group) if os.path.exists(it)]
    return [read_head(it).promised for it in records] == [(1, 1)] * 3


def check_real(folder, characters, wanted):
    """A group at whose node 1 these characters are typed in session 8 has the wanted records."""
    group = group_in(folder, endless_in(folder))
    try:
        for node in group.nodes:
            node.session = 8
        for node in reversed(group.nodes):
            group.start(node, node.number == 1)
            node.await_keys()
        await_that(lambda: has_promised(group), "all have promised 1.1")
        for at in range(0, len(characters), MOST):
            type_at(group, group.nodes[0], characters[at : at + MOST])
            size = len(group.nodes[0].sent)
            shown = lambda: [os.path.getsize(it.console) for it in group.nodes] == [size] * 3
            await_that(shown, f"{size} keys are shown")
    finally:
        group.end()
    real = [bytes_of(it) for it in records_of(group)]
    sizes = [len(it) for it in real]
    what = f"the new records are those of a real group, {sizes[0]} bytes each"
    expect(what, real == wanted, sizes)


def check_session(folder):
    """3,000 places with takeovers and kills, renewed in the middle of a line."""
    group = group_in(folder)
    try:
        start_all(group)
        lead(group, group.nodes[0], b"a ")
        for places in (750, 1500, 2250, 3000):
            take_over(group, places)
        type_at(group, group.nodes[1], b"\nin the middle of a li")
        await_settled(group)
        stop_all(group)
        before = bytes_of(group.nodes[0].console)
        typed = renew_group(group, 7, 8)
        records = [bytes_of(it) for it in records_of(group)]
        start_all(group)
        lead(group, group.nodes[2], b"ne\nand on\n")
        await_settled(group)
        shown = [bytes_of(it.console) for it in group.nodes]
    finally:
        group.end()
    wanted = output_of(ECHO, typed + b"ne\nand on\n")
    is_so = shown == [wanted] * 3 and wanted.startswith(before)
    text = f"all consoles show what one session would have: {len(wanted)} bytes"
    expect(f"{text}; {group.kills} kills, {group.asked} campaigns", is_so, *shown, wanted)
    real = os.path.join(folder, "real")
    os.mkdir(real)
    check_real(real, typed, records)


def check_single_keys(folder):
    """65,536 places of single keys, by hand: they take 2,048 places of the new session."""
    votes = [vote(it, "1.1", keys(2, 1, 1 + it, bytes([65 + it % 26]))) for it in range(PLACES)]
    paths = records_in(folder, *(log(it, *votes) for it in (1, 2, 3)))
    done = by_number(*paths)
    is_so = b"65536 keys at 65536 of" in done.stdout and b"at 2048 of 65536" in done.stdout
    expect("65,536 places of single keys become 2,048", is_so, done)


def check_full(folder):
    """A session that is typed full goes on in a new one."""
    group = group_in(folder)
    try:
        start_all(group)
        lead(group, group.nodes[0], b"a ")
        type_singly(group, PLACES)
        await_that(lambda: are_equal(group), "all show it")
        group.end()
        typed = renew_group(group, 7, 8)
        for node in group.nodes:
            node.sent = bytearray()
        start_all(group)
        lead(group, group.nodes[1], b"\nand on\n")
        await_settled(group)
        shown = [bytes_of(it.console) for it in group.nodes]
    finally:
        group.end()
    expect("a full session goes on", shown == [output_of(ECHO, typed + b"\nand on\n")] * 3)


def renew_under_kills(group, old, new):
    """Renews, and kills `renew` at some of its calls until it comes to its end."""
    words = ["--sessions", old, new, "--yes", *records_of(group)]
    kills = 0
    while True:
        done = renew_cut(group.random.randrange(1, 60), *words)
        if done.returncode == 0:
            return kills
        if done.returncode > 0:
            raise Broken(f"renew is refused: {done.stderr.decode()}")
        kills += 1


def check_ten(folder):
    """A session that is renewed ten times, each time under kills of `renew`."""
    group = group_in(folder)
    group.random = random.Random(10)
    typed, kills = b"", 0
    try:
        for session in range(7, 18):
            start_all(group)
            lead(group, group.random.choice(group.nodes), b"%d " % session)
            take_over(group, len(read_record(group.nodes[0].record).votes) + 40)
            await_settled(group)
            stop_all(group)
            before, typed = typed, characters_in(group)[0]
            if not typed.startswith(before):
                raise Broken("what was typed before is not the front of what was typed")
            if session < 17:
                kills += renew_under_kills(group, session, session + 1)
                begin_anew(group, session + 1, typed)
        shown = [bytes_of(it.console) for it in group.nodes]
    finally:
        group.end()
    text = f"ten renewals, {kills} kills of renew: {len(typed)} keys"
    expect(text, shown == [output_of(ECHO, typed)] * 3, kills)


def check_attached(folder):
    """A terminal that stays attached while the session is renewed three times."""
    group, node, wanted = group_in(folder), None, b"> "
    terminal = None
    try:
        for session in range(7, 11):
            start_all(group)
            node = group.nodes[1]
            if terminal is None:
                words = [path_of("attach"), "--lf", text_of_address(node.keys), node.console]
                terminal = Terminal(words)
                terminal.await_ready()
            line = b"in session %d\n" % session
            terminal.type(line)
            group.ask(group.nodes[session % 3])
            wanted += line + b"> "
            terminal.await_exactly(wanted.replace(b"\n", b"\r\n"))
            await_that(lambda: are_equal(group), "all show it")
            group.end()
            if session < 10:
                expect_end(f"session {session} is renewed", renewed(group, session, session + 1), 0)
                begin_anew(group, session + 1, wanted.replace(b"> ", b""))
    finally:
        group.end()
        if terminal:
            terminal.close()
    expect("a terminal stays attached over three renewals", bytes_of(node.console) == wanted)


LONG = (check_single_keys, check_full, check_ten, check_attached)
