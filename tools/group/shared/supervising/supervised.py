"""The words of `supervise`."""

import argparse
import os
import shlex
import sys

from ..record import PLACES
from ..words import address_of, host_of
from .traces import limit_of

SHARED = os.path.dirname(os.path.dirname(os.path.realpath(__file__)))
TOP = os.path.join(SHARED, "..", "..", "..")


# The least that is kept of a console, in bytes.
LEAST_CONSOLE = 65536
RUN_ON_OLD = "--run-on-an-old-record-though-consoles-may-contradict"


def console_limit_of(text):
    """The word of --console-limit."""
    if not text.isdigit() or int(text) < LEAST_CONSOLE:
        raise argparse.ArgumentTypeError(f"{text} is no number of at least {LEAST_CONSOLE} bytes")
    return int(text)


def places_of(text):
    """The word of --renew-at."""
    if not text.isdigit() or not 1 <= int(text) <= PLACES:
        raise argparse.ArgumentTypeError(f"{text} is no number of places from 1 to {PLACES}")
    return int(text)


def add_words(add):
    program = os.environ.get("PGROUP") or os.path.join(TOP, "run")
    add("--file", metavar="FILE", required=True, help="the code file of the program")
    add("--id", metavar="N", type=int, required=True, help="the node's number")
    add("--size", metavar="N", type=int, required=True, help="how many nodes the group has")
    add("--session", metavar="N", type=int, required=True, help="the group's number")
    add("--generation", metavar="N", type=int, default=1,
        help="the session is the N-th with this program (1)")
    add("--any-session", action="store_true",
        help="the session is no checksum of FILE; nothing checks that all nodes have the same FILE")
    add("--record", metavar="FILE", required=True, help="the node's record")
    add("--console", metavar="FILE", required=True, help="gets the output; made if not there")
    add("--console-limit", metavar="BYTES", type=console_limit_of,
        help="keep at least the last BYTES of the console, and give older ones back to the disk")
    add("--trace-limit", metavar="BYTES", type=limit_of,
        help="at each start the trace that PGROUP_TRACE names is put aside, and the oldest goes")
    add("--nodes", metavar="ADDR", type=address_of, nargs="+", required=True,
        help="the address of each node, in order")
    add("--keys", metavar="ADDR", type=address_of, required=True, help="where the keys come")
    add("--beats", metavar="ADDR", type=address_of, nargs="+", required=True,
        help="where each supervisor hears heartbeats, in order of the nodes")
    add("--asked-by", metavar="HOST", type=host_of, nargs="+", default=[],
        help="machines that may ask for the state of the group, besides those of --beats")
    add("--beats-key", metavar="FILE", help="a key that all supervisors share: what is not signed "
        "with it counts for nothing")
    add("--new-beats-key", action="store_true", help="make the file of --beats-key")
    add("--silent", metavar="SECONDS", type=float, default=3.0,
        help="how long no leader is heard before a node is asked (3)")
    add("--renew-at", metavar="N", type=places_of, help="renew the session by freezing once N of "
        "its 65536 places are taken, if all nodes are on this machine and have this too")
    add("--new", action="store_true", help="the node is new: there is no record yet")
    add(RUN_ON_OLD, action="store_true", dest="run_on_old", help="start the node on a record that "
        "is older than what was seen of it; to be typed each time, and not in a file of arguments")
    add("--program", metavar="FILE", default=program, type=os.path.abspath,
        help="pgroup; if not said, $PGROUP, or that of this repository or package")


def check_words(parser, words):
    if words.size not in (1, 3, 5, 7, 9) or not 1 <= words.id <= words.size:
        parser.error("the size is 1, 3, 5, 7 or 9, and the id 1 to the size")
    if not 0 <= words.session < 1 << 32 or words.generation < 1:
        parser.error("the session is 0 to 4294967295, and the generation at least 1")
    if not len(words.nodes) == len(words.beats) == words.size:
        parser.error("--nodes and --beats want an address for each node")
    if len(set(words.nodes + words.beats + [words.keys])) != 2 * words.size + 1:
        parser.error("an address is given twice")
    if "0.0.0.0" in [it[0] for it in words.nodes + words.beats]:
        parser.error("0.0.0.0 is nowhere that a datagram comes from")
    if words.new_beats_key and not words.beats_key:
        parser.error("--new-beats-key wants --beats-key")
    if words.run_on_old and RUN_ON_OLD not in sys.argv[1:]:
        parser.error(f"{RUN_ON_OLD} has to be typed, and not to stand in a file")
    # A node that rests moves every 200 milliseconds.
    if not 0.3 <= words.silent <= 3600:
        parser.error("--silent is 0.3 to 3600 seconds")
    if any("\0" in it for it in (words.file, words.record, words.console, words.program)):
        parser.error("the name of a file has a zero byte")


def words_of(parser):
    parser.convert_arg_line_to_args = lambda line: shlex.split(line, comments=True)
    add_words(parser.add_argument)
    try:
        words = parser.parse_args()
    except (ValueError, RecursionError) as fault:
        # What a file of words may do to argparse: no text, a quotation without an end, itself.
        parser.error(f"{' '.join(it for it in sys.argv[1:] if it[:1] == '@')}: {fault}")
    check_words(parser, words)
    # Before when it is not tried again to renew the session; and those that were renewed.
    words.renew_due, words.earlier = 0.0, []
    return words
