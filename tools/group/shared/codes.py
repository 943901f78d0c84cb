"""The codes of refusals, each with a sentence. docs/FORMATS.md has the same table, and
tools/check-docs compares the two. As a script it prints the sentence of a line's code, for
`console`:

    codes.py LINE
"""

import re
import sys

SENTENCES = {
    "file": "the file cannot be read, is a folder, or is too large",
    "F1": "the file has fewer than 512 bytes, so it is no code file",
    "F2": "the file has no segment",
    "F3": "the file has several segments, or is no code file",
    "F4": "the segment is not linked",
    "F5": "the segment lies outside the file",
    "F6": "the segment has no dictionary of procedures",
    "F7": "the table of a procedure contradicts itself",
    "F8": "a procedure is in native code",
    "F9": "the lex level of a procedure is wrong",
    "F10": "a size is an odd number of bytes",
    "F11": "memory ran out",
    "O1": "an instruction is cut off",
    "O2": "an instruction works on real numbers, which pgroup lacks",
    "O3": "an instruction works on sets, which pgroup lacks",
    "O4": "an instruction works on strings or constants in the code, which pgroup lacks",
    "O5": "an instruction leads to another segment",
    "O6": "pgroup lacks this instruction",
    "O7": "a case jump has no table, or wrong bounds",
    "O8": "a jump leads out of its procedure",
    "O9": "a procedure is called that is not there",
    "O10": "a procedure is called from a lex level where that is not allowed",
    "O11": "an instruction follows more static links than there are",
    "O12": "a return does not fit its procedure",
    "O13": "pgroup lacks this standard procedure",
    "O14": "a standard procedure works on the heap, which pgroup lacks",
    "O15": "memory ran out",
    "O16": "packed elements do not fit a word",
    "E1": "memory ran out",
    "E2": "standard input cannot be read, or is too long",
    "E3": "standard output is closed, or takes nothing more",
    "Z1": "the file is not frozen: tools/freeze makes such files",
    "Z2": "the file is frozen, and a part of it is missing",
    "Z3": "the original in the file is refused: a second code says why",
    "Z4": "the file is damaged: its program does not wait at first, or writes",
    "Z5": "the program ends on this input",
    "Z6": "the file is damaged: it does not stand where its original stood",
    "Z7": "the file is damaged: it does not go on as its original does",
    "Z8": "more bytes were read or written than can be counted",
    "G1": "the datagram is cut off",
    "G2": "the datagram does not begin with PG",
    "G3": "the datagram is of another version",
    "G4": "there is no such kind of datagram",
    "G5": "the datagram is of another size or session",
    "G6": "the group has no such sender",
    "G7": "a ballot is wrong",
    "G8": "a place is wrong",
    "G9": "a value is wrong",
    "G10": "votes are not in the order of their places",
    "G11": "a promise has too many votes",
    "G12": "bytes are left over",
    "socket": "an address is taken, or is not this machine's",
    "script": "the line is not one of a script",
    "settle": "a settle makes more than 10,000 deliveries",
    "D1": "memory ran out",
    "D2": "the record cannot be loaded or saved: see its disk, its folder, and what has its place",
    "D3": "the record could not be saved before",
    "D4": "256 typed keys wait already",
    "D5": "the node has typed as many keys as it can in this start",
    "D6": "the outbox is not empty",
    "D7": "the size of a group is 1, 3, 5, 7 or 9",
    "D8": "the number of a node is 1 to the size",
    "D9": "the record is damaged, or belongs to another node, size or session",
    "D10": "the record has counted as many starts as it can",
    "D11": "no ballot is left in this session, which can only go on in a new one",
    "D12": "no place is left in this session, which can go on in a new one",
    "V1": "memory ran out",
    "V2": "the group has no such node",
    "V3": "there is no such message",
    "V4": "the node is down",
    "V5": "the node is up already",
    "V6": "the size of a group is 1, 3, 5, 7 or 9",
}
LINE = re.compile(r"(?:line \d+ )?(?:campaign )?refused ([A-Za-z0-9]+)")


def sentence_of(line):
    """The sentence of the code in a line of the program, or None where it has none."""
    found = LINE.match(line)
    return SENTENCES.get(found[1]) if found else None


def with_sentence(line):
    """A line that the program has written, with the sentence of its code."""
    sentence = sentence_of(line)
    return f"{line}: {sentence}" if sentence else line


if __name__ == "__main__":
    print(sentence_of(" ".join(sys.argv[1:])) or "", end="")
