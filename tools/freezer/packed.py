"""Packed filling: seven words in sixteen bytes. Each byte is an instruction that pushes a number
below 128, and a procedure unpacks what was pushed. So memory of which no word is like another one
takes 37 KB, and code of 26 KB can always be frozen with it."""

from pcode.encoder import big, byte, word
from pcode.instructions import BIG, BYTE, CALL, JUMP, PLAIN, SHORT, XJP

from .filling import literal, literals, push

# A word is 7 bits, 7 bits and 2 bits, and those of seven words are 14 bits.
WORDS = 7
GROUPS = 31  # that are pushed at once: 496 numbers
BLOCK = WORDS * GROUPS
# The main frame's words that it needs meanwhile: where the next word goes, where the block ends,
# the bits that are left, and a word.
AT, END, BITS, WORD = 1, 2, 3, 4
FIRST = 5  # the first word that is unpacked
MARK = 1 << 2 * WORDS  # is 1 once the bits of all words are gone


def is_possible(memory, frames, most_frames):
    return len(memory) > FIRST + BLOCK and frames < most_frames


def numbers(words):
    """What the procedure pops for seven words, in order."""
    bits = sum((it & 3) << 2 * k for k, it in enumerate(words))
    found = [bits >> 7, bits & 127]
    for it in words:
        found += [it >> 9, it >> 2 & 127]
    return found


def filling(memory, number):
    """Code for all words. `number` is the procedure that unpacks."""
    out, at = bytearray(push(2 * FIRST) + store(AT)), FIRST
    while at + BLOCK <= len(memory):
        block = [it for k in range(at, at + BLOCK, WORDS) for it in numbers(memory[k:k + WORDS])]
        out += bytes(reversed(block)) + byte(CALL["CGP"]) + byte(number)
        at += BLOCK
    return bytes(out) + literal(memory, 1, FIRST) + literals(memory, at, len(memory))


def load(at):
    return byte(SHORT["SLDO"][0] + at)


def store(at):
    return byte(BIG["SRO"]) + byte(at)


def plain(*names):
    return b"".join(byte(PLAIN[it]) for it in names)


def increment(words):
    return byte(BIG["INC"]) + big(words)


def again(place, target):
    """Goes back to `target` if 0 is on the stack, and else on. Words of an XJP lead back, so that
    no jump table is needed."""
    code = byte(XJP) + bytes((place + 1) % 2) + word(0) + word(0) + byte(JUMP["UJP"]) + byte(2)
    return code + word(place + len(code) - target)


def unpacking(start, number):
    """The part of the procedure at an even offset of the segment, and its JTAB."""
    out = bytearray(load(AT) + increment(BLOCK) + store(END))
    group = start + len(out)
    shifted = push(128) + plain("MPI", "ADI")
    out += shifted + push(MARK) + plain("ADI") + store(BITS)
    one = start + len(out)
    out += shifted + push(4) + plain("MPI") + load(BITS) + push(3) + plain("LAND", "ADI")
    out += store(WORD) + load(AT) + load(WORD) + plain("STO")
    out += load(AT) + increment(1) + store(AT)
    out += load(BITS) + push(4) + plain("DVI") + store(BITS)
    out += load(BITS) + push(1) + plain("EQUI")
    out += again(start + len(out), one)
    out += load(AT) + load(END) + plain("EQUI")
    out += again(start + len(out), group)
    leave = start + len(out)
    out += byte(BYTE["RNP"]) + byte(0)
    out += bytes(len(out) % 2) + word(0) + word(0)
    out += word(start + len(out) - leave)
    out += word(len(out))
    return bytes(out) + byte(number) + byte(1), start + len(out)
