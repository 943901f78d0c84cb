"""Runs a command under the filter of system calls that MemoryDenyWriteExecute= of systemd sets on
x86-64, for tests/group_supervise:

    filtered.py COMMAND..

No memory is made that can be written and run, and none becomes one that can be run."""

import ctypes
import os
import struct
import sys

PR_SET_NO_NEW_PRIVS, PR_SET_SECCOMP, SECCOMP_MODE_FILTER = 38, 22, 2
LOAD, AND, IS_EQUAL, RETURN = 0x20, 0x54, 0x15, 0x06
ALLOW, REFUSE = 0x7FFF0000, 0x00050001
# Where the number of the call is, and the rights of its memory, its third argument.
NUMBER, RIGHTS = 0, 32
WRITE, EXECUTE = 2, 4
# mmap, mprotect and pkey_mprotect, and the rights that are refused together.
CALLS = ((9, WRITE | EXECUTE), (10, EXECUTE), (329, EXECUTE))


def step(code, value, is_so=0, is_not=0):
    return struct.pack("=HBBI", code, is_so, is_not, value)


class Program(ctypes.Structure):
    _fields_ = (("length", ctypes.c_ushort), ("steps", ctypes.c_void_p))


def set_filter():
    steps = []
    for number, rights in CALLS:
        steps += [
            step(LOAD, NUMBER), step(IS_EQUAL, number, 0, 4), step(LOAD, RIGHTS),
            step(AND, rights), step(IS_EQUAL, rights, 0, 1), step(RETURN, REFUSE),
        ]
    steps.append(step(RETURN, ALLOW))
    text = ctypes.create_string_buffer(b"".join(steps))
    program = Program(len(steps), ctypes.cast(text, ctypes.c_void_p))
    libc = ctypes.CDLL(None)
    if libc.prctl(PR_SET_NO_NEW_PRIVS, 1, 0, 0, 0) or libc.prctl(
            PR_SET_SECCOMP, SECCOMP_MODE_FILTER, ctypes.byref(program), 0, 0):
        raise OSError("the filter cannot be set")


if __name__ == "__main__":
    set_filter()
    os.execvp(sys.argv[1], sys.argv[1:])
