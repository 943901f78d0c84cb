"""Calls of the system that mount. tests/power and tests/walk have mounts of their own by them."""

import ctypes
import os

from .program import Broken

# From linux/mount.h and linux/sched.h.
MS_REC, MS_PRIVATE, CLONE_NEWNS = 0x4000, 0x40000, 0x20000
LIBRARY = ctypes.CDLL(None, use_errno=True)


def check_status(status, what):
    """Raises Broken if a call of the C library failed."""
    if status != 0:
        raise Broken(f"{what}: {os.strerror(ctypes.get_errno())}")


def mount(source, folder, kind, flags, options):
    return LIBRARY.mount(source, folder, kind, ctypes.c_ulong(flags), options)


def hide_mounts():
    """From now on nobody else sees what this process and its children mount, and all of it goes
    away with them, however they end."""
    what = "this process cannot have mounts of its own"
    check_status(LIBRARY.unshare(CLONE_NEWNS), what)
    check_status(mount(b"none", b"/", None, MS_REC | MS_PRIVATE, None), what)
