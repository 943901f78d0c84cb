"""The key that supervisors of a group share, and by which they know each other's datagrams."""

import hmac
import os
import secrets
import stat

from ..files import Refused, refuse_lasting

# The least and the most bytes of a key.
LEAST, MOST = 32, 4096
SIGNED = b"mac "
# The bytes of the shorter tag, of a heartbeat with nothing else. Nobody guesses one of 16 either.
SHORT = 16


def make_key(path):
    """Makes the file of a key, which nobody else may read. None is written over."""
    try:
        file = os.open(path, os.O_WRONLY | os.O_CREAT | os.O_EXCL | os.O_CLOEXEC, 0o600)
    except FileExistsError:
        raise Refused(f"--new-beats-key, and there is {path}: leave --new-beats-key out")
    with open(file, "wb") as out:
        os.fchmod(out.fileno(), 0o600)
        out.write(secrets.token_hex(LEAST).encode("ascii") + b"\n")
        out.flush()
        os.fsync(out.fileno())


def key_of(path):
    """The key in a file, without the end of its line. Refused where others may read or change it,
    or it is too short. Whose it is does not count: with this mode only root can read another's."""
    with open(path, "rb", opener=lambda *it: os.open(*it, os.O_CLOEXEC)) as file:
        status = os.fstat(file.fileno())
        if not stat.S_ISREG(status.st_mode):
            raise Refused(f"{path} is no file with a key")
        if stat.S_IMODE(status.st_mode) & 0o177:
            raise Refused(f"{path} is not for its owner alone: chmod 600 {path}")
        key = file.read(MOST + 1).rstrip(b"\r\n")
    if not LEAST <= len(key) <= MOST:
        raise Refused(f"{path} has {len(key)} bytes, and a key has {LEAST} to {MOST}")
    return key


def shared_key(words):
    """The key of the words, which is made first where they say so, or None."""
    if words.beats_key is None:
        return None
    try:
        if words.new_beats_key:
            make_key(words.beats_key)
        return key_of(words.beats_key)
    except OSError as fault:
        refuse_lasting(fault)
        raise


def signed(data, key):
    """A datagram with its last line, which says that somebody with the key has sent it."""
    return data + SIGNED + hmac.new(key, data, "sha256").hexdigest().encode("ascii") + b"\n"


def is_signed(data, key):
    """Whether a datagram has such a line at its end."""
    body, _, mac = data.rpartition(SIGNED)
    return hmac.compare_digest(signed(body, key), body + SIGNED + mac)


def signed_shortly(data, key):
    """A line with the shorter tag behind it."""
    tag = hmac.new(key, data, "sha256").digest()[:SHORT]
    return data + b" " + tag.hex().encode("ascii")


def is_signed_shortly(data, key):
    """Whether a line has such a tag at its end."""
    return hmac.compare_digest(signed_shortly(data.rpartition(b" ")[0], key), data)
