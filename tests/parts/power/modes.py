"""The file systems of tests/power_seen and tests/power_renew: how they are made and mounted, and
where one has a superblock of more than a sector, which it cannot be mounted without."""

import collections
import contextlib
import shutil
import subprocess

Mode = collections.namedtuple("Mode", "kind options size command superblock")
EXT4 = ["mkfs.ext4", "-q", "-E", "nodiscard,lazy_itable_init=0,lazy_journal_init=0", "-b", "4096"]
MODES = {
    "ext4": Mode("ext4", "data=ordered", 48 << 20, EXT4, range(1024, 2048)),
    "writeback": Mode("ext4", "data=writeback", 48 << 20, EXT4, range(1024, 2048)),
    "xfs": Mode("xfs", "defaults", 320 << 20, ["mkfs.xfs", "-q", "-K"], range(0)),
    "btrfs": Mode("btrfs", "defaults", 128 << 20, ["mkfs.btrfs", "-q", "-K"], range(0)),
}


def is_there(mode):
    """Whether the system has this file system."""
    with contextlib.suppress(OSError):
        subprocess.run(["modprobe", "--quiet", mode.kind], check=False)
    with open("/proc/filesystems", encoding="ascii") as kinds:
        return mode.kind in kinds.read().split() and bool(shutil.which(mode.command[0]))
