"""A page that stands open for long: the memory of its server and of the browser's tab."""

import os
import time

from ..checks import expect

# How often something is typed, and how often memory is looked at, in seconds.
TYPED, LOOKED = 0.5, 30.0
# What the first and the last third may differ by: of the server in KiB, of the tab in bytes.
SERVER, TAB = 4096, 2 << 20


def resident(pid):
    """The KiB that a process has in memory."""
    with open(f"/proc/{pid}/status", encoding="ascii") as status:
        return next(int(it.split()[1]) for it in status if it.startswith("VmRSS"))


def heap(tab):
    """The bytes of the page's scripts and nodes in use, behind a collection."""
    tab.call("HeapProfiler.collectGarbage")
    return tab.call("Runtime.getHeapUsage")["usedSize"]


def middle(values):
    return sorted(values)[len(values) // 2]


def check_memory(room, tab, minutes):
    """Types a line every few seconds and kills a node every few minutes, for so long."""
    found, end, count, looked = [], time.monotonic() + 60 * minutes, 0, 0.0
    # What is kept of the console and the lanes is full some time later.
    while time.monotonic() < end:
        tab.type(f"{count % 10}")
        count += 1
        if count % 60 == 0:
            tab.type("\r")
        if count % 400 == 0:
            pid = room.group[count // 400 % 3].node()
            if pid:
                os.kill(pid, 9)
        tab.browser.events.clear()
        if time.monotonic() - looked >= LOOKED:
            looked = time.monotonic()
            found.append((resident(room.page.process.pid), heap(tab)))
            print(f"{len(found) * LOOKED / 60:.1f} minutes: the server has {found[-1][0]} KiB, the "
                  f"tab {found[-1][1] // 1024} KiB", flush=True)
        time.sleep(TYPED)
    third = max(1, len(found) // 3)
    for at, what, most in ((0, "server", SERVER), (1, "tab", TAB)):
        values = [it[at] for it in found]
        first, last = middle(values[third : 2 * third]), middle(values[-third:])
        expect(f"the memory of the {what} is flat: {first} and later {last}",
               last - first <= most, values)


