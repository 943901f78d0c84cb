"""How long a page takes in a browser."""

import os
import time

from shared.words import text_of_address

from ..checks import expect, passed
from ..group_session.made import Made
from ..page.visitor import Page

# A day of somebody who types five keys a second, with all that a program answers.
LONG = 10 << 20
# What is wanted of an idle machine, in milliseconds and seconds.
FRAME, OPEN = 40.0, 1.0
KEYS = 60

WATCH = """
window.frames_taken = []; window.pressed = 0;
document.getElementById("keyboard").addEventListener("keydown", () => {
  window.pressed = performance.now();
}, true);
new MutationObserver(() => {
  if (!window.pressed) return;
  const begun = window.pressed;
  window.pressed = 0;
  requestAnimationFrame(() => {
    const channel = new MessageChannel();
    channel.port1.onmessage = () => window.frames_taken.push(performance.now() - begun);
    channel.port2.postMessage(0);
  });
}).observe(document.getElementById("screen"), { childList: true, subtree: true });
"""


def check_keys(tab, is_idle):
    """From a key to the end of the frame that shows it."""
    tab.run(WATCH)
    for it in range(KEYS):
        tab.type(str(it % 10))
        time.sleep(0.12)
    # On a busy machine several keys may come to one frame.
    least = KEYS - 2 if is_idle else 1
    tab.await_that(f"window.frames_taken.length >= {least}", "all keys are shown")
    taken = sorted(tab.run("window.frames_taken"))
    middle, late = taken[len(taken) // 2], taken[len(taken) * 9 // 10]
    text = f"a key is shown after {middle:.0f} ms (median), {late:.0f} ms (nine of ten)"
    if is_idle:
        expect(text, middle < FRAME, taken)
    else:
        passed(text)


def check_long_console(folder, browser, is_idle):
    """A console of 10 MB: from the start of the page's server, and from the visit."""
    node = Made(1, folder, has_record=False)
    line = b"the %06d. line of a day, with some words behind it\n"
    lines = LONG // len(line % 1)
    node.show(b"".join(line % it for it in range(lines)))
    expect("the console has 10 MB", os.path.getsize(node.console) > LONG - 100)
    begun = time.monotonic()
    page = Page(folder, f"{text_of_address(node.address)},{node.console}")
    try:
        started = time.monotonic() - begun
        tab = browser.open(f"http://127.0.0.1:{page.port}/#{page.tokens['watch']}")
        last = f"the {lines - 1:06}. line"
        tab.await_that(f"document.getElementById('screen').innerText.includes('{last}')", last)
        opened = tab.run("performance.now()") / 1000  # since the visit began
        text = f"its end is shown {opened:.2f} s after the visit; the server took {started:.2f} s"
        if is_idle:
            expect(text, opened < OPEN and started < OPEN)
        else:
            passed(text)
    finally:
        page.end()
        node.close()
