"""Chromium without a window, which is told what to do by its DevTools protocol over a pipe."""

import base64
import json
import os
import select
import shutil
import subprocess
import tempfile
import time

from ..program import Broken

NAMES = ("chromium", "chromium-browser", "google-chrome")
FLAGS = (
    "--headless=new", "--no-sandbox", "--disable-gpu", "--disable-dev-shm-usage", "--no-first-run",
    "--hide-scrollbars", "--remote-debugging-pipe", "--force-color-profile=srgb",
    "--disable-background-networking", "--disable-component-update", "--disable-sync",
)
SECONDS = 30.0


def found():
    """The path of a Chromium of this machine, or None."""
    return next(filter(None, map(shutil.which, NAMES)), None)


class Chromium:
    def __init__(self):
        self.room = tempfile.mkdtemp(prefix="pgroup-chromium-")
        (hears, self.tells), (self.hears, tells) = os.pipe(), os.pipe()
        # The browser reads from 3 and writes to 4.
        command = [found(), *FLAGS, f"--user-data-dir={self.room}", "about:blank"]
        wrapped = ["bash", "-c", f'exec 3<&{hears} 4>&{tells}; exec "$0" "$@"', *command]
        self.process = subprocess.Popen(
            wrapped, pass_fds=(hears, tells), stdin=subprocess.DEVNULL,
            stdout=subprocess.DEVNULL, stderr=subprocess.DEVNULL,
        )
        os.close(hears)
        os.close(tells)
        self.count, self.rest, self.answers, self.events = 0, b"", {}, []

    def call(self, method, session=None, **words):
        """What the browser answers."""
        self.count += 1
        asked = {"id": self.count, "method": method, "params": words}
        if session:
            asked["sessionId"] = session
        os.write(self.tells, json.dumps(asked).encode() + b"\0")
        end = time.monotonic() + SECONDS
        while self.count not in self.answers:
            if time.monotonic() > end:
                raise Broken(f"the browser does not answer {method}")
            self.hear(0.5)
        answer = self.answers.pop(self.count)
        if "error" in answer:
            raise Broken(f"{method}: {answer['error']}")
        return answer["result"]

    def hear(self, seconds):
        if not select.select([self.hears], [], [], seconds)[0]:
            return
        data = os.read(self.hears, 1 << 20)
        if not data:
            raise Broken("the browser has ended")
        *texts, self.rest = (self.rest + data).split(b"\0")
        for it in map(json.loads, texts):
            if "id" in it:
                self.answers[it["id"]] = it
            else:
                self.events.append(it)

    def open(self, address, width=1440, height=900, **look):
        return Tab(self, address, width, height, **look)

    def end(self):
        self.process.kill()
        self.process.wait()
        os.close(self.tells)
        os.close(self.hears)
        shutil.rmtree(self.room, ignore_errors=True)


class Tab:
    """A tab with cookies of its own. `look` has features of media, as prefers_color_scheme."""

    def __init__(self, browser, address, width, height, is_touch=False, **look):
        self.browser = browser
        context = browser.call("Target.createBrowserContext")["browserContextId"]
        made = browser.call("Target.createTarget", url="about:blank", browserContextId=context)
        attached = browser.call("Target.attachToTarget", targetId=made["targetId"], flatten=True)
        self.session = attached["sessionId"]
        for domain in ("Page", "Runtime", "Log"):
            self.call(f"{domain}.enable")
        self.size(width, height, is_touch)
        if look:
            features = [{"name": name.replace("_", "-"), "value": it} for name, it in look.items()]
            self.call("Emulation.setEmulatedMedia", features=features)
        self.call("Page.navigate", url=address)
        self.await_that("document.readyState === 'complete' && location.href !== 'about:blank'",
                        "the page is loaded")

    def call(self, method, **words):
        return self.browser.call(method, self.session, **words)

    def size(self, width, height, is_touch=False):
        self.call("Emulation.setDeviceMetricsOverride", width=width, height=height,
                  deviceScaleFactor=1, mobile=is_touch)
        self.call("Emulation.setTouchEmulationEnabled", enabled=is_touch)

    def run(self, code):
        """The value of an expression, of which a promise is awaited."""
        done = self.call("Runtime.evaluate", expression=code, returnByValue=True, awaitPromise=True)
        if "exceptionDetails" in done:
            raise Broken(f"{code[:200]}: {done['exceptionDetails']}")
        return done["result"].get("value")

    def await_that(self, code, what, seconds=20.0):
        end = time.monotonic() + seconds
        while not self.run(code):
            if time.monotonic() > end:
                raise Broken(f"it did not come in {seconds:.0f} seconds: {what}; "
                             f"the page: {self.run('document.body.innerText')}")
            time.sleep(0.02)

    def press(self, key, code=None, text=None, modifiers=0, number=0):
        words = {"key": key, "code": code or key, "modifiers": modifiers,
                 "windowsVirtualKeyCode": number}
        more = {"text": text} if text else {}
        self.call("Input.dispatchKeyEvent", type="keyDown" if text else "rawKeyDown", **words,
                  **more)
        self.call("Input.dispatchKeyEvent", type="keyUp", **words)

    def type(self, text):
        for it in text:
            if it == "\r":
                self.press("Enter", text="\r", number=13)
            else:
                self.press(it, text=it, number=ord(it.upper()))

    def click(self, selector):
        self.run(f"document.querySelector({json.dumps(selector)}).click()")

    def picture(self, path):
        data = self.call("Page.captureScreenshot", format="png")["data"]
        with open(path, "wb") as file:
            file.write(base64.b64decode(data))

    def faults(self):
        """What the page has written to the browser's log."""
        found = [it["params"] for it in self.browser.events if it.get("sessionId") == self.session
                 and it["method"] in ("Runtime.exceptionThrown", "Log.entryAdded")]
        return found
