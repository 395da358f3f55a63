"""Chromium without a window, driven over a pipe, for tests of pages. `path()` answers where it is, or None."""

import base64
import json
import os
import select
import shutil
import subprocess
import tempfile
import time


def path():
    """Where Chromium is, or None."""
    return shutil.which("chromium") or shutil.which("chromium-browser") or shutil.which("google-chrome")


class Stopped(Exception):
    """Chromium ended, or did not answer in time; or the page threw something."""


class Chromium:
    """One process, with its own folder, which is gone at its end."""

    def __init__(self, seconds=60):
        self.room, self.seconds, self.asked, self.rest = tempfile.TemporaryDirectory(ignore_cleanup_errors=True), seconds, 0, b""
        self.thrown = []                # what pages threw, and nobody caught
        (come, self.into), (self.back, go) = os.pipe(), os.pipe()
        words = [path(), "--headless=new", "--disable-gpu", "--no-first-run", "--disable-extensions", "--disable-component-update",
                 "--disable-background-networking", "--disable-background-timer-throttling", "--disable-renderer-backgrounding",
                 "--disable-backgrounding-occluded-windows", "--mute-audio", "--remote-debugging-pipe", f"--user-data-dir={self.room.name}"]
        words += ["--no-sandbox"] if os.getuid() == 0 else []

        def place():
            os.dup2(come, 100)
            os.dup2(go, 101)
            os.dup2(100, 3)
            os.dup2(101, 4)

        self.process = subprocess.Popen([*words, "about:blank"], stdout=subprocess.DEVNULL, stderr=subprocess.DEVNULL, close_fds=False,
                                        preexec_fn=place, start_new_session=True)
        os.close(come)
        os.close(go)

    def ask(self, method, session=None, **params):
        """What Chromium answers to a request."""
        self.asked += 1
        request = {"id": self.asked, "method": method, "params": params, **({"sessionId": session} if session else {})}
        os.write(self.into, json.dumps(request).encode() + b"\0")
        end = time.monotonic() + self.seconds
        while True:
            while b"\0" not in self.rest:
                if not select.select([self.back], [], [], max(end - time.monotonic(), 0))[0] or not (piece := os.read(self.back, 1 << 20)):
                    raise Stopped(method)
                self.rest += piece
            text, self.rest = self.rest.split(b"\0", 1)
            reply = json.loads(text)
            if reply.get("method") == "Runtime.exceptionThrown":
                self.thrown.append(reply["params"]["exceptionDetails"])
            if reply.get("id") == self.asked:
                if "error" in reply:
                    raise Stopped(f"{method}: {reply['error']['message']}")
                return reply["result"]

    def tab(self, address, width=1000, height=800, is_phone=False):
        """A page of its own, in a window of its own."""
        target = self.ask("Target.createTarget", url="about:blank", newWindow=True)["targetId"]
        tab = Tab(self, self.ask("Target.attachToTarget", targetId=target, flatten=True)["sessionId"])
        tab.ask("Emulation.setDeviceMetricsOverride", width=width, height=height, deviceScaleFactor=2 if is_phone else 1, mobile=is_phone)
        if is_phone:
            tab.ask("Emulation.setTouchEmulationEnabled", enabled=True)
        tab.ask("Runtime.enable")
        tab.ask("Page.navigate", url=address)
        return tab

    def close(self):
        """Ends it."""
        try:
            self.ask("Browser.close")
            self.process.wait(10)
        except (Stopped, OSError, subprocess.TimeoutExpired):
            self.process.kill()
            self.process.wait()
        for each in (self.into, self.back):
            os.close(each)
        self.room.cleanup()


class Tab:
    """A page."""

    def __init__(self, browser, session):
        self.browser, self.session = browser, session

    def ask(self, method, **params):
        """What Chromium answers to a request for this page."""
        return self.browser.ask(method, self.session, **params)

    def run(self, text):
        """The value of an expression of JavaScript; of a promise what it resolves with."""
        found = self.ask("Runtime.evaluate", expression=text, awaitPromise=True, returnByValue=True)
        if "exceptionDetails" in found:
            raise Stopped(f"{text}: {found['exceptionDetails'].get('exception', {}).get('description')}")
        return found["result"].get("value")

    def until(self, text, seconds=20):
        """Whether an expression gets true within so many seconds."""
        end = time.monotonic() + seconds
        while time.monotonic() < end:
            try:
                if self.run(text):
                    return True
            except Stopped as fault:
                if "Reference" not in str(fault) and "TypeError" not in str(fault):
                    raise
            time.sleep(0.05)
        return False

    def press(self, key, text=""):
        """A key is pressed."""
        code = {"key": key, "text": text} if text else {"key": key}
        self.ask("Input.dispatchKeyEvent", type="keyDown", **code)
        self.ask("Input.dispatchKeyEvent", type="keyUp", **code)

    def shot(self, file):
        """A picture of the whole page."""
        data = self.ask("Page.captureScreenshot", captureBeyondViewport=True)["data"]
        with open(file, "wb") as out:
            out.write(base64.b64decode(data))
