"""Headless Chromium, driven by the DevTools protocol over pipes: each message is JSON, and ends with a zero byte."""

import base64
import json
import os
import select
import shutil
import subprocess
import tempfile
import time

NAMES = "chromium", "chromium-browser", "google-chrome"
LIMIT = 60
# The numbers of the pipes' ends in the browser
READS, WRITES = 3, 4


class Lost(Exception):
    """The browser has ended, or doesn't answer."""


def program():
    """The path of the browser, or None if there is none."""
    return next(filter(None, map(shutil.which, NAMES)), None)


class Browser:
    """A browser with one page."""

    def __init__(self, path):
        self.folder = tempfile.mkdtemp()
        ours, theirs = os.pipe(), os.pipe()
        self.to, self.of, self.rest, self.number, self.session = ours[1], theirs[0], b"", 0, None
        self.events = []
        # The shell moves the ends of the pipes to the numbers that the browser expects.
        line = f'exec "$@" {READS}<&{ours[0]} {WRITES}>&{theirs[1]}'
        words = ["--headless", "--no-sandbox", "--disable-gpu", "--hide-scrollbars", "--remote-debugging-pipe",
                 "--no-first-run", f"--user-data-dir={self.folder}", "about:blank"]
        self.process = subprocess.Popen(["bash", "-c", line, "bash", path, *words], pass_fds=(ours[0], theirs[1]),
                                        stdin=subprocess.DEVNULL, stdout=subprocess.DEVNULL, stderr=subprocess.DEVNULL)
        os.close(ours[0])
        os.close(theirs[1])
        try:
            target = self.call("Target.createTarget", url="about:blank")["targetId"]
            self.session = self.call("Target.attachToTarget", targetId=target, flatten=True)["sessionId"]
            for domain in ("Page", "Runtime", "Network", "Log"):
                self.call(f"{domain}.enable")
        except Lost:
            self.close()
            raise

    def __enter__(self):
        return self

    def __exit__(self, *_):
        self.close()

    def close(self):
        """Ends the browser and waits for it."""
        try:
            self.session = None
            self.call("Browser.close")
        except (Lost, OSError):
            pass
        try:
            self.process.wait(10)
        except subprocess.TimeoutExpired:
            self.process.kill()
            self.process.wait()
        os.close(self.to)
        os.close(self.of)
        shutil.rmtree(self.folder, ignore_errors=True)

    def message(self):
        end = time.monotonic() + LIMIT
        while b"\0" not in self.rest:
            ready, _, _ = select.select([self.of], [], [], max(0, end - time.monotonic()))
            data = os.read(self.of, 1 << 16) if ready else b""
            if not data:
                raise Lost("the browser has ended, or doesn't answer")
            self.rest += data
        text, _, self.rest = self.rest.partition(b"\0")
        return json.loads(text)

    def call(self, method, **params):
        """The result of a method of the protocol."""
        self.number += 1
        message = {"id": self.number, "method": method, "params": params}
        if self.session:
            message["sessionId"] = self.session
        os.write(self.to, json.dumps(message).encode() + b"\0")
        while True:
            answer = self.message()
            if answer.get("id") == self.number:
                if "error" in answer:
                    raise Lost(f"{method}: {answer['error']}")
                return answer["result"]
            self.events.append(answer)

    def open(self, address):
        """Opens a page, and waits until it is loaded."""
        for url in ("about:blank", address):  # from another page, because a link into the same one loads nothing
            self.events = []
            self.call("Page.navigate", url=url)
            while not any(event.get("method") == "Page.loadEventFired" for event in self.events):
                self.events.append(self.message())

    def value(self, text):
        """The value of an expression in the page."""
        result = self.call("Runtime.evaluate", expression=text, returnByValue=True, userGesture=True)
        if "exceptionDetails" in result:
            raise Lost(f"{text}: {result['exceptionDetails'].get('exception', {}).get('description')}")
        return result["result"].get("value")

    def until(self, text):
        """Waits until an expression of the page is true."""
        end = time.monotonic() + LIMIT
        while not self.value(f"!!({text})"):
            if time.monotonic() > end:
                raise Lost(f"{text}: it is never true")
            time.sleep(0.05)

    def press(self, key, text=""):
        """Presses a key."""
        extra = {"text": text} if text else {}
        self.call("Input.dispatchKeyEvent", type="keyDown", key=key, **extra)
        self.call("Input.dispatchKeyEvent", type="keyUp", key=key)

    def click(self, selector):
        """Clicks on the middle of the first element that the selector finds."""
        x, y = self.value(f"(() => {{ const box = document.querySelector({json.dumps(selector)})"
                          ".getBoundingClientRect(); return [box.x + box.width / 2, box.y + box.height / 2] })()")
        for kind in ("mousePressed", "mouseReleased"):
            self.call("Input.dispatchMouseEvent", type=kind, x=x, y=y, button="left", clickCount=1)

    def size(self, width, height, is_phone=False):
        self.call("Emulation.setDeviceMetricsOverride", width=width, height=height, deviceScaleFactor=1,
                  mobile=is_phone)

    def media(self, scheme="light", kind=""):
        self.call("Emulation.setEmulatedMedia", media=kind,
                  features=[{"name": "prefers-color-scheme", "value": scheme}])

    def picture(self, path, is_whole=False):
        """Stores a screenshot: of what is on the screen, or of the whole page."""
        told = self.call("Page.captureScreenshot", format="png", captureBeyondViewport=is_whole)
        data = base64.b64decode(told["data"])
        with open(path, "wb") as file:
            file.write(data)
        return data

    def troubles(self):
        """What the page reported since it was opened: exceptions, errors, and requests for other addresses."""
        found = []
        for event in self.events:
            method, params = event.get("method"), event.get("params", {})
            if method == "Runtime.exceptionThrown" or method == "Log.entryAdded":
                found.append(str(params)[:300])
            elif method == "Network.requestWillBeSent" and not params["request"]["url"].startswith(("file:", "data:")):
                found.append(params["request"]["url"])
        return found
