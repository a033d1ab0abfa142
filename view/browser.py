"""A headless Chromium, driven by the DevTools protocol over a pipe."""

import base64
import json
import os
import select
import shutil
import subprocess
import tempfile
import time

# Chromium reads commands from its descriptor 3 and writes answers and events to 4, each with a zero byte behind it.
PIPES = 'exec "$@" 3<&0 4>&1 < /dev/null > /dev/null 2>&1'
# Without a sandbox, which neither root nor every container can have: only pages of our own are opened.
OPTIONS = ["--headless", "--no-sandbox", "--disable-gpu", "--disable-dev-shm-usage", "--hide-scrollbars", "--force-color-profile=srgb", "--remote-debugging-pipe"]
SECONDS = 60


class Browser:
    """Answers calls in their order, and keeps the events that come in between."""

    def __init__(self, program):
        self.folder = tempfile.mkdtemp()
        words = ["sh", "-c", PIPES, "sh", program, *OPTIONS, "--user-data-dir=" + self.folder]
        self.process = subprocess.Popen(words, stdin=subprocess.PIPE, stdout=subprocess.PIPE, bufsize=0)
        self.read, self.events, self.count = b"", [], 0

    def call(self, method, session=None, **parameters):
        self.count += 1
        message = {"id": self.count, "method": method, "params": parameters}
        if session:
            message["sessionId"] = session
        self.process.stdin.write(json.dumps(message).encode() + b"\0")
        while True:
            answer = self.message(method)
            if answer.get("id") == self.count:
                break
            self.events.append(answer)
        if "error" in answer:
            raise RuntimeError(f"{method}: {answer['error']['message']}")
        return answer["result"]

    def message(self, awaited):
        end = time.monotonic() + SECONDS
        while b"\0" not in self.read:
            ready, _, _ = select.select([self.process.stdout], [], [], max(0, end - time.monotonic()))
            more = os.read(self.process.stdout.fileno(), 1 << 20) if ready else b""
            if not more:
                raise RuntimeError(f"the browser is silent, and {awaited} awaited")
            self.read += more
        message, self.read = self.read.split(b"\0", 1)
        return json.loads(message)

    def wait(self, method, session):
        """The next event of this kind, among those kept or to come."""
        at = 0
        while True:
            if at == len(self.events):
                self.events.append(self.message(method))
            event = self.events[at]
            if event.get("method") == method and event.get("sessionId") == session:
                return self.events.pop(at)["params"]
            at += 1

    def close(self):
        try:
            self.call("Browser.close")
            self.process.wait(10)
        except (RuntimeError, OSError, subprocess.TimeoutExpired):
            self.process.kill()
        shutil.rmtree(self.folder, ignore_errors=True)


class Tab:
    """A tab of its own, with what the browser finds wrong in it."""

    def __init__(self, browser, width=1300, height=800):
        self.browser = browser
        self.target = browser.call("Target.createTarget", url="about:blank")["targetId"]
        self.session = browser.call("Target.attachToTarget", targetId=self.target, flatten=True)["sessionId"]
        for domain in ["Page", "Runtime", "Log"]:
            self.call(domain + ".enable")
        self.resize(width, height)

    def call(self, method, **parameters):
        return self.browser.call(method, self.session, **parameters)

    def resize(self, width, height):
        self.call("Emulation.setDeviceMetricsOverride", width=width, height=height, deviceScaleFactor=1, mobile=False)

    def open(self, path):
        self.call("Page.navigate", url="file://" + os.path.abspath(path))
        self.browser.wait("Page.loadEventFired", self.session)

    def run(self, script):
        """The value of an expression, awaited where it is a promise."""
        answer = self.call("Runtime.evaluate", expression=script, awaitPromise=True, returnByValue=True, userGesture=True)
        if "exceptionDetails" in answer:
            raise RuntimeError(answer["exceptionDetails"].get("exception", {}).get("description", script))
        return answer["result"].get("value")

    def media(self, media="", scheme="light"):
        features = [{"name": "prefers-color-scheme", "value": scheme}]
        self.call("Emulation.setEmulatedMedia", media=media, features=features)

    def picture(self, path):
        with open(path, "wb") as file:
            file.write(base64.b64decode(self.call("Page.captureScreenshot")["data"]))

    def printed(self):
        return base64.b64decode(self.call("Page.printToPDF", preferCSSPageSize=True)["data"])

    def faults(self):
        """What was thrown, refused by the page's policy or logged as an error since it was opened."""
        self.run("0")
        kept = [event["params"] for event in self.browser.events if event.get("sessionId") == self.session and event["method"] in ("Runtime.exceptionThrown", "Log.entryAdded")]
        return [str(event.get("exceptionDetails") or event["entry"]["text"]) for event in kept]

    def close(self):
        self.browser.call("Target.closeTarget", targetId=self.target)
        self.browser.events = [event for event in self.browser.events if event.get("sessionId") != self.session]
