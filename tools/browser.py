"""A browser that nobody sees, Chromium, with one page, for tools/page.py."""

import base64
import fcntl
import json
import os
import subprocess
import time


class Browser:
    """A browser with one page, which is told what to do over a pipe."""

    def __init__(self, program, folder):
        to_browser, self.writes = (fcntl.fcntl(end, fcntl.F_DUPFD, 10) for end in os.pipe())
        self.reads, from_browser = (fcntl.fcntl(end, fcntl.F_DUPFD, 10) for end in os.pipe())

        def placed():
            os.dup2(to_browser, 3)
            os.dup2(from_browser, 4)

        words = [program, "--headless=new", "--no-sandbox", "--disable-gpu", "--hide-scrollbars", "--remote-debugging-pipe"]
        self.process = subprocess.Popen(
            [*words, f"--user-data-dir={folder}", "about:blank"],
            pass_fds=(3, 4),
            preexec_fn=placed,
            stdin=subprocess.DEVNULL,
            stdout=subprocess.DEVNULL,
            stderr=subprocess.DEVNULL,
        )
        self.session, self.count, self.rest, self.faults = None, 0, b"", []
        target = self.tell("Target.createTarget", url="about:blank")["targetId"]
        self.session = self.tell("Target.attachToTarget", targetId=target, flatten=True)["sessionId"]
        self.tell("Page.enable")
        self.tell("Runtime.enable")

    def message(self):
        """The next message of the browser."""
        while b"\0" not in self.rest:
            self.rest += os.read(self.reads, 65536)
        message, _, self.rest = self.rest.partition(b"\0")
        return json.loads(message)

    def tell(self, method, **params):
        """Tells the browser something; what it answers."""
        self.count += 1
        message = {"id": self.count, "method": method, "params": params}
        if self.session:
            message["sessionId"] = self.session
        os.write(self.writes, json.dumps(message).encode() + b"\0")
        while True:
            heard = self.message()
            if heard.get("method") == "Runtime.exceptionThrown":
                details = heard["params"]["exceptionDetails"]
                self.faults.append(details.get("exception", {}).get("description", details["text"]))
            if heard.get("id") == self.count:
                return heard["result"]

    def window(self, wide, high, scheme):
        """Makes the window so wide and high, for a reader who prefers a light or a dark page."""
        self.tell("Emulation.setDeviceMetricsOverride", width=wide, height=high, deviceScaleFactor=1, mobile=wide < 500)
        self.tell("Emulation.setEmulatedMedia", features=[{"name": "prefers-color-scheme", "value": scheme}])

    def open(self, address):
        """Opens a page, and waits until it shows a run."""
        self.value("window.isLeft = true")
        self.tell("Page.navigate", url="about:blank")
        self.tell("Page.navigate", url=address)
        there = "!window.isLeft && document.readyState === 'complete' && typeof current === 'function' && current() !== null"
        assert self.until(there), f"{address} shows no run"

    def until(self, expression):
        """Waits until an expression is true on the page; whether it is within half a minute."""
        end = time.monotonic() + 30
        while time.monotonic() < end:
            if self.value(expression):
                return True
            time.sleep(0.02)
        return False

    def value(self, expression):
        """What an expression is on the page, once it is there."""
        answer = self.tell("Runtime.evaluate", expression=expression, returnByValue=True, awaitPromise=True)
        if "exceptionDetails" in answer:
            self.faults.append(answer["exceptionDetails"].get("exception", {}).get("description", expression))
        return answer["result"].get("value")

    def drag(self, start, end):
        """Drags with the mouse from one place of the window to another."""
        for kind, (x, y) in (("mousePressed", start), ("mouseMoved", end), ("mouseMoved", end), ("mouseReleased", end)):
            self.tell("Input.dispatchMouseEvent", type=kind, x=x, y=y, button="left", buttons=1, clickCount=1)

    def picture(self, file):
        """Takes a picture of the window."""
        file.write_bytes(base64.b64decode(self.tell("Page.captureScreenshot", format="png")["data"]))

    def close(self):
        self.process.kill()
        self.process.wait()
