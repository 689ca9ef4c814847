"""A browser without a window, that is told by a pipe what to do: Chromium's own protocol, one JSON value each."""
import base64
import json
import os
import select
import shutil
import subprocess
import tempfile
import time

NAMES = ("chromium", "chromium-browser", "google-chrome")
SECONDS = 60


def found():
    """The program of a browser, if there is one."""
    return next((path for path in map(shutil.which, NAMES) if path), None)


class Browser:
    """A browser with one page."""

    def __init__(self, program, wide=1500, high=900):
        self.room = tempfile.TemporaryDirectory(ignore_cleanup_errors=True)
        self.given, given = os.pipe()
        answers, self.answers = os.pipe()
        # the browser reads at the descriptor 3, and writes at 4
        words = ["bash", "-c", f'exec "$@" 3<&{self.given} 4>&{self.answers}', "bash", program, "--headless", "--no-sandbox",
                 "--disable-gpu", "--remote-debugging-pipe", f"--user-data-dir={self.room.name}", "--no-first-run",
                 f"--window-size={wide},{high}", "about:blank"]
        self.process = subprocess.Popen(words, pass_fds=(self.given, self.answers), stdin=subprocess.DEVNULL,
                                        stdout=subprocess.DEVNULL, stderr=subprocess.DEVNULL)
        os.close(self.given)
        os.close(self.answers)
        self.writing, self.reading, self.left = given, answers, b""
        self.number, self.session, self.said = 0, None, []
        target = self.ask("Target.createTarget", url="about:blank")["targetId"]
        self.session = self.ask("Target.attachToTarget", targetId=target, flatten=True)["sessionId"]
        for domain in ("Page", "Runtime", "Log", "Network"):
            self.ask(f"{domain}.enable")
        self.size(wide, high)

    def ask(self, method, **given):
        """What it answers."""
        self.number += 1
        value = {"id": self.number, "method": method, "params": given} | ({"sessionId": self.session} if self.session else {})
        os.write(self.writing, json.dumps(value).encode() + b"\0")
        end = time.monotonic() + SECONDS
        while True:
            answer = self.read(end)
            if answer.get("id") == self.number:
                if "error" in answer:
                    raise RuntimeError(f"{method}: {answer['error']['message']}")
                return answer["result"]
            self.said.append(answer)

    def read(self, end):
        """The next value that it writes."""
        while b"\0" not in self.left:
            if not select.select([self.reading], [], [], max(0, end - time.monotonic()))[0]:
                raise RuntimeError("the browser doesn't answer")
            more = os.read(self.reading, 1 << 16)
            if not more:
                raise RuntimeError("the browser has ended")
            self.left += more
        text, self.left = self.left.split(b"\0", 1)
        return json.loads(text)

    def size(self, wide, high):
        self.ask("Emulation.setDeviceMetricsOverride", width=wide, height=high, deviceScaleFactor=1, mobile=False)

    def open(self, path):
        self.ask("Page.navigate", url=path.absolute().as_uri())
        end = time.monotonic() + SECONDS
        while self.value("document.readyState") != "complete":
            if time.monotonic() > end:
                raise RuntimeError("the page isn't read to its end")
            time.sleep(0.05)

    def value(self, text):
        """The value of an expression in the page."""
        answer = self.ask("Runtime.evaluate", expression=text, returnByValue=True, awaitPromise=True)
        if "exceptionDetails" in answer:
            raise RuntimeError(f"{text[:60]}: {answer['exceptionDetails'].get('exception', {}).get('description')}")
        return answer["result"].get("value")

    def click(self, selector):
        """Presses the mouse on the middle of an element."""
        x, y = self.value(f"""(() => {{
            const box = document.querySelector({json.dumps(selector)}).getBoundingClientRect();
            return [box.left + Math.min(box.width, 200) / 2, (box.top + box.bottom) / 2];
        }})()""")
        for what in ("mousePressed", "mouseReleased"):
            self.ask("Input.dispatchMouseEvent", type=what, x=x, y=y, button="left", clickCount=1)

    def press(self, key, code=None):
        """Presses a key."""
        for what in ("rawKeyDown", "keyUp"):
            self.ask("Input.dispatchKeyEvent", type=what, key=key, code=code or key)

    def scheme(self, name):
        """What the page hears of dark and light."""
        self.ask("Emulation.setEmulatedMedia", features=[{"name": "prefers-color-scheme", "value": name}])

    def picture(self, path):
        path.write_bytes(base64.b64decode(self.ask("Page.captureScreenshot", format="png")["data"]))

    def faults(self):
        """What went wrong in the page, and what it asked of the network."""
        said = [one for one in self.said if one["method"] in ("Runtime.exceptionThrown", "Log.entryAdded")]
        asked = [one["params"]["request"]["url"] for one in self.said if one["method"] == "Network.requestWillBeSent"]
        return said, [url for url in asked if not url.startswith("file:")]

    def close(self):
        os.close(self.writing)
        try:
            self.process.wait(10)
        except subprocess.TimeoutExpired:
            self.process.kill()
            self.process.wait()
        os.close(self.reading)
        self.room.cleanup()
