"""A headless Chromium, driven by its DevTools protocol over a pipe: JSON with a zero byte behind each message. For tests."""
import base64
import json
import os
import shutil
import subprocess
import tempfile
import time

KEYS = {"Enter": 13, "ArrowDown": 40, "ArrowUp": 38, "ArrowLeft": 37, "ArrowRight": 39, "Home": 36, "End": 35, "Tab": 9, " ": 32, "/": 191}
WORDS = ["chromium", "--headless=new", "--no-sandbox", "--disable-gpu", "--disable-dev-shm-usage", "--remote-debugging-pipe",
         "--hide-scrollbars", "--no-first-run"]
TO_MIDDLE = """(() => { const it = document.querySelector(%s); it.scrollIntoView({ block: "center", inline: "center" });
const box = it.getBoundingClientRect(); return [box.left + box.width / 2, box.top + box.height / 2]; })()"""


class Browser:
    """One page of a browser of its own."""

    def __init__(self):
        self.folder, self.session, self.number, self.rest, self.events = tempfile.mkdtemp(prefix="chromium-"), None, 0, b"", []
        reads, self.writes = os.pipe()
        self.reads, writes = os.pipe()

        def give():
            """Gives the pipes the numbers 3 and 4, where the browser looks for them."""
            ends = os.dup2(os.dup(reads), 60), os.dup2(os.dup(writes), 61)
            for end, number in zip(ends, (3, 4)):
                os.dup2(end, number)

        self.process = subprocess.Popen([*WORDS, "--user-data-dir=" + self.folder, "about:blank"], preexec_fn=give,
                                        pass_fds=(3, 4, reads, writes), stderr=subprocess.DEVNULL, stdout=subprocess.DEVNULL)
        os.close(reads)
        os.close(writes)
        target = self.call("Target.createTarget", url="about:blank")["targetId"]
        self.session = self.call("Target.attachToTarget", targetId=target, flatten=True)["sessionId"]
        for domain in ("Page", "Runtime", "Log", "Network"):
            self.call(domain + ".enable")

    def call(self, method, **params):
        self.number += 1
        message = {"id": self.number, "method": method, "params": params, **({"sessionId": self.session} if self.session else {})}
        os.write(self.writes, json.dumps(message).encode() + b"\0")
        while True:
            while b"\0" not in self.rest:
                content = os.read(self.reads, 1 << 20)
                if not content:
                    raise RuntimeError("the browser has ended")
                self.rest += content
            one, _, self.rest = self.rest.partition(b"\0")
            found = json.loads(one)
            if found.get("id") == self.number:
                if "error" in found:
                    raise RuntimeError("%s: %s" % (method, found["error"]))
                return found["result"]
            if "method" in found:
                self.events.append(found)

    def size(self, width, height, is_phone=False, is_dark=False):
        self.call("Emulation.setDeviceMetricsOverride", width=width, height=height, deviceScaleFactor=1, mobile=is_phone)
        self.call("Emulation.setEmulatedMedia", features=[{"name": "prefers-color-scheme", "value": "dark" if is_dark else "light"}])

    def visit(self, address):
        self.call("Page.navigate", url=address)
        time.sleep(0.3)
        self.until("document.readyState === 'complete'", 60)

    def js(self, code):
        """The value of an expression in the page."""
        found = self.call("Runtime.evaluate", expression=code, awaitPromise=True, returnByValue=True)
        if "exceptionDetails" in found:
            raise RuntimeError(json.dumps(found["exceptionDetails"])[:600])
        return found["result"].get("value")

    def until(self, code, seconds=20):
        """Waits until an expression holds in the page."""
        end = time.monotonic() + seconds
        while time.monotonic() < end:
            if self.js(code):
                return
            time.sleep(0.05)
        raise RuntimeError("this does not come to hold: " + code)

    def key(self, key):
        text = key if len(key) == 1 else "\r" if key == "Enter" else ""
        code = KEYS.get(key, ord(key[0].upper()))
        self.call("Input.dispatchKeyEvent", type="keyDown" if text else "rawKeyDown", key=key, windowsVirtualKeyCode=code, text=text)
        self.call("Input.dispatchKeyEvent", type="keyUp", key=key, windowsVirtualKeyCode=code)

    def write(self, text):
        self.call("Input.insertText", text=text)

    def click(self, selector):
        """A click of the mouse in the middle of an element."""
        x, y = self.js(TO_MIDDLE % json.dumps(selector))
        for kind in ("mousePressed", "mouseReleased"):
            self.call("Input.dispatchMouseEvent", type=kind, x=x, y=y, button="left", clickCount=1)

    def picture(self, file, is_whole=False):
        """Writes what is seen, or the whole page, as PNG."""
        more = {}
        if is_whole:
            size = self.call("Page.getLayoutMetrics")["cssContentSize"]
            more = {"captureBeyondViewport": True, "clip": {"x": 0, "y": 0, "width": size["width"], "height": size["height"], "scale": 1}}
        with open(file, "wb") as opened:
            opened.write(base64.b64decode(self.call("Page.captureScreenshot", format="png", **more)["data"]))

    def paper(self, file):
        """Writes the page as it is printed, as PDF."""
        self.until("document.readyState === 'complete'", 60)
        with open(file, "wb") as opened:
            opened.write(base64.b64decode(self.call("Page.printToPDF", preferCSSPageSize=True)["data"]))

    def errors(self):
        """What the page wrote to its console, and its exceptions, since the last call."""
        found = [it for it in self.events if it["method"] in ("Runtime.exceptionThrown", "Log.entryAdded", "Runtime.consoleAPICalled")]
        self.events.clear()
        return [json.dumps(it)[:300] for it in found]

    def end(self):
        try:
            self.call("Browser.close")
        except (RuntimeError, OSError):
            self.process.kill()
        self.process.wait(20)
        shutil.rmtree(self.folder, ignore_errors=True)
