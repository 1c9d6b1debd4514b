"""A headless Chromium, driven over two pipes by its DevTools protocol: real clicks and keys, and what the page comes to."""
import json
import os
import subprocess
import tempfile
from base64 import b64decode

from browser import find_browser

SECONDS = 60
FROM_HERE, TO_HERE = 3, 4  # where the browser reads and writes


class Browser:
    def __init__(self):
        self._data = tempfile.TemporaryDirectory()
        read_there, self._out = os.pipe()
        self._in, write_there = os.pipe()
        command = [
            find_browser(), "--headless", "--no-sandbox", "--disable-gpu", "--hide-scrollbars", "--remote-debugging-pipe",
            f"--user-data-dir={self._data.name}", "about:blank"]

        def place_pipes():
            there = os.dup2(read_there, 20), os.dup2(write_there, 21)
            os.dup2(there[0], FROM_HERE)
            os.dup2(there[1], TO_HERE)

        self._process = subprocess.Popen(
            command, stdin=subprocess.DEVNULL, stdout=subprocess.DEVNULL, stderr=subprocess.DEVNULL, preexec_fn=place_pipes,
            close_fds=False)
        os.close(read_there)
        os.close(write_there)
        self._written, self._number, self.events = b"", 0, []

    def ask(self, method, tab=None, **given):
        """The result of a method. What the browser tells meanwhile is kept as events."""
        self._number += 1
        message = {"id": self._number, "method": method, "params": given, **({"sessionId": tab} if tab else {})}
        os.write(self._out, json.dumps(message).encode() + b"\0")
        while True:
            answer = self._read()
            if answer.get("id") == self._number:
                if "error" in answer:
                    raise RuntimeError(f"{method}: {answer['error']}")
                return answer["result"]
            self.events.append(answer)

    def _read(self):
        while b"\0" not in self._written:
            piece = os.read(self._in, 1 << 16)
            if not piece:
                raise RuntimeError("the browser is gone")
            self._written += piece
        message, self._written = self._written.split(b"\0", 1)
        return json.loads(message)

    def open(self, address, width=1240, height=900):
        target = self.ask("Target.createTarget", url="about:blank")["targetId"]
        tab = self.ask("Target.attachToTarget", targetId=target, flatten=True)["sessionId"]
        return Tab(self, tab, address, width, height)

    def close(self):
        os.close(self._out)
        os.close(self._in)
        self._process.terminate()
        self._process.wait(SECONDS)
        self._data.cleanup()


class Tab:
    def __init__(self, browser, mark, address, width, height):
        self._browser, self._mark = browser, mark
        for domain in ("Page", "Runtime", "Log", "Network"):
            self.ask(f"{domain}.enable")
        self.size(width, height)
        self.go(address)

    def ask(self, method, **given):
        return self._browser.ask(method, self._mark, **given)

    def size(self, width, height):
        self.ask("Emulation.setDeviceMetricsOverride", width=width, height=height, deviceScaleFactor=1, mobile=False)

    def go(self, address):
        """Opens a page and waits until it is there."""
        self.ask("Page.navigate", url=address)
        for _ in range(1000):
            if self.value("document.readyState") == "complete" and self.value("location.href") == address:
                return
        raise RuntimeError(f"{address} does not open")

    def value(self, script):
        """What a script comes to. The page's own rules about scripts do not bind this one."""
        done = self.ask("Runtime.evaluate", expression=script, returnByValue=True, awaitPromise=True)
        if "exceptionDetails" in done:
            raise RuntimeError(f"{script}: {done['exceptionDetails']}")
        return done["result"].get("value")

    def complaints(self):
        """What went wrong in the page, and what it asked of a network."""
        wrong = []
        for event in self._browser.events:
            method, given = event.get("method"), event.get("params", {})
            if method in ("Runtime.exceptionThrown", "Log.entryAdded"):
                wrong.append(json.dumps(given)[:400])
            address = given["request"]["url"] if method == "Network.requestWillBeSent" else "about:"
            if not address.startswith(("file:", "about:", "blob:", "data:")):
                wrong.append(address)
        return wrong

    def click(self, selector):
        """A real click in the middle of something."""
        place = self.value(
            f"(() => {{ const one = document.querySelector({json.dumps(selector)}); one.scrollIntoView({{block: 'center'}});"
            " const {x, y, width, height} = one.getBoundingClientRect(); return [x + width / 2, y + height / 2]; })()")
        for kind in ("mousePressed", "mouseReleased"):
            self.ask("Input.dispatchMouseEvent", type=kind, x=place[0], y=place[1], button="left", clickCount=1)

    def press(self, key, code="", shift=False, text=None):
        """A real key, and what it writes: its own letter if nothing else is said."""
        writes = text or (key if len(key) == 1 else "")
        for kind, more in (("keyDown", {"text": writes} if writes else {}), ("keyUp", {})):
            self.ask("Input.dispatchKeyEvent", type=kind, key=key, code=code, modifiers=8 * shift, **more)

    def picture(self, file, whole=True):
        shot = self.ask("Page.captureScreenshot", format="png", captureBeyondViewport=whole)
        file.write_bytes(b64decode(shot["data"]))

    def paper(self, file):
        file.write_bytes(b64decode(self.ask("Page.printToPDF", printBackground=True, preferCSSPageSize=True)["data"]))
