"""A headless Chromium, spoken to by its own protocol over two pipes."""
import base64
import json
import os
import select
import shutil
import subprocess
import tempfile

# So many seconds it may take for an answer.
PATIENCE = 60
NAMES = ("chromium", "chromium-browser", "google-chrome")


def found():
    """The path of a browser that is installed; None where there is none."""
    return next(filter(None, map(shutil.which, NAMES)), None)


class Browser:
    """One page of a browser, from `with` to its end."""

    def __enter__(self):
        self.folder = tempfile.mkdtemp()
        asked, self.ask = os.pipe()
        self.told, tell = os.pipe()

        def hand_on():
            # The numbers that the browser reads from and writes to; first out of the way of each other.
            one, two = os.dup(asked), os.dup(tell)
            os.dup2(one, 3)
            os.dup2(two, 4)

        words = [found(), "--headless=new", "--remote-debugging-pipe", "--no-sandbox", "--disable-gpu", "--hide-scrollbars", "--no-first-run",
                 f"--user-data-dir={self.folder}", "about:blank"]
        self.process = subprocess.Popen(words, preexec_fn=hand_on, pass_fds=(3, 4), stdin=subprocess.DEVNULL,
                                        stdout=subprocess.DEVNULL, stderr=subprocess.DEVNULL)
        os.close(asked)
        os.close(tell)
        self.left, self.number, self.session, self.events = b"", 0, None, []
        try:
            self.attach()
        except (OSError, StopIteration) as error:
            self.__exit__()
            raise OSError(f"the browser doesn't start: {error}") from error
        return self

    def attach(self):
        page = next(it for it in self.call("Target.getTargets")["targetInfos"] if it["type"] == "page")
        self.session = self.call("Target.attachToTarget", targetId=page["targetId"], flatten=True)["sessionId"]
        for domain in ("Page", "Runtime", "Log"):
            self.call(f"{domain}.enable")

    def __exit__(self, *_):
        self.session = None
        try:
            self.call("Browser.close")
            self.process.wait(10)
        except (OSError, subprocess.TimeoutExpired):
            self.process.kill()
            self.process.wait()
        os.close(self.ask)
        os.close(self.told)
        shutil.rmtree(self.folder, ignore_errors=True)

    def message(self):
        while b"\0" not in self.left:
            if not select.select([self.told], [], [], PATIENCE)[0]:
                raise OSError(f"the browser says nothing for {PATIENCE} s")
            read = os.read(self.told, 1 << 20)
            if not read:
                raise OSError("the browser ended")
            self.left += read
        text, _, self.left = self.left.partition(b"\0")
        return json.loads(text)

    def call(self, method, **words):
        self.number += 1
        told = {"id": self.number, "method": method, "params": words}
        if self.session:
            told["sessionId"] = self.session
        os.write(self.ask, json.dumps(told).encode() + b"\0")
        while True:
            answer = self.message()
            if answer.get("id") == self.number:
                if "error" in answer:
                    raise OSError(f"{method}: {answer['error']['message']}")
                return answer["result"]
            self.events.append(answer)

    def open(self, path, width=1100, height=800):
        """Opens the file, and waits until it is loaded."""
        self.call("Emulation.setDeviceMetricsOverride", width=width, height=height, deviceScaleFactor=1, mobile=False)
        # From a page to a place of its own nothing would be loaded.
        for address in ("about:blank", f"file://{os.path.abspath(path)}"):
            self.load(address)

    def load(self, address):
        self.events.clear()
        self.call("Page.navigate", url=address)
        while not any(it.get("method") == "Page.loadEventFired" for it in self.events):
            self.events.append(self.message())

    def complaints(self):
        """What the browser had to say against the page: errors, and what its policy stopped."""
        return [it["params"] for it in self.events if it.get("method") in ("Runtime.exceptionThrown", "Log.entryAdded")]

    def value(self, expression):
        answer = self.call("Runtime.evaluate", expression=expression, returnByValue=True)
        if "exceptionDetails" in answer:
            raise OSError(f"{expression}: {answer['exceptionDetails']['text']}")
        return answer["result"].get("value")

    def press(self, key, code=None, text=None):
        words = {"key": key, "code": code or key, "windowsVirtualKeyCode": {"Tab": 9, "Enter": 13, "Escape": 27, " ": 32}[key]}
        self.call("Input.dispatchKeyEvent", type="keyDown", **({"text": text} if text else {}), **words)
        self.call("Input.dispatchKeyEvent", type="keyUp", **words)

    def click(self, selector):
        """Clicks into the middle of the first element that the selector finds."""
        x, y = self.value(
            f"(() => {{ const it = document.querySelector({json.dumps(selector)}); it.scrollIntoView({{block: 'center'}});"
            " const box = it.getBoundingClientRect(); return [box.x + box.width / 2, box.y + box.height / 2]; })()"
        )
        for kind in ("mousePressed", "mouseReleased"):
            self.call("Input.dispatchMouseEvent", type=kind, x=x, y=y, button="left", clickCount=1)

    def shot(self, path, whole=False, top=0, height=None):
        """Writes a picture: of the window, or of the whole page, or of the page from `top` on."""
        clip = {}
        if whole or height:
            size = self.call("Page.getLayoutMetrics")["cssContentSize"]
            clip["clip"] = {"x": 0, "y": top, "width": size["width"], "height": height or size["height"], "scale": 1}
            clip["captureBeyondViewport"] = True
        picture = self.call("Page.captureScreenshot", format="png", **clip)["data"]
        with open(path, "wb") as file:
            file.write(base64.b64decode(picture))

    def media(self, name):
        self.call("Emulation.setEmulatedMedia", media=name)

    def printed(self):
        """How many bytes the page has as PDF."""
        return len(base64.b64decode(self.call("Page.printToPDF")["data"]))
