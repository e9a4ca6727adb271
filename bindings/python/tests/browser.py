"""A headless Chromium, asked over a pipe in the protocol of its developer tools."""
import base64
import json
import os
import select
import shutil
import subprocess
import tempfile
import time

CHROMIUM = shutil.which("chromium")
NEEDS_CHROMIUM = "the page of show: needs the Debian package chromium"
_SECONDS = 60
_OPTIONS = ("--headless=new", "--no-sandbox", "--disable-gpu", "--hide-scrollbars",
            "--no-first-run", "--disable-dev-shm-usage", "--remote-debugging-pipe", "about:blank")


class Browser:
    """One page of a browser. Use it in a with statement."""

    def __enter__(self):
        self._folder = tempfile.TemporaryDirectory()
        questions, self._to = os.pipe()
        self._from, answers = os.pipe()
        # The browser reads from 3 and writes to 4.
        command = f'exec "$0" "$@" 3<&{questions} 4>&{answers}'
        self._process = subprocess.Popen(
            ["bash", "-c", command, CHROMIUM, f"--user-data-dir={self._folder.name}", *_OPTIONS],
            pass_fds=(questions, answers), env=dict(os.environ, HOME=self._folder.name),
            stdin=subprocess.DEVNULL, stdout=subprocess.DEVNULL, stderr=subprocess.DEVNULL)
        os.close(questions)
        os.close(answers)
        self._number, self._session, self._left = 0, None, b""
        self.requests = []
        target = self.call("Target.createTarget", url="about:blank")["targetId"]
        self._session = self.call("Target.attachToTarget", targetId=target,
                                  flatten=True)["sessionId"]
        self.call("Page.enable")
        self.call("Network.enable")
        return self

    def __exit__(self, *_):
        self._session = None
        self.call("Browser.close")
        self._process.wait(30)
        os.close(self._to)
        os.close(self._from)
        self._folder.cleanup()

    def call(self, method, **arguments):
        """What a method answers."""
        self._number += 1
        question = {"id": self._number, "method": method, "params": arguments}
        if self._session:
            question["sessionId"] = self._session
        os.write(self._to, json.dumps(question).encode() + b"\0")
        while True:
            answer = self._next()
            if answer.get("id") == self._number:
                if "error" in answer:
                    raise RuntimeError(f"{method}: {answer['error']}")
                return answer["result"]

    def _next(self):
        while b"\0" not in self._left:
            if not select.select([self._from], [], [], _SECONDS)[0]:
                raise RuntimeError("the browser does not answer")
            data = os.read(self._from, 1 << 16)
            if not data:
                raise RuntimeError("the browser ended")
            self._left += data
        message, _, self._left = self._left.partition(b"\0")
        message = json.loads(message)
        if message.get("method") == "Network.requestWillBeSent":
            self.requests.append(message["params"]["request"]["url"])
        return message

    def show(self, url, width=1000, height=420, is_dark=False):
        """Opens a page, in a window of this size."""
        self.call("Emulation.setDeviceMetricsOverride", width=width, height=height,
                  deviceScaleFactor=1, mobile=False)
        scheme = {"name": "prefers-color-scheme", "value": "dark" if is_dark else "light"}
        self.call("Emulation.setEmulatedMedia", features=[scheme])
        self.call("Page.navigate", url=url)
        end = time.monotonic() + _SECONDS
        while self.value("[document.readyState, location.href]") != ["complete", url]:
            if time.monotonic() > end:
                raise RuntimeError(f"the browser does not show {url}")

    def value(self, expression):
        """The value of an expression of JavaScript."""
        answer = self.call("Runtime.evaluate", expression=expression, returnByValue=True,
                           awaitPromise=True)
        if "exceptionDetails" in answer:
            raise RuntimeError(f"{expression}: {answer['exceptionDetails']}")
        return answer["result"].get("value")

    def point_at(self, selector):
        """Moves the mouse to the middle of an element."""
        box = self.value(f"(it => [it.left + it.width / 2, it.top + it.height / 2])"
                         f"(document.querySelector({json.dumps(selector)})"
                         ".getClientRects()[0])")
        self.call("Input.dispatchMouseEvent", type="mouseMoved", x=box[0], y=box[1])

    def press(self, key):
        for kind in ("keyDown", "keyUp"):
            self.call("Input.dispatchKeyEvent", type=kind, key=key)

    def picture(self):
        """The page as a PNG."""
        return base64.b64decode(self.call("Page.captureScreenshot", format="png")["data"])
