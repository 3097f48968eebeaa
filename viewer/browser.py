"""A headless Chromium with the timeline open, driven over its DevTools pipe. Python's standard library is all it needs."""

import base64
import fcntl
import json
import os
import select
import shutil
import subprocess
import tempfile
import time

PAGE = os.path.join(os.path.dirname(os.path.abspath(__file__)), "timeline.html")
NAMES = ("chromium", "chromium-browser", "google-chrome", "google-chrome-stable", "chrome")
FLAGS = ("--headless=new", "--remote-debugging-pipe", "--no-sandbox", "--disable-dev-shm-usage", "--disable-gpu",
         "--no-first-run", "--hide-scrollbars", "--force-color-profile=srgb")
ANSWER_SECONDS = 60


def find_chromium():
    """The path of a Chromium, or None where there is none. The environment's CHROMIUM comes first."""
    return os.environ.get("CHROMIUM") or next(filter(None, map(shutil.which, NAMES)), None)


class PageError(Exception):
    """The page threw, or the browser refused a command."""


class Browser:
    """One page of one browser. A context manager: its end ends the browser."""

    def __init__(self, chromium, width=1280, height=720):
        self.size = (width, height)
        self.profile = tempfile.TemporaryDirectory(prefix="pmsi-viewer-", ignore_cleanup_errors=True)
        self.count = 0
        self.buffer = b""
        self.events = []
        self.process, self.sink, self.source = _start(chromium, self.profile.name, width, height)

    def __enter__(self):
        try:
            targets = self._call("Target.getTargets", session=None)["targetInfos"]
            page = next(target["targetId"] for target in targets if target["type"] == "page")
            self.session = self._call("Target.attachToTarget", session=None, targetId=page, flatten=True)["sessionId"]
            for domain in ("Page", "Runtime", "DOM", "Log", "Network", "Performance"):
                self._call(f"{domain}.enable")
            self.resize(*self.size)
            self.set_dark(False)
            return self
        except BaseException:
            self.__exit__()
            raise

    def __exit__(self, *_):
        os.close(self.sink)
        os.close(self.source)
        self.process.terminate()
        try:
            self.process.wait(10)
        except subprocess.TimeoutExpired:
            self.process.kill()
            self.process.wait()
        self.profile.cleanup()

    def open_timeline(self):
        """Opens the page anew from the disk, as a file."""
        self._call("Page.navigate", url="file://" + PAGE)
        self.wait_for("document.readyState === 'complete' && window.timeline !== undefined")

    def run(self, script):
        """The value of an expression in the page; a promise is awaited."""
        answer = self._call("Runtime.evaluate", expression=script, awaitPromise=True, returnByValue=True)
        if "exceptionDetails" in answer:
            details = answer["exceptionDetails"]
            raise PageError(details.get("exception", {}).get("description", details["text"]))
        return answer["result"].get("value")

    def wait_for(self, condition, seconds=30):
        """Waits until an expression is true in the page."""
        end = time.monotonic() + seconds
        while not self.run(condition):
            if time.monotonic() > end:
                raise PageError(f"still not so after {seconds} seconds: {condition}")
            time.sleep(0.01)

    def choose_file(self, path):
        """Hands a file to the page as its file choice does, and waits until it is drawn or refused."""
        self.run("delete document.body.dataset.state")
        root = self._call("DOM.getDocument")["root"]["nodeId"]
        node = self._call("DOM.querySelector", nodeId=root, selector="#file")["nodeId"]
        self._call("DOM.setFileInputFiles", nodeId=node, files=[os.path.abspath(path)])
        self.wait_for("['drawn', 'fault'].includes(document.body.dataset.state)")

    def move_mouse(self, x, y):
        self._call("Input.dispatchMouseEvent", type="mouseMoved", x=x, y=y)

    def click(self, x, y):
        self.move_mouse(x, y)
        for kind in ("mousePressed", "mouseReleased"):
            self._call("Input.dispatchMouseEvent", type=kind, x=x, y=y, button="left", clickCount=1)

    def drag(self, start, end):
        """Presses the mouse at one place and lets it go at another."""
        self.move_mouse(*start)
        button = {"button": "left", "buttons": 1, "clickCount": 1}
        self._call("Input.dispatchMouseEvent", type="mousePressed", x=start[0], y=start[1], **button)
        self._call("Input.dispatchMouseEvent", type="mouseMoved", x=end[0], y=end[1], **button)
        self._call("Input.dispatchMouseEvent", type="mouseReleased", x=end[0], y=end[1], **button)

    def turn_wheel(self, x, y, down):
        self._call("Input.dispatchMouseEvent", type="mouseWheel", x=x, y=y, deltaX=0, deltaY=down)

    def press_key(self, key):
        """A key by its name, as `ArrowLeft`, or by its character."""
        text = key if len(key) == 1 else ""
        self._call("Input.dispatchKeyEvent", type="keyDown", key=key, text=text)
        self._call("Input.dispatchKeyEvent", type="keyUp", key=key)

    def resize(self, width, height):
        self._call("Emulation.setDeviceMetricsOverride", width=width, height=height, deviceScaleFactor=1, mobile=False)

    def set_dark(self, dark):
        """What the page is told of the colours that the reader prefers."""
        feature = {"name": "prefers-color-scheme", "value": "dark" if dark else "light"}
        self._call("Emulation.setEmulatedMedia", features=[feature])

    def save_into(self, folder):
        """Where files go that the page saves."""
        self._call("Browser.setDownloadBehavior", session=None, behavior="allow", downloadPath=folder)

    def screenshot(self):
        """The page as it stands, as the bytes of a PNG."""
        self.run("new Promise((done) => requestAnimationFrame(() => requestAnimationFrame(() => done(0))))")
        return base64.b64decode(self._call("Page.captureScreenshot", format="png")["data"])

    def busy_seconds(self):
        """The processor time that the page has used, all its threads together."""
        metrics = self._call("Performance.getMetrics")["metrics"]
        return next(metric["value"] for metric in metrics if metric["name"] == "ProcessTime")

    def complaints(self):
        """What the page threw or logged as an error, and what it asked the network for, since it was opened."""
        said = []
        for event in self.events:
            params = event["params"]
            if event["method"] == "Runtime.exceptionThrown":
                said.append(params["exceptionDetails"].get("exception", {}).get("description", "thrown"))
            elif event["method"] == "Log.entryAdded" and params["entry"]["level"] == "error":
                said.append(params["entry"]["text"])
            elif event["method"] == "Network.requestWillBeSent":
                url = params["request"]["url"]
                if not url.startswith(("file://" + PAGE, "blob:", "data:")):
                    said.append(f"asked for {url}")
        return said

    def _call(self, method, session="", **params):
        self.count += 1
        message = {"id": self.count, "method": method, "params": params}
        if session is not None:
            message["sessionId"] = session or self.session
        self._send(json.dumps(message).encode() + b"\0")
        while True:
            answer = self._receive()
            if answer.get("id") == self.count:
                break
            if "method" in answer:
                self.events.append(answer)
        if "error" in answer:
            raise PageError(f"{method}: {answer['error']['message']}")
        return answer["result"]

    def _send(self, data):
        try:
            while data:
                data = data[os.write(self.sink, data):]
        except BrokenPipeError:
            raise PageError("the browser ended") from None

    def _receive(self):
        """The next message; each ends with a zero byte."""
        while b"\0" not in self.buffer:
            if not select.select([self.source], [], [], ANSWER_SECONDS)[0]:
                raise PageError(f"the browser gave no answer within {ANSWER_SECONDS} seconds")
            chunk = os.read(self.source, 1 << 20)
            if not chunk:
                raise PageError("the browser ended")
            self.buffer += chunk
        message, self.buffer = self.buffer.split(b"\0", 1)
        return json.loads(message)


def _start(chromium, profile, width, height):
    """Starts the browser with its commands on descriptor 3 and its answers on 4."""
    commands_out, commands_in = map(_high, os.pipe())
    answers_out, answers_in = map(_high, os.pipe())

    def place_pipes():
        os.dup2(commands_out, 3)
        os.dup2(answers_in, 4)

    words = [chromium, *FLAGS, f"--user-data-dir={profile}", f"--window-size={width},{height}", "about:blank"]
    quiet = {"stdin": subprocess.DEVNULL, "stdout": subprocess.DEVNULL, "stderr": subprocess.DEVNULL}
    try:
        process = subprocess.Popen(words, pass_fds=(3, 4), preexec_fn=place_pipes, **quiet)
    except OSError as error:
        raise PageError(str(error)) from None
    os.close(commands_out)
    os.close(answers_in)
    return process, commands_in, answers_out


def _high(descriptor):
    """The same pipe end at a number out of the way of 3 and 4."""
    moved = fcntl.fcntl(descriptor, fcntl.F_DUPFD_CLOEXEC, 10)
    os.close(descriptor)
    return moved
