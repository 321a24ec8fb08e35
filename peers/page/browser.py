"""A headless Chromium, driven over its debugging pipe: messages of JSON that end in a zero byte, to the browser's
descriptor 3 and from its descriptor 4."""

import base64
import fcntl
import json
import os
import queue
import shutil
import subprocess
import tempfile
import threading
import time

NAMES = ("chromium", "chromium-browser", "google-chrome", "chrome")
WITHIN = 120
COMPLAINTS = ("security", "javascript", "violation")
KEYS = {"Tab": 9, "Enter": 13, "Escape": 27, "ArrowDown": 40, "ArrowUp": 38, "Home": 36, "End": 35, " ": 32}


def program():
    """The browser's program, or nothing where there is none."""
    return next(filter(None, map(shutil.which, NAMES)), None)


def is_installed():
    """Whether a browser is there, or could be installed."""
    if not program():
        command = "apt-get update && apt-get install -y --no-install-recommends chromium"
        environment = {**os.environ, "DEBIAN_FRONTEND": "noninteractive"}
        subprocess.run(["bash", "-c", command], capture_output=True, env=environment)
    return program() is not None


class Failed(Exception):
    """What the browser refused, or what didn't come to be in time."""


class Browser:
    def __init__(self):
        self.place = tempfile.TemporaryDirectory(prefix="page_browser.", ignore_cleanup_errors=True)
        flags = ["--headless=new", "--no-sandbox", "--disable-gpu", "--disable-dev-shm-usage", "--no-first-run",
                 "--disable-background-networking", "--disable-component-update", "--hide-scrollbars",
                 f"--user-data-dir={self.place.name}", "--remote-debugging-pipe", "about:blank"]
        theirs_in, ours_out = os.pipe()
        ours_in, theirs_out = os.pipe()
        ends = [fcntl.fcntl(end, fcntl.F_DUPFD, 20) for end in (theirs_in, theirs_out)]

        def place_ends():
            os.dup2(ends[0], 3)
            os.dup2(ends[1], 4)

        self.process = subprocess.Popen([program(), *flags], pass_fds=(3, 4), preexec_fn=place_ends,
                                        stdin=subprocess.DEVNULL, stdout=subprocess.DEVNULL, stderr=subprocess.DEVNULL)
        for end in (theirs_in, theirs_out, *ends):
            os.close(end)
        self.out = os.fdopen(ours_out, "wb", buffering=0)
        self.inward = os.fdopen(ours_in, "rb")
        self.count = 0
        self.answers = {}
        self.events = queue.Queue()
        self.answered = threading.Condition()
        threading.Thread(target=self.listen, daemon=True).start()

    def listen(self):
        rest = b""
        while piece := self.inward.read1(1 << 16):
            *messages, rest = (rest + piece).split(b"\0")
            for message in map(json.loads, messages):
                if "id" in message:
                    with self.answered:
                        self.answers[message["id"]] = message
                        self.answered.notify_all()
                else:
                    self.events.put(message)

    def call(self, method, session=None, **parameters):
        self.count += 1
        number = self.count
        message = {"id": number, "method": method, "params": parameters}
        self.out.write(json.dumps({**message, "sessionId": session} if session else message).encode() + b"\0")
        with self.answered:
            if not self.answered.wait_for(lambda: number in self.answers, WITHIN):
                raise Failed(f"{method} wasn't answered")
            answer = self.answers.pop(number)
        if "error" in answer:
            raise Failed(f"{method}: {answer['error']['message']}")
        return answer["result"]

    def close(self):
        try:
            self.call("Browser.close")
            self.process.wait(10)
        except (Failed, OSError, subprocess.TimeoutExpired):
            self.process.kill()
        self.process.wait()
        self.place.cleanup()


class Page:
    """A tab with a page. It keeps the addresses that the page asked for, those that it posted to, and what it
    complained of."""

    def __init__(self, browser, url, scheme="light", width=1440, height=900):
        self.browser = browser
        target = browser.call("Target.createTarget", url="about:blank")["targetId"]
        self.target = target
        self.session = browser.call("Target.attachToTarget", targetId=target, flatten=True)["sessionId"]
        self.asked = []
        self.posted = []
        self.complaints = []
        for part in ("Page", "Runtime", "Network", "Log", "Accessibility"):
            self.call(f"{part}.enable")
        self.call("Emulation.setFocusEmulationEnabled", enabled=True)
        self.size(width, height)
        self.scheme(scheme)
        self.call("Page.navigate", url=url)

    def call(self, method, **parameters):
        return self.browser.call(method, self.session, **parameters)

    def close(self):
        self.browser.call("Target.closeTarget", targetId=self.target)

    def size(self, width, height):
        self.call("Emulation.setDeviceMetricsOverride", width=width, height=height, deviceScaleFactor=1, mobile=False)

    def scheme(self, name):
        self.call("Emulation.setEmulatedMedia", features=[{"name": "prefers-color-scheme", "value": name}])

    def offline(self, is_offline):
        rates = {"latency": 0, "downloadThroughput": -1, "uploadThroughput": -1}
        self.call("Network.emulateNetworkConditions", offline=is_offline, **rates)

    def gather(self):
        """Takes in the events that came since."""
        while not self.browser.events.empty():
            event = self.browser.events.get()
            if event.get("sessionId") != self.session:
                continue
            said = event["params"]
            if event["method"] == "Network.requestWillBeSent":
                self.asked.append(said["request"]["url"])
                if said["request"]["method"] == "POST":
                    self.posted.append(said["request"]["url"])
            elif event["method"] == "Runtime.exceptionThrown":
                self.complaints.append(said["exceptionDetails"].get("exception", {}).get("description", "an exception"))
            elif event["method"] == "Log.entryAdded" and said["entry"]["source"] in COMPLAINTS:
                self.complaints.append(said["entry"]["text"])

    def run(self, script):
        """The value of an expression on the page."""
        answer = self.call("Runtime.evaluate", expression=script, returnByValue=True, awaitPromise=True)
        if "exceptionDetails" in answer:
            raise Failed(answer["exceptionDetails"].get("exception", {}).get("description", script))
        return answer["result"].get("value")

    def until(self, script, what, within=WITHIN):
        """Waits until an expression is true, and what the page knows by then is drawn."""
        value = self.wait(script, what, within)
        self.wait("typeof drawing === 'boolean' && !drawing", "the page draws", within)
        return value

    def wait(self, script, what, within):
        end = time.monotonic() + within
        while time.monotonic() < end:
            if value := self.run(script):
                return value
            time.sleep(0.05)
        raise Failed(f"not within {within} s: {what}")

    def key(self, name, modifiers=0):
        more = {"text": "\r"} if name == "Enter" else {"text": " "} if name == " " else {}
        said = {"key": name, "code": name, "windowsVirtualKeyCode": KEYS[name], "modifiers": modifiers}
        self.call("Input.dispatchKeyEvent", type="keyDown", **said, **more)
        self.call("Input.dispatchKeyEvent", type="keyUp", **said)

    def type(self, text):
        self.call("Input.insertText", text=text)

    def picture(self, path):
        said = self.call("Page.captureScreenshot", format="png", optimizeForSpeed=False)
        path.write_bytes(base64.b64decode(said["data"]))
