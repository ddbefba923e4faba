"""Headless browsers that tests drive: `show` a window, `open` a page, `run` a function's body in it, `press` a key, and take a `picture`.

Chromium is told by its pipe for debuggers, and Firefox by Marionette over a local port; each has a profile of its own, which goes with it.
"""
import base64
import json
import os
import shutil
import socket
import subprocess
import tempfile
import time

PATIENCE = 60
# The breadth of the narrowest window of Firefox, in pixels.
NARROWEST = 450
CODES = {"Enter": ("\ue007", 13), "Tab": ("\ue004", 9), "End": ("\ue010", 35), "Home": ("\ue011", 36), "ArrowRight": ("\ue014", 39)}
SHIFT = "\ue008"


class Browser:
    """What both have: the process and its profile, from the beginning of a `with` to its end."""

    def __init__(self, path):
        self.path, self.profile, self.process = path, tempfile.mkdtemp(prefix="web-test-"), None

    def launch(self, *words, **more):
        more = {**dict.fromkeys(("stdin", "stdout", "stderr"), subprocess.DEVNULL), **more}
        self.process = subprocess.Popen([self.path, *words], env={**os.environ, "HOME": self.profile}, **more)

    def __enter__(self):
        try:
            self.start()
        except BaseException:
            self.__exit__()
            raise
        return self

    def __exit__(self, *_):
        if self.process:
            self.process.terminate()
            try:
                self.process.wait(PATIENCE)
            except subprocess.TimeoutExpired:
                self.process.kill()
        shutil.rmtree(self.profile, ignore_errors=True)

    def wait(self, body):
        """Runs a body until what it answers is true."""
        end = time.monotonic() + PATIENCE
        while not (found := self.run(body)):
            if time.monotonic() > end:
                raise TimeoutError(f"{type(self).__name__}: never {body}")
            time.sleep(0.05)
        return found


class Chromium(Browser):
    NAMES = ("chromium", "chromium-browser", "google-chrome")
    HAS_DARK = True

    def start(self):
        (self.theirs, self.out), (self.back, self.answers) = os.pipe(), os.pipe()
        self.launch("--headless", "--no-sandbox", "--disable-gpu", "--disable-dev-shm-usage", "--hide-scrollbars", "--remote-debugging-pipe",
                    f"--user-data-dir={self.profile}", "about:blank", close_fds=False, preexec_fn=self.plug)
        os.close(self.theirs)
        os.close(self.answers)
        self.asked, self.session, self.rest = 0, None, b""
        target = self.tell("Target.createTarget", url="about:blank")["targetId"]
        self.session = self.tell("Target.attachToTarget", targetId=target, flatten=True)["sessionId"]

    def plug(self):
        """In the browser's process: it reads requests at 3 and writes answers at 4."""
        reads, writes = os.dup(self.theirs), os.dup(self.answers)
        os.dup2(reads, 3)
        os.dup2(writes, 4)

    def tell(self, method, **words):
        self.asked += 1
        request = {"id": self.asked, "method": method, "params": words, **({"sessionId": self.session} if self.session else {})}
        os.write(self.out, json.dumps(request).encode() + b"\0")
        while (answer := self.heard()).get("id") != self.asked:
            pass
        if "error" in answer:
            raise RuntimeError(f"{method}: {answer['error']}")
        return answer["result"]

    def heard(self):
        while b"\0" not in self.rest:
            piece = os.read(self.back, 1 << 20)
            if not piece:
                raise EOFError("chromium is gone")
            self.rest += piece
        message, _, self.rest = self.rest.partition(b"\0")
        return json.loads(message)

    def show(self, width, height, scale, media):
        """A window of this size, whose user prefers what `media` says."""
        self.tell("Emulation.setDeviceMetricsOverride", width=width, height=height, deviceScaleFactor=scale, mobile=False)
        self.tell("Emulation.setEmulatedMedia", features=[{"name": name, "value": value} for name, value in media.items()])

    def open(self, url):
        self.tell("Page.navigate", url="about:blank")
        self.tell("Page.navigate", url=url)

    def run(self, body):
        answer = self.tell("Runtime.evaluate", expression=f"(() => {{ {body} }})()", returnByValue=True)
        if "exceptionDetails" in answer:
            raise RuntimeError(answer["exceptionDetails"])
        return answer["result"].get("value")

    def spent(self):
        """The milliseconds of a processor that the page has taken so far."""
        self.tell("Performance.enable", timeDomain="threadTicks")
        return next(1000 * it["value"] for it in self.tell("Performance.getMetrics")["metrics"] if it["name"] == "TaskDuration")

    def press(self, key):
        shift, key = 8 if key.startswith("Shift") else 0, key.removeprefix("Shift")
        words = {"key": key, "windowsVirtualKeyCode": CODES[key][1], "modifiers": shift} if key in CODES else {"key": key}
        text = "\r" if key == "Enter" else key if len(key) == 1 else ""
        self.tell("Input.dispatchKeyEvent", type="keyDown", **words, **({"text": text} if text else {}))
        self.tell("Input.dispatchKeyEvent", type="keyUp", **words)

    def picture(self):
        return base64.b64decode(self.tell("Page.captureScreenshot", format="png")["data"])


class Firefox(Browser):
    NAMES = ("firefox", "firefox-esr")
    HAS_DARK = False

    def start(self):
        with socket.socket() as free:
            free.bind(("127.0.0.1", 0))
            port = free.getsockname()[1]
        with open(f"{self.profile}/user.js", "w", encoding="utf-8") as settings:
            settings.write(f'user_pref("marionette.port", {port});\nuser_pref("datareporting.policy.dataSubmissionEnabled", false);\n')
            settings.write('user_pref("ui.prefersReducedMotion", 1);\n')
        self.launch("--headless", "--marionette", "--no-remote", "--profile", self.profile)
        self.asked, self.socket = 0, self.connected(port)
        self.stream = self.socket.makefile("rb")
        self.message()
        self.tell("WebDriver:NewSession", capabilities={"alwaysMatch": {"acceptInsecureCerts": True}})

    def connected(self, port):
        end = time.monotonic() + PATIENCE
        while True:
            try:
                return socket.create_connection(("127.0.0.1", port), PATIENCE)
            except ConnectionRefusedError:
                if time.monotonic() > end or self.process.poll() is not None:
                    raise
                time.sleep(0.1)

    def message(self):
        size = b""
        while not size.endswith(b":"):
            size += self.stream.read(1)
        return json.loads(self.stream.read(int(size[:-1])))

    def tell(self, name, **words):
        self.asked += 1
        request = json.dumps([0, self.asked, name, words]).encode()
        self.socket.sendall(b"%d:%s" % (len(request), request))
        _, _, error, answer = self.message()
        if error:
            raise RuntimeError(f"{name}: {error}")
        return answer

    def show(self, width, height, scale, media):
        """A window of this size, or of the least that Firefox has; its user always prefers less motion, and the scale is left out."""
        self.tell("WebDriver:SetWindowRect", width=max(width, NARROWEST), height=height + 85)

    def open(self, url):
        self.tell("WebDriver:Navigate", url="about:blank")
        self.tell("WebDriver:Navigate", url=url)

    def run(self, body):
        return self.tell("WebDriver:ExecuteScript", script=body, args=[])["value"]

    def press(self, key):
        shift, key = [SHIFT] if key.startswith("Shift") else [], key.removeprefix("Shift")
        keys = [*shift, CODES[key][0] if key in CODES else key]
        actions = [{"type": "keyDown", "value": it} for it in keys] + [{"type": "keyUp", "value": it} for it in reversed(keys)]
        self.tell("WebDriver:PerformActions", actions=[{"type": "key", "id": "keys", "actions": actions}])

    def spent(self):
        """Isn't told."""
        return 0

    def picture(self):
        return base64.b64decode(self.tell("WebDriver:TakeScreenshot", full=False)["value"])


def found():
    """The browsers that are there: each kind with its path, or None where it isn't."""
    return {kind: next(filter(None, map(shutil.which, kind.NAMES)), None) for kind in (Chromium, Firefox)}
