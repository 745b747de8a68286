"""A headless Chromium for tests and pictures, driven by its DevTools protocol over a pair of pipes. Everything has a time limit.

    with Browser() as browser:
        browser.open(url)
        browser.until("document.title != ''")

`find()` says whether there is one; the environment may name it as CHROMIUM.
"""

import base64
import fcntl
import json
import os
import select
import shutil
import signal
import subprocess
import tempfile
import time

SECONDS = 60
# Key names and the codes that go with them, where they aren't a letter or a sign.
CODES = {"ArrowLeft": 37, "ArrowRight": 39, "PageUp": 33, "PageDown": 34, "Home": 36, "End": 35, "Enter": 13, "Escape": 27, "Tab": 9}


def find():
    """The Chromium to start, or None."""
    return shutil.which(os.environ.get("CHROMIUM", "")) or shutil.which("chromium") or shutil.which("chromium-browser")


class Browser:
    """One page of a browser of its own, of width x height. `options` are added to its arguments."""

    def __init__(self, *options, width=1100, height=700):
        self.folder = tempfile.mkdtemp(prefix="browser-")
        self.next, self.held, self.events = 0, b"", []
        words = [find(), "--headless=new", "--remote-debugging-pipe", f"--user-data-dir={self.folder}", "--no-first-run",
                 "--enable-unsafe-swiftshader", "--hide-scrollbars", "--disable-dev-shm-usage", *options]
        if os.geteuid() == 0:
            words.append("--no-sandbox")
        theirs_in, self.to = os.pipe()
        self.back, theirs_out = os.pipe()
        # It reads from 3 and writes to 4. The ends are first moved away from these numbers.
        ends = [fcntl.fcntl(it, fcntl.F_DUPFD, 10) for it in (theirs_in, theirs_out)]

        def take_ends():
            os.dup2(ends[0], 3)
            os.dup2(ends[1], 4)

        self.process = subprocess.Popen([*words, "about:blank"], stdin=subprocess.DEVNULL, stdout=subprocess.DEVNULL,
                                        stderr=subprocess.DEVNULL, close_fds=False, preexec_fn=take_ends, start_new_session=True)
        for it in (theirs_in, theirs_out, *ends):
            os.close(it)
        self.session = None
        page = next(it for it in self.call("Target.getTargets")["targetInfos"] if it["type"] == "page")
        self.session = self.call("Target.attachToTarget", targetId=page["targetId"], flatten=True)["sessionId"]
        for domain in ("Runtime", "Log", "Page"):
            self.call(domain + ".enable")
        self.call("Emulation.setDeviceMetricsOverride", width=width, height=height, deviceScaleFactor=1, mobile=False)

    def __enter__(self):
        return self

    def __exit__(self, *_):
        self.close()

    def close(self):
        for it in (self.to, self.back):
            os.close(it)
        try:
            os.killpg(self.process.pid, signal.SIGKILL)
        except ProcessLookupError:
            pass
        self.process.wait()
        shutil.rmtree(self.folder, ignore_errors=True)

    def call(self, method, **params):
        """What the browser answers to a call of the protocol. Events that come meanwhile are kept."""
        self.next += 1
        message = {"id": self.next, "method": method, "params": params}
        if self.session and not method.startswith("Browser."):
            message["sessionId"] = self.session
        os.write(self.to, json.dumps(message).encode() + b"\0")
        deadline = time.monotonic() + SECONDS
        while True:
            answer = self.message(deadline)
            if answer.get("id") == self.next:
                if "error" in answer:
                    raise RuntimeError(f"{method}: {answer['error']}")
                return answer["result"]
            self.events.append(answer)

    def message(self, deadline):
        while b"\0" not in self.held:
            if not select.select([self.back], [], [], max(0, deadline - time.monotonic()))[0]:
                raise TimeoutError("the browser doesn't answer")
            got = os.read(self.back, 1 << 20)
            if not got:
                raise RuntimeError("the browser ended")
            self.held += got
        line, _, self.held = self.held.partition(b"\0")
        return json.loads(line)

    def complaints(self):
        """What the page's scripts and the browser complained about so far."""
        self.run("0")
        made = []
        for it in self.events:
            params = it.get("params", {})
            if it.get("method") == "Runtime.exceptionThrown":
                made.append(params["exceptionDetails"].get("exception", {}).get("description") or params["exceptionDetails"]["text"])
            elif it.get("method") == "Log.entryAdded" and params["entry"]["level"] in ("error", "warning"):
                made.append(f"{params['entry']['text']} {params['entry'].get('url', '')}")
        return made

    def open(self, url):
        self.call("Page.navigate", url=url)
        self.until(f"location.href === {json.dumps(url)} && document.readyState === 'complete'")

    def run(self, expression):
        """The value of an expression of JavaScript, once it has one where it is a promise."""
        found = self.call("Runtime.evaluate", expression=expression, returnByValue=True, awaitPromise=True, userGesture=True)
        if "exceptionDetails" in found:
            raise RuntimeError(f"{expression[:200]}: {found['exceptionDetails'].get('exception', {}).get('description')}")
        return found["result"].get("value")

    def until(self, condition, seconds=SECONDS):
        """Waits until an expression holds."""
        deadline = time.monotonic() + seconds
        while not self.run(condition):
            if time.monotonic() > deadline:
                raise TimeoutError(f"not within {seconds} s: {condition}")
            time.sleep(0.01)

    def key(self, key, shift=False):
        """Presses a key and lets it go."""
        code = CODES.get(key, ord(key.upper()) if len(key) == 1 else 0)
        text = {"text": "\r" if key == "Enter" else key} if len(key) == 1 or key == "Enter" else {}
        params = {"key": key, "windowsVirtualKeyCode": code, "modifiers": 8 if shift else 0}
        self.call("Input.dispatchKeyEvent", type="keyDown", **params, **text)
        self.call("Input.dispatchKeyEvent", type="keyUp", **params)

    def keys(self, text):
        for it in text:
            self.key(it)

    def mouse(self, kind, x, y, **more):
        """Moves the pointer (`mouseMoved`), or presses, lets go or turns the wheel there."""
        self.call("Input.dispatchMouseEvent", type=kind, x=x, y=y, **more)

    def picture(self, path):
        """Keeps a picture of the page."""
        data = self.call("Page.captureScreenshot", format="png")["data"]
        with open(path, "wb") as file:
            file.write(base64.b64decode(data))
