"""A page in a headless Chromium that is driven through a pipe."""

import base64
import json
import os
import select
import shutil
import signal
import subprocess
import tempfile
import time

NAMES = ("chromium", "chromium-browser", "google-chrome")
# How long an answer of the browser may take.
SECONDS = 60


def found():
    """The browser of this machine, or None."""
    return next(filter(None, map(shutil.which, NAMES)), None)


class Page:
    """The page of an address, in a browser of its own that ends with the context."""

    def __init__(self, address, width=1000, height=1000):
        self.address, self.size, self.number = address, f"{width},{height}", 0
        self.home = tempfile.TemporaryDirectory(prefix="svo-browser-")
        commands, self.commands = os.pipe()
        self.answers, answers = os.pipe()
        words = [found(), "--headless=new", "--no-sandbox", "--disable-gpu", "--disable-dev-shm-usage", "--no-first-run", "--disable-background-networking"]
        words += ["--disable-component-update", f"--user-data-dir={self.home.name}", f"--window-size={self.size}", "--remote-debugging-pipe", "about:blank"]
        # The browser reads commands from its file 3 and writes answers to its file 4.
        shell = f'exec "$@" 3<&{commands} 4>&{answers}'
        quiet = {"stdin": subprocess.DEVNULL, "stdout": subprocess.DEVNULL, "stderr": subprocess.DEVNULL}
        self.browser = subprocess.Popen(["bash", "-c", shell, "bash", *words], pass_fds=(commands, answers), start_new_session=True, **quiet)
        os.close(commands)
        os.close(answers)
        self.held, self.session = b"", None
        try:
            self.load()
        except (RuntimeError, OSError):
            self.__exit__()
            raise

    def __enter__(self):
        return self

    def load(self):
        """Opens the page in a tab of its own, and waits until it is there."""
        target = self.call("Target.createTarget", url=self.address)["targetId"]
        self.session = self.call("Target.attachToTarget", targetId=target, flatten=True)["sessionId"]
        self.until(f"document.readyState === 'complete' && location.href === {json.dumps(self.address)}")

    def __exit__(self, *_):
        os.close(self.commands)
        os.close(self.answers)
        try:
            os.killpg(self.browser.pid, signal.SIGKILL)
        except ProcessLookupError:
            pass
        self.browser.wait()
        shutil.rmtree(self.home.name, ignore_errors=True)

    def call(self, method, **words):
        """The browser's answer to a command."""
        self.number += 1
        asked = {"id": self.number, "method": method, "params": words}
        if self.session:
            asked["sessionId"] = self.session
        os.write(self.commands, json.dumps(asked).encode() + b"\0")
        while True:
            told = self.told()
            if told.get("id") == self.number:
                if "error" in told:
                    raise RuntimeError(f"{method}: {told['error']['message']}")
                return told["result"]

    def told(self):
        while b"\0" not in self.held:
            is_ready = select.select([self.answers], [], [], SECONDS)[0]
            more = os.read(self.answers, 1 << 20) if is_ready else b""
            if not more:
                raise RuntimeError("the browser ended" if is_ready else "the browser does not answer")
            self.held += more
        text, self.held = self.held.split(b"\0", 1)
        return json.loads(text)

    def value(self, script):
        """The value of an expression in the page."""
        told = self.call("Runtime.evaluate", expression=script, returnByValue=True, awaitPromise=True)
        if "exceptionDetails" in told:
            raise RuntimeError(told["exceptionDetails"]["exception"].get("description", script))
        return told["result"].get("value")

    def until(self, script, seconds=SECONDS):
        """Waits until an expression is true."""
        end = time.monotonic() + seconds
        while not self.value(script):
            if time.monotonic() > end:
                raise RuntimeError(f"never came: {script}")
            time.sleep(0.05)

    def choose(self, selector, path):
        """Chooses a file in a file input, as a person would."""
        root = self.call("DOM.getDocument")["root"]["nodeId"]
        node = self.call("DOM.querySelector", nodeId=root, selector=selector)["nodeId"]
        self.call("DOM.setFileInputFiles", files=[os.path.abspath(path)], nodeId=node)

    def picture(self):
        """What the page shows, as PNG."""
        return base64.b64decode(self.call("Page.captureScreenshot", format="png")["data"])
