"""Drives a headless Chromium by its debugging pipe, with the standard library alone."""
import base64
import json
import os
import shutil
import subprocess
import tempfile
import time

NAMES = ("chromium", "chromium-browser", "google-chrome", "chrome")


class Browser:
    """A browser with one page, which is closed at the end of a `with`."""

    def __init__(self, width=1280, height=900):
        program = next(filter(None, map(shutil.which, NAMES)), None)
        if not program:
            raise SystemExit("there is no " + " and no ".join(NAMES))
        self.folder = tempfile.TemporaryDirectory()
        to_read, self.writing = os.pipe()
        self.reading, to_write = os.pipe()
        words = [program, "--headless=new", "--no-sandbox", "--disable-gpu", "--disable-dev-shm-usage"]
        words += ["--no-first-run", f"--user-data-dir={self.folder.name}", f"--window-size={width},{height}"]
        words += ["--remote-debugging-pipe", "about:blank"]
        moved = ["bash", "-c", f'exec 3<&{to_read} 4>&{to_write}; exec "$@"', "browser", *words]
        how = {"pass_fds": (to_read, to_write), "stdout": subprocess.DEVNULL, "stderr": subprocess.DEVNULL}
        self.process = subprocess.Popen(moved, **how)
        os.close(to_read)
        os.close(to_write)
        self.count, self.rest, self.answers, self.session = 0, b"", {}, None
        targets = self.call("Target.getTargets")["targetInfos"]
        target = next(it["targetId"] for it in targets if it["type"] == "page")
        self.session = self.call("Target.attachToTarget", targetId=target, flatten=True)["sessionId"]
        for domain in ("Page", "Runtime"):
            self.call(f"{domain}.enable")

    def __enter__(self):
        return self

    def __exit__(self, *_):
        os.close(self.writing)
        try:
            self.process.wait(10)
        except subprocess.TimeoutExpired:
            self.process.kill()
            self.process.wait()
        os.close(self.reading)
        self.folder.cleanup()

    def call(self, method, **params):
        self.count += 1
        message = {"id": self.count, "method": method, "params": params}
        if self.session:
            message["sessionId"] = self.session
        os.write(self.writing, json.dumps(message).encode() + b"\0")
        while self.count not in self.answers:
            part = os.read(self.reading, 1 << 20)
            if not part:
                raise SystemExit("the browser has ended")
            *whole, self.rest = (self.rest + part).split(b"\0")
            for it in map(json.loads, whole):
                if "id" in it:
                    self.answers[it["id"]] = it
        answer = self.answers.pop(self.count)
        if "error" in answer:
            raise RuntimeError(f"{method}: {answer['error']}")
        return answer["result"]

    def value(self, expression):
        """What an expression of the page gives, where it is a promise once that is kept."""
        answer = self.call("Runtime.evaluate", expression=expression, awaitPromise=True, returnByValue=True)
        if "exceptionDetails" in answer:
            raise RuntimeError(json.dumps(answer["exceptionDetails"])[:600])
        return answer["result"].get("value")

    def until(self, expression, seconds=30):
        end = time.monotonic() + seconds
        while not (found := self.value(expression)):
            if time.monotonic() > end:
                raise RuntimeError(f"not so after {seconds} s: {expression}")
            time.sleep(0.03)
        return found

    def open(self, address):
        self.call("Page.navigate", url=address)

    def press(self, key):
        """Presses a key, as Tab, or types a character."""
        text = {"text": key} if len(key) == 1 else {}
        for kind in ("keyDown", "keyUp"):
            typed = text if kind == "keyDown" else {}
            number = 9 if key == "Tab" else 0
            self.call("Input.dispatchKeyEvent", type=kind, key=key, code=key, windowsVirtualKeyCode=number, **typed)

    def look(self, width, height, dark=False, phone=False):
        """The page in a window of this size."""
        how = {"width": width, "height": height, "deviceScaleFactor": 2 if phone else 1, "mobile": phone}
        self.call("Emulation.setDeviceMetricsOverride", **how)
        scheme = "dark" if dark else "light"
        self.call("Emulation.setEmulatedMedia", features=[{"name": "prefers-color-scheme", "value": scheme}])

    def shoot(self, file, whole=False):
        shot = self.call("Page.captureScreenshot", format="png", captureBeyondViewport=whole)
        with open(file, "wb") as to:
            to.write(base64.b64decode(shot["data"]))
