"""A real browser for tests: Debian's chromium without a window, driven over its debugging pipe."""
# SPDX-License-Identifier: Apache-2.0
import base64
import json
import os
import select
import shutil
import signal
import subprocess
import tempfile
import time

APT = ["apt-get", "-o", "DPkg::Lock::Timeout=120", "-o", "Acquire::Retries=0", "-o", "Acquire::http::Timeout=10"]


def installed(package, path):
    """Whether this command or file of a Debian package is there. Where it is missing it is installed, if that can be."""
    if not is_there(path) and os.geteuid() == 0 and shutil.which("apt-get"):
        for words in (["install", "-y", "--no-install-recommends", package], ["update"], ["install", "-y", "--no-install-recommends", package]):
            if not is_there(path):
                environment = {**os.environ, "DEBIAN_FRONTEND": "noninteractive"}
                subprocess.run([*APT, *words], env=environment, stdin=subprocess.DEVNULL, capture_output=True)
    return is_there(path)


def is_there(path):
    return os.path.exists(path) if path.startswith("/") else shutil.which(path) is not None


class Browser:
    """One page of the browser; what it says is kept in `events`."""

    def __init__(self, width=760, height=1000, *options):
        self.folder = tempfile.TemporaryDirectory(prefix="browser-", ignore_cleanup_errors=True)
        reads, self.to = os.pipe()
        self.source, writes = os.pipe()
        words = ["chromium", "--headless=new", "--no-sandbox", "--disable-gpu", "--hide-scrollbars", "--no-first-run", "--remote-debugging-pipe"]
        words += [f"--window-size={width},{height}", f"--user-data-dir={self.folder.name}", *options, "about:blank"]
        self.process = subprocess.Popen(
            ["bash", "-c", f'exec "$@" 3<&{reads} 4>&{writes}', "browser", *words],
            pass_fds=(reads, writes), stdin=subprocess.DEVNULL, stdout=subprocess.DEVNULL, stderr=subprocess.DEVNULL, start_new_session=True,
        )  # fmt: skip
        os.close(reads)
        os.close(writes)
        self.rest, self.number, self.events, self.session = b"", 0, [], None
        pages = [target for target in self.call("Target.getTargets")["targetInfos"] if target["type"] == "page"]
        self.session = self.call("Target.attachToTarget", targetId=pages[0]["targetId"], flatten=True)["sessionId"]
        for domain in ("Page", "Runtime", "Log"):
            self.call(f"{domain}.enable")
        self.call("Page.setLifecycleEventsEnabled", enabled=True)

    def read(self):
        while b"\0" not in self.rest:
            part = os.read(self.source, 1 << 16)
            if not part:
                raise EOFError("the browser has ended")
            self.rest += part
        message, self.rest = self.rest.split(b"\0", 1)
        return json.loads(message)

    def call(self, method, **params):
        self.number += 1
        message = {"id": self.number, "method": method, "params": params, **({"sessionId": self.session} if self.session else {})}
        data = json.dumps(message).encode() + b"\0"
        while data:
            data = data[os.write(self.to, data) :]
        while (answer := self.read()).get("id") != message["id"]:
            self.events.append(answer)
        if "error" in answer:
            raise RuntimeError(answer["error"])
        return answer["result"]

    def open(self, address):
        """Opens a page anew, and waits until it is loaded; the page before it may have the same address."""
        self.events = []
        loader = self.call("Page.navigate", url=address)["loaderId"]
        if not self.wait(lambda: self.is_loaded(loader), 60):
            raise RuntimeError(f"{address} is not loaded within a minute")

    def is_loaded(self, loader):
        while b"\0" in self.rest or select.select([self.source], [], [], 0)[0]:
            self.events.append(self.read())
        said = [event["params"] for event in self.events if event.get("method") == "Page.lifecycleEvent"]
        return any(event["name"] == "load" and event["loaderId"] == loader for event in said)

    def js(self, expression):
        answer = self.call("Runtime.evaluate", expression=expression, returnByValue=True, awaitPromise=True)
        if "exceptionDetails" in answer:
            raise RuntimeError(answer["exceptionDetails"])
        return answer["result"].get("value")

    def wait(self, condition, seconds=15.0):
        """Whether this expression, or this function, becomes true in time."""
        end = time.monotonic() + seconds
        while not (value := condition() if callable(condition) else self.js(condition)) and time.monotonic() < end:
            time.sleep(0.02)
        return bool(value)

    def comes(self, selector, x, y, most=1.5):
        """Whether the middle of an element comes to this place of the window."""
        return self.wait(lambda: all(abs(p - q) <= most for p, q in zip(self.middle(selector), (x, y))), 5)

    def errors(self):
        """What the console has of errors, exceptions and warnings."""
        kinds = ("Runtime.exceptionThrown", "Log.entryAdded")
        said = [event["params"] for event in self.events if event.get("method") == "Runtime.consoleAPICalled" and event["params"]["type"] in ("error", "assert")]
        return said + [event["params"] for event in self.events if event.get("method") in kinds]

    def mouse(self, kind, x, y, **more):
        self.call("Input.dispatchMouseEvent", type=kind, x=x, y=y, button="left", **more)

    def drag(self, x, y, to_x, to_y, steps=8):
        self.mouse("mousePressed", x, y, clickCount=1)
        for k in range(1, steps + 1):
            self.mouse("mouseMoved", x + (to_x - x) * k / steps, y + (to_y - y) * k / steps, buttons=1)
        self.mouse("mouseReleased", to_x, to_y, clickCount=1)

    def finger(self, x, y, to_x, to_y, steps=8):
        self.call("Input.dispatchTouchEvent", type="touchStart", touchPoints=[{"x": x, "y": y}])
        for k in range(1, steps + 1):
            self.call("Input.dispatchTouchEvent", type="touchMove", touchPoints=[{"x": x + (to_x - x) * k / steps, "y": y + (to_y - y) * k / steps}])
        self.call("Input.dispatchTouchEvent", type="touchEnd", touchPoints=[])

    def key(self, name, code, modifiers=0, text=None):
        said = {"key": name, "code": name, "windowsVirtualKeyCode": code, "modifiers": modifiers}
        self.call("Input.dispatchKeyEvent", type="keyDown", **said, **({"text": text} if text else {}))
        self.call("Input.dispatchKeyEvent", type="keyUp", **said)

    def type(self, text):
        for c in text:
            if c == "\n":
                self.key("Enter", 13, text="\r")
            else:
                self.call("Input.dispatchKeyEvent", type="char", text=c)

    def middle(self, selector):
        """The middle of an element in the window."""
        return self.js(f"(() => {{ const b = document.querySelector({json.dumps(selector)}).getBoundingClientRect(); return [b.x + b.width / 2, b.y + b.height / 2]; }})()")

    def media(self, kind="", scheme="light"):
        self.call("Emulation.setEmulatedMedia", media=kind, features=[{"name": "prefers-color-scheme", "value": scheme}])

    def window(self, width, height, mobile=False):
        self.call("Emulation.setDeviceMetricsOverride", width=width, height=height, deviceScaleFactor=1, mobile=mobile)

    def shot(self, path, whole=False):
        options = {"captureBeyondViewport": True} if whole else {}
        if whole:
            size = self.call("Page.getLayoutMetrics")["cssContentSize"]
            options["clip"] = {"x": 0, "y": 0, "width": size["width"], "height": size["height"], "scale": 1}
        with open(path, "wb") as file:
            file.write(base64.b64decode(self.call("Page.captureScreenshot", **options)["data"]))

    def pdf(self, path):
        with open(path, "wb") as file:
            file.write(base64.b64decode(self.call("Page.printToPDF", preferCSSPageSize=True)["data"]))

    def close(self):
        try:
            self.call("Browser.close")
            self.process.wait(10)
        except (OSError, EOFError, RuntimeError, subprocess.TimeoutExpired):
            pass
        if self.process.poll() is None:
            os.killpg(self.process.pid, signal.SIGKILL)
            self.process.wait()
        self.folder.cleanup()
