"""A headless Chromium that a test drives over a pair of pipes, by the DevTools protocol."""
import json
import os
import select
import shlex
import shutil
import subprocess
import time

OPTIONS = ["--headless=new", "--no-sandbox", "--disable-gpu", "--no-first-run", "--disable-background-networking",
           "--disable-component-update", "--disable-dev-shm-usage", "--remote-debugging-pipe", "--window-size=1400,2000"]
SECONDS = 120
SHIFT = {"modifiers": 8}    # for `drag`, `wheel` and `press`


def found():
    return shutil.which("chromium")


class Browser:
    """A browser with one page. `faults` has the page's errors and console messages, and `requests` the requested addresses."""

    def __init__(self, folder):
        read, self.write_end = os.pipe()
        self.read_end, write = os.pipe()
        words = shlex.join([found(), *OPTIONS, f"--user-data-dir={folder}", "about:blank"])
        self.log = os.path.join(folder, "chromium.log")
        with open(self.log, "wb") as log:
            self.program = subprocess.Popen(["bash", "-c", f"exec {words} 3<&{read} 4>&{write}"], pass_fds=(read, write), stderr=log,
                                            stdout=log, stdin=subprocess.DEVNULL)
        os.close(read)
        os.close(write)
        self.rest, self.number, self.session, self.loaded, self.faults, self.requests = b"", 0, None, 0, [], []
        target = next(it for it in self.call("Target.getTargets")["targetInfos"] if it["type"] == "page")
        self.session = self.call("Target.attachToTarget", targetId=target["targetId"], flatten=True)["sessionId"]
        for domain in "Page", "Runtime", "Log", "Network":
            self.call(f"{domain}.enable")

    def next_message(self):
        while b"\0" not in self.rest:
            ready, _, _ = select.select([self.read_end], [], [], SECONDS)
            more = os.read(self.read_end, 1 << 20) if ready else b""
            if not more:
                with open(self.log, encoding="utf-8", errors="replace") as log:
                    raise EOFError(f"chromium ended, or sent nothing within {SECONDS} seconds: {log.read()[-1000:]}")
            self.rest += more
        message, _, self.rest = self.rest.partition(b"\0")
        return json.loads(message)

    def call(self, method, **parameters):
        """Sends a command, and returns its result. Notes the events that come before the result."""
        self.number += 1
        message = {"id": self.number, "method": method, "params": parameters}
        if self.session:
            message["sessionId"] = self.session
        os.write(self.write_end, json.dumps(message).encode() + b"\0")
        while True:
            message = self.next_message()
            if message.get("id") == self.number:
                if "error" in message:
                    raise ValueError(f"{method}: {message['error']}")
                return message["result"]
            self.note(message.get("method"), message.get("params", {}))

    def note(self, method, parameters):
        if method == "Page.loadEventFired":
            self.loaded += 1
        elif method == "Network.requestWillBeSent":
            self.requests.append(parameters["request"]["url"])
        elif method in ("Runtime.exceptionThrown", "Log.entryAdded", "Runtime.consoleAPICalled"):
            self.faults.append(json.dumps(parameters)[:500])

    def open(self, path):
        before = self.loaded
        self.call("Page.navigate", url=f"file://{path}")
        end = time.monotonic() + SECONDS
        while self.loaded == before and time.monotonic() < end:
            self.evaluate("0")
            time.sleep(0.05)

    def evaluate(self, expression):
        """Returns the value of a JavaScript expression. If it is a promise, waits for it and returns its value."""
        got = self.call("Runtime.evaluate", expression=expression, returnByValue=True, awaitPromise=True)
        if "exceptionDetails" in got:
            raise ValueError(f"{expression}: {got['exceptionDetails']}")
        return got["result"].get("value")

    def mouse(self, kind, x, y, pressed=False, clicks=1, **more):
        button = {"button": "left", "clickCount": clicks} if kind != "mouseMoved" or pressed else {}
        self.call("Input.dispatchMouseEvent", type=kind, x=x, y=y, buttons=int(pressed), **button, **more)

    def move(self, x, y):
        self.mouse("mouseMoved", x, y)

    def drag(self, start, end, **more):
        """Moves the mouse from one point to another with its button pressed."""
        self.move(*start)
        self.mouse("mousePressed", *start, True, **more)
        self.mouse("mouseMoved", *((a + b) / 2 for a, b in zip(start, end)), True, **more)
        self.mouse("mouseMoved", *end, True, **more)
        self.mouse("mouseReleased", *end, **more)

    def wheel(self, x, y, right=0, down=0, **more):
        """Turns the wheel by these numbers of pixels."""
        self.move(x, y)
        self.call("Input.dispatchMouseEvent", type="mouseWheel", x=x, y=y, deltaX=right, deltaY=down, **more)

    def press(self, key, **more):
        """Presses a key and releases it. If a key stands for a character, it is its name."""
        text = {"text": key} if len(key) == 1 else {}
        self.call("Input.dispatchKeyEvent", type="keyDown", key=key, **text, **more)
        self.call("Input.dispatchKeyEvent", type="keyUp", key=key, **more)

    def double_click(self, x, y):
        self.move(x, y)
        for clicks in (1, 2):
            self.mouse("mousePressed", x, y, True, clicks)
            self.mouse("mouseReleased", x, y, False, clicks)

    def close(self):
        self.session = None
        try:
            self.call("Browser.close")
        except (EOFError, OSError, ValueError):
            pass
        try:
            self.program.wait(timeout=10)
        except subprocess.TimeoutExpired:
            self.program.kill()
            self.program.wait()
        os.close(self.write_end)
        os.close(self.read_end)
