"""A browser without a window, driven over a pipe by the DevTools protocol: Chromium, as Debian and others install it."""

import contextlib
import json
import os
import select
import shutil
import subprocess
import tempfile
import time

NAMES = ("chromium", "chromium-browser", "google-chrome", "chrome")
# Of one answer of the browser, in seconds.
MOST = 60
OPTIONS = "--headless=new --disable-gpu --no-first-run --no-sandbox --disable-extensions --disable-background-networking --disable-dev-shm-usage"


def found():
    """The path of a browser, or None where there is none."""
    return next(filter(None, map(shutil.which, NAMES)), None)


class Browser:
    """A browser with one page: commands are answered in turn, and what it tells in between is kept."""

    def __init__(self, inlet, outlet):
        self.inlet, self.outlet, self.rest, self.number, self.told, self.session = inlet, outlet, b"", 0, [], None
        target = self.ask("Target.createTarget", url="about:blank")["targetId"]
        self.session = self.ask("Target.attachToTarget", targetId=target, flatten=True)["sessionId"]
        for part in ("Page", "Runtime", "Log", "Network", "DOM", "CSS"):
            self.ask(f"{part}.enable")
        self.ask("Emulation.setDeviceMetricsOverride", width=1400, height=1000, deviceScaleFactor=1, mobile=False)

    def read(self):
        """The next message of the browser."""
        until = time.monotonic() + MOST
        while b"\0" not in self.rest:
            if not select.select([self.outlet], [], [], max(0, until - time.monotonic()))[0]:
                raise SystemExit("the browser does not answer")
            more = os.read(self.outlet, 1 << 16)
            if not more:
                raise SystemExit("the browser has ended")
            self.rest += more
        message, _, self.rest = self.rest.partition(b"\0")
        return json.loads(message)

    def ask(self, method, **words):
        """The answer to a command."""
        self.number += 1
        command = {"id": self.number, "method": method, "params": words, **({"sessionId": self.session} if self.session else {})}
        os.write(self.inlet, json.dumps(command).encode() + b"\0")
        while True:
            message = self.read()
            if message.get("id") == self.number:
                if "error" in message:
                    raise SystemExit(f"{method}: {message['error']}")
                return message["result"]
            self.told.append(message)

    def load(self, url):
        """Loads a page to its end."""
        self.told.clear()
        self.ask("Page.navigate", url=url)
        while not any(one.get("method") == "Page.loadEventFired" for one in self.told):
            self.told.append(self.read())

    def faults(self):
        """What scripts threw, what the page said of errors, and what it asked for beside itself."""
        for one in self.told:
            method, words = one.get("method"), one.get("params", {})
            if method == "Runtime.exceptionThrown":
                yield f"a script threw: {words['exceptionDetails']['text']}"
            elif method == "Log.entryAdded" and words["entry"]["level"] == "error":
                yield f"an error: {words['entry']['text']}"
            elif method == "Network.requestWillBeSent" and words["type"] != "Document":
                yield f"it asks for {words['request']['url']}"

    def value(self, expression):
        """What an expression comes to in the page."""
        answer = self.ask("Runtime.evaluate", expression=expression, returnByValue=True)
        if "exceptionDetails" in answer:
            raise SystemExit(f"{expression}: {answer['exceptionDetails']}")
        return answer["result"].get("value")

    def click(self, x, y):
        for kind in ("mousePressed", "mouseReleased"):
            self.ask("Input.dispatchMouseEvent", type=kind, x=x, y=y, button="left", clickCount=1)


@contextlib.contextmanager
def opened(path):
    """The browser at this path, until the end of the block."""
    (theirs, inlet), (outlet, ours) = os.pipe(), os.pipe()
    with tempfile.TemporaryDirectory(prefix="browser-", ignore_cleanup_errors=True) as room:
        # The browser reads commands from the descriptor 3 and answers on 4.
        shell = f'exec "$0" "$@" 3<&{theirs} 4>&{ours}'
        words = ["sh", "-c", shell, path, *OPTIONS.split(), "--remote-debugging-pipe", f"--user-data-dir={room}", "about:blank"]
        quiet = {"stdin": subprocess.DEVNULL, "stdout": subprocess.DEVNULL, "stderr": subprocess.DEVNULL}
        with subprocess.Popen(words, pass_fds=(theirs, ours), **quiet) as run:
            os.close(theirs)
            os.close(ours)
            try:
                yield Browser(inlet, outlet)
            finally:
                run.terminate()
                try:
                    run.wait(timeout=20)
                except subprocess.TimeoutExpired:
                    run.kill()
                os.close(inlet)
                os.close(outlet)
