"""A headless Chromium that a test steers by the pipe of its developer tools."""

from __future__ import annotations

import base64
import glob
import json
import os
import pathlib
import select
import shutil
import subprocess
import time
from typing import Any

# In so many seconds a browser on a busy machine has answered.
PATIENCE = 600.0


def program() -> str | None:
    """The Chromium of this machine, if it has one."""
    for name in ("chromium", "chromium-browser", "google-chrome", "chrome", "headless_shell"):
        if found := shutil.which(name):
            return found
    for path in glob.glob(os.path.expanduser("~/.cache/ms-playwright/chromium*/chrome-linux*/*")):
        if os.path.basename(path) in ("chrome", "headless_shell") and os.access(path, os.X_OK):
            return path
    return None


class Page:
    """A page that is open in a browser of its own."""

    def __init__(self, browser: str, room: str, address: str) -> None:
        """Opens an address. The browser has its files in a folder of the room."""
        theirs, self.to = os.pipe()
        self.back, ours = os.pipe()

        def hand_over() -> None:
            # The browser reads from 3 and writes to 4, which may be in use here.
            for place, file in ((100, theirs), (101, ours)):
                os.dup2(file, place)
            for place, file in ((3, 100), (4, 101)):
                os.dup2(file, place)

        words = ["--headless", "--no-sandbox", "--disable-gpu", "--remote-debugging-pipe", "--window-size=1400,900"]
        self.process = subprocess.Popen([browser, *words, f"--user-data-dir={room}/steered"], preexec_fn=hand_over,
                                        close_fds=False, stdin=subprocess.DEVNULL, stdout=subprocess.DEVNULL,
                                        stderr=subprocess.DEVNULL)
        os.close(theirs)
        os.close(ours)
        self.rest, self.asked, self.said = b"", 0, list[str]()
        self.session: str | None = None
        target = self.ask("Target.createTarget", url="about:blank")["targetId"]
        self.session = self.ask("Target.attachToTarget", targetId=target, flatten=True)["sessionId"]
        self.ask("Page.enable")
        self.ask("Performance.enable", timeDomain="threadTicks")
        self.ask("Page.navigate", url=address)
        while "Page.loadEventFired" not in self.said:
            self.read()

    def read(self) -> dict[str, Any]:
        """The next message of the browser."""
        late = time.monotonic() + PATIENCE
        while b"\0" not in self.rest:
            if not select.select([self.back], [], [], max(0.0, late - time.monotonic()))[0]:
                raise TimeoutError("the browser does not answer")
            got = os.read(self.back, 1 << 20)
            if not got:
                raise EOFError("the browser has ended")
            self.rest += got
        text, self.rest = self.rest.split(b"\0", 1)
        message: dict[str, Any] = json.loads(text)
        self.said.append(message.get("method", ""))
        return message

    def ask(self, method: str, **words: object) -> dict[str, Any]:
        """What the browser answers to a call of its developer tools."""
        self.asked += 1
        call: dict[str, object] = {"id": self.asked, "method": method, "params": words}
        if self.session:
            call["sessionId"] = self.session
        os.write(self.to, json.dumps(call).encode() + b"\0")
        while True:
            message = self.read()
            if message.get("id") == self.asked:
                if "error" in message:
                    raise ValueError(message["error"]["message"])
                result: dict[str, Any] = message["result"]
                return result

    def value(self, script: str) -> Any:
        """What a piece of script comes to in the page, after its promise if it is one."""
        came = self.ask("Runtime.evaluate", expression=script, awaitPromise=True, returnByValue=True)
        if "exceptionDetails" in came:
            raise ValueError(came["exceptionDetails"]["exception"]["description"])
        return came["result"].get("value")

    def until(self, script: str) -> None:
        """Waits until a piece of script comes to something that is true."""
        late = time.monotonic() + PATIENCE
        while not self.value(script):
            if time.monotonic() > late:
                raise TimeoutError(f"it never was so: {script}")
            time.sleep(0.05)

    def work(self) -> float:
        """The milliseconds of the processor that the page's thread took so far."""
        seconds = {it["name"]: float(it["value"]) for it in self.ask("Performance.getMetrics")["metrics"]}
        return 1000 * seconds["TaskDuration"]

    def screenshot(self, path: str | pathlib.Path) -> None:
        """Writes what the window shows as PNG."""
        pathlib.Path(path).write_bytes(base64.b64decode(self.ask("Page.captureScreenshot", format="png")["data"]))

    def close(self) -> None:
        """Ends the browser."""
        self.session = None
        try:
            self.ask("Browser.close")
        except (EOFError, OSError, TimeoutError):
            self.process.kill()
        self.process.wait()
        os.close(self.to)
        os.close(self.back)
