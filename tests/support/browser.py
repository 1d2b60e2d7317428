"""Headless Chromium, driven over its pipe by the DevTools protocol."""

from __future__ import annotations

import base64
import json
import os
import select
import shutil
import subprocess
import tempfile
import time
from pathlib import Path
from typing import Any

NAMES = ("chromium", "chromium-browser", "google-chrome", "chrome")
SECONDS = 120


def found() -> str | None:
    """The browser's path, if one is installed."""
    return next((path for name in NAMES if (path := shutil.which(name)) is not None), None)


class Browser:
    """One page. What its console and its log say is kept."""

    def __init__(self, path: str) -> None:
        self.folder = tempfile.TemporaryDirectory()
        words = ["--headless=new", "--no-sandbox", "--disable-gpu", "--disable-dev-shm-usage", "--no-first-run", "--disable-extensions"]
        words += ["--disable-background-networking", "--hide-scrollbars", "--remote-debugging-pipe", f"--user-data-dir={self.folder.name}"]
        theirs_in, self.commands = os.pipe()
        self.replies, theirs_out = os.pipe()
        self.process = subprocess.Popen(
            ["/bin/sh", "-c", f'exec "$0" "$@" 3<&{theirs_in} 4>&{theirs_out}', path, *words, "about:blank"],
            pass_fds=(theirs_in, theirs_out),
            stdin=subprocess.DEVNULL,
            stdout=subprocess.DEVNULL,
            stderr=subprocess.DEVNULL,
        )
        os.close(theirs_in)
        os.close(theirs_out)
        self.count = 0
        self.waiting = b""
        self.session = ""
        self.events: list[dict[str, Any]] = []
        try:
            self.attach()
        except (OSError, TimeoutError):
            self.close()
            raise

    def attach(self) -> None:
        """Makes the page, and lets it tell what happens."""
        target = self.send("Target.createTarget", url="about:blank")["targetId"]
        self.session = self.send("Target.attachToTarget", targetId=target, flatten=True)["sessionId"]
        for domain in ("Page", "Runtime", "Log", "Network"):
            self.send(f"{domain}.enable")

    def close(self) -> None:
        """Ends the browser, and waits for it."""
        self.session = ""
        try:
            self.send("Browser.close")
            self.process.wait(SECONDS)
        except (OSError, TimeoutError, subprocess.TimeoutExpired):
            self.process.kill()
            self.process.wait()
        os.close(self.commands)
        os.close(self.replies)
        try:
            self.folder.cleanup()
        except OSError:
            shutil.rmtree(self.folder.name, ignore_errors=True)

    def message(self, limit: float) -> dict[str, Any]:
        while b"\0" not in self.waiting:
            ready, _, _ = select.select([self.replies], [], [], max(0.0, limit - time.monotonic()))
            data = os.read(self.replies, 1 << 20) if ready else b""
            if not data:
                raise TimeoutError("the browser doesn't answer")
            self.waiting += data
        text, _, self.waiting = self.waiting.partition(b"\0")
        found_message: dict[str, Any] = json.loads(text)
        return found_message

    def send(self, method: str, **parameters: object) -> dict[str, Any]:
        self.count += 1
        command: dict[str, Any] = {"id": self.count, "method": method, "params": parameters}
        if self.session:
            command["sessionId"] = self.session
        os.write(self.commands, json.dumps(command).encode() + b"\0")
        limit = time.monotonic() + SECONDS
        while True:
            message = self.message(limit)
            if message.get("id") != self.count:
                self.events.append(message)
            elif "error" in message:
                raise RuntimeError(f"{method}: {message['error']}")
            else:
                result: dict[str, Any] = message["result"]
                return result

    def wait_for(self, method: str) -> None:
        limit = time.monotonic() + SECONDS
        while all(event.get("method") != method for event in self.events):
            self.events.append(self.message(limit))

    def open(self, path: Path, width: int, dark: bool = False) -> None:
        """Opens a file at a width, in light or dark."""
        self.events.clear()
        self.send("Emulation.setDeviceMetricsOverride", width=width, height=900, deviceScaleFactor=1, mobile=width < 600)
        self.send("Emulation.setEmulatedMedia", features=[{"name": "prefers-color-scheme", "value": "dark" if dark else "light"}])
        self.send("Page.navigate", url=path.resolve().as_uri())
        self.wait_for("Page.loadEventFired")

    def ask(self, script: str) -> Any:
        """The value of an expression of the page's script."""
        answer = self.send("Runtime.evaluate", expression=script, returnByValue=True, awaitPromise=True)
        if "exceptionDetails" in answer:
            raise RuntimeError(answer["exceptionDetails"])
        return answer["result"].get("value")

    def faults(self) -> list[str]:
        """What the console and the log have said."""
        said = []
        for event in self.events:
            if event.get("method") in ("Runtime.consoleAPICalled", "Runtime.exceptionThrown", "Log.entryAdded"):
                said.append(json.dumps(event["params"]))
        return said

    def requests(self) -> list[str]:
        return [event["params"]["request"]["url"] for event in self.events if event.get("method") == "Network.requestWillBeSent"]

    def picture(self, clip: dict[str, float] | None = None) -> bytes:
        """The whole page as PNG, or a part of it."""
        parameters: dict[str, object] = {"captureBeyondViewport": True, "format": "png"}
        if clip is None:
            size = self.send("Page.getLayoutMetrics")["cssContentSize"]
            clip = {"x": 0.0, "y": 0.0, "width": size["width"], "height": size["height"]}
        parameters["clip"] = {**clip, "scale": 1.0}
        return base64.b64decode(self.send("Page.captureScreenshot", **parameters)["data"])

    def pdf(self) -> bytes:
        return base64.b64decode(self.send("Page.printToPDF", printBackground=True, preferCSSPageSize=True)["data"])
