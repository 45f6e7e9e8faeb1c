"""Drives a real browser without a window, where one is installed: Chromium, by the pipe of its debugging protocol."""

import base64
import json
import os
import shutil
import subprocess
import tempfile
import time
from pathlib import Path
from typing import Any, Dict, List, Optional

NAMES = ("chromium", "chromium-browser", "google-chrome", "chrome")
SECONDS = 60

WORDS = (
    "--headless",
    "--no-sandbox",
    "--disable-gpu",
    "--no-first-run",
    "--disable-extensions",
    "--disable-background-networking",
    "--window-size=1200,800",
    "--remote-debugging-pipe",
)


def browser() -> Optional[str]:
    """The path of a browser, if there is one."""
    return next((path for path in map(shutil.which, NAMES) if path), None)


class Browser:
    """A browser with one page."""

    def __init__(self) -> None:
        path = browser()
        assert path
        self.folder = tempfile.mkdtemp()
        given, self.writer = os.pipe()
        self.reader, written = os.pipe()
        # The protocol reads from descriptor 3 and writes to descriptor 4.
        words = ["sh", "-c", f'exec "$0" "$@" 3<&{given} 4>&{written}', path, *WORDS, f"--user-data-dir={self.folder}", "about:blank"]
        self.process = subprocess.Popen(words, pass_fds=(given, written), stdout=subprocess.DEVNULL, stderr=subprocess.DEVNULL)
        os.close(given)
        os.close(written)
        self.rest = b""
        self.number = 0
        self.session: Optional[str] = None
        target = self.call("Target.createTarget", url="about:blank")["targetId"]
        self.session = self.call("Target.attachToTarget", targetId=target, flatten=True)["sessionId"]
        self.call("Page.enable")
        self.call("Runtime.enable")
        self.errors: List[str] = []

    def close(self) -> None:
        """Ends the browser."""
        try:
            self.session = None
            self.call("Browser.close")
        except (OSError, AssertionError):
            self.process.kill()
        self.process.wait(SECONDS)
        os.close(self.writer)
        os.close(self.reader)
        # Parts of the browser may still write there for a moment.
        shutil.rmtree(self.folder, ignore_errors=True)

    def message(self) -> Dict[str, Any]:
        """The next message of the browser."""
        while b"\0" not in self.rest:
            more = os.read(self.reader, 1 << 16)
            assert more, "the browser has ended"
            self.rest += more
        first, self.rest = self.rest.split(b"\0", 1)
        return json.loads(first)

    def call(self, method: str, **values: Any) -> Dict[str, Any]:
        """Calls the browser, and gives what it answers."""
        self.number += 1
        asked: Dict[str, Any] = {"id": self.number, "method": method, "params": values}
        if self.session:
            asked["sessionId"] = self.session
        os.write(self.writer, json.dumps(asked).encode() + b"\0")
        while True:
            message = self.message()
            if message.get("method") == "Runtime.exceptionThrown":
                self.errors.append(json.dumps(message["params"]["exceptionDetails"])[:600])
            if message.get("id") == self.number:
                assert "error" not in message, message
                return message["result"]

    def evaluate(self, text: str) -> Any:
        """What an expression of the page has as its value."""
        answer = self.call("Runtime.evaluate", expression=text, returnByValue=True, awaitPromise=True)
        assert "exceptionDetails" not in answer, answer["exceptionDetails"]
        return answer["result"].get("value")

    def wait(self, text: str) -> Any:
        """Waits until an expression is true, and gives its value."""
        end = time.monotonic() + SECONDS
        while time.monotonic() < end:
            value = self.evaluate(text)
            if value:
                return value
            time.sleep(0.05)
        raise AssertionError(f"never so: {text}; {self.errors}")

    def open(self, address: str) -> None:
        """Opens a page of ours, and waits until it is ready."""
        self.call("Page.navigate", url=address)
        self.wait("document.body && document.body.dataset.ready === 'yes'")

    def key(self, name: str, text: str = "", code: int = 0) -> None:
        """Presses a key and releases it."""
        more = {"text": text} if text else {}
        self.call("Input.dispatchKeyEvent", type="keyDown", key=name, windowsVirtualKeyCode=code, **more)
        self.call("Input.dispatchKeyEvent", type="keyUp", key=name, windowsVirtualKeyCode=code)

    def mouse(self, way: str, x: float, y: float, button: str = "left", held: int = 0) -> None:
        """Moves the mouse, or presses or releases its button."""
        count = 0 if way == "mouseMoved" else 1
        self.call("Input.dispatchMouseEvent", type=way, x=x, y=y, button=button, buttons=held, clickCount=count)

    def click(self, x: float, y: float) -> None:
        """Clicks at a place of the page."""
        self.mouse("mouseMoved", x, y, "none")
        self.mouse("mousePressed", x, y, held=1)
        self.mouse("mouseReleased", x, y)

    def picture(self, file: Path) -> None:
        """Writes a picture of the page."""
        file.write_bytes(base64.b64decode(self.call("Page.captureScreenshot")["data"]))
