"""A headless chromium, asked by its debugging protocol through two pipes."""

from __future__ import annotations

import base64
import json
import os
import select
import signal
import subprocess
import time
from pathlib import Path
from typing import Any

PATIENCE = 60.0
TEXT = "document.body.innerText"
KEYS = {"Tab": (9, ""), "Enter": (13, "\r")}


class Browser:
    """A browser without tabs."""

    def __init__(self, profile: Path, *words: str):
        told, self.heard = os.pipe()
        self.said, said = os.pipe()
        command = ["chromium", "--headless", "--no-sandbox", "--disable-gpu", "--hide-scrollbars"]
        command += ["--remote-debugging-pipe", f"--user-data-dir={profile}", *words, "about:blank"]
        # The protocol speaks on the descriptors 3 and 4.
        shell = ["bash", "-c", f'exec 3<&{told} 4>&{said}; exec "$@"', "chromium", *command]
        quiet = subprocess.DEVNULL
        self.process = subprocess.Popen(
            shell, pass_fds=(told, said), stdout=quiet, stderr=quiet, start_new_session=True
        )
        os.close(told)
        os.close(said)
        self.number, self.rest = 0, b""

    def ask(self, method: str, session: str = "", **words: object) -> dict[str, Any]:
        """What the browser answers to a call."""
        self.number += 1
        call: dict[str, object] = {"id": self.number, "method": method, "params": words}
        if session:
            call["sessionId"] = session
        os.write(self.heard, json.dumps(call).encode() + b"\0")
        while True:
            while b"\0" not in self.rest:
                ready, _, _ = select.select([self.said], [], [], PATIENCE)
                more = os.read(self.said, 1 << 16) if ready else b""
                if not more:
                    raise AssertionError(f"chromium doesn't answer {method}")
                self.rest += more
            text, self.rest = self.rest.split(b"\0", 1)
            told = json.loads(text)
            if told.get("id") == self.number:
                if "error" in told:
                    raise AssertionError(f"{method}: {told['error']}")
                return dict(told["result"])

    def tab(self) -> Tab:
        """A new tab."""
        target = self.ask("Target.createTarget", url="about:blank")["targetId"]
        attached = self.ask("Target.attachToTarget", targetId=target, flatten=True)
        return Tab(self, attached["sessionId"])

    def close(self) -> None:
        os.killpg(self.process.pid, signal.SIGKILL)
        self.process.wait()


class Tab:
    """A tab of a browser."""

    def __init__(self, browser: Browser, session: str):
        self.browser, self.session = browser, session

    def ask(self, method: str, **words: object) -> dict[str, Any]:
        return self.browser.ask(method, self.session, **words)

    def value(self, script: str) -> Any:
        """What a script gives on the page."""
        return self.ask("Runtime.evaluate", expression=script)["result"].get("value")

    def open(self, url: str, width: int = 1280, height: int = 900, scheme: str = "light") -> None:
        size = dict(width=width, height=height, deviceScaleFactor=1, mobile=False)
        self.ask("Emulation.setDeviceMetricsOverride", **size)
        feature = {"name": "prefers-color-scheme", "value": scheme}
        self.ask("Emulation.setEmulatedMedia", features=[feature])
        self.ask("Page.navigate", url=url)

    def wait(self, script: str) -> None:
        """Waits until a script gives something true on the page."""
        until = time.monotonic() + PATIENCE
        while not self.value(script):
            if time.monotonic() > until:
                raise AssertionError(f"never: {script}\n{self.value(TEXT)[:1500]}")
            time.sleep(0.1)

    def waits_for(self, text: str) -> None:
        """Waits until the page shows a text."""
        self.wait(f"{TEXT}.includes({json.dumps(text)})")

    def shoot(self, picture: Path) -> None:
        taken = self.ask("Page.captureScreenshot", format="png")
        picture.write_bytes(base64.b64decode(taken["data"]))

    def press(self, key: str) -> None:
        code, text = KEYS[key]
        for kind in ("keyDown", "keyUp"):
            words = dict(key=key, text=text, windowsVirtualKeyCode=code)
            self.ask("Input.dispatchKeyEvent", type=kind, **words)
