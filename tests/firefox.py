"""A headless Firefox, as in Debian's package firefox-esr, driven over Marionette: Firefox's own protocol, which
geckodriver speaks too. Debian has no geckodriver.
"""
import json
import os
import re
import shutil
import socket
import subprocess
import time
from typing import Any, Callable

# How many seconds Firefox may take to start, or a command to be answered.
PATIENCE = 120
# The key of an element in Marionette's values (W3C, WebDriver, 'web element identifier').
ELEMENT = "element-6066-11e4-a52e-4f735466cecf"
# Whether the page that is asked for is there.
IS_SETTLED = (
    "const main = document.getElementById('main'); return !main.hasAttribute('aria-busy') && !!main.querySelector('h1')"
)
ERRORS = """
const errors = Services.console.getMessageArray().filter((one) => one instanceof Ci.nsIScriptError);
return errors.filter((one) => one.sourceName.startsWith("http") && !(one.flags & one.warningFlag)).map(String);
"""


def missing() -> list[str]:
    """What is missing here for Firefox."""
    return [] if shutil.which("firefox-esr") else ["firefox-esr"]


class Failed(Exception):
    """What Firefox answered to a command that it could not do."""


class Element:
    """An element of a page."""

    def __init__(self, browser: "Firefox", number: str) -> None:
        self.browser, self.words = browser, {"id": number}

    def click(self) -> None:
        self.browser.send("WebDriver:ElementClick", self.words)

    def clear(self) -> None:
        self.browser.send("WebDriver:ElementClear", self.words)

    def send_keys(self, *texts: str) -> None:
        """Types a text, or gives the path of a file to a field of files."""
        self.browser.send("WebDriver:ElementSendKeys", self.words | {"text": "".join(texts)})

    def get_attribute(self, name: str) -> Any:
        """The property of this name if there is one, otherwise the attribute."""
        found = self.browser.send("WebDriver:GetElementProperty", self.words | {"name": name})
        return found or self.browser.send("WebDriver:GetElementAttribute", self.words | {"name": name})


class Firefox:
    """A Firefox with a new profile in a folder."""

    def __init__(self, folder: str, patience: float) -> None:
        self.patience = patience
        self.profile, self.downloads = os.path.join(folder, "firefox"), os.path.join(folder, "firefox-downloads")
        os.mkdir(self.profile)
        os.mkdir(self.downloads)
        with open(os.path.join(self.profile, "user.js"), "w", encoding="ascii") as settings:
            settings.writelines(
                f"user_pref({json.dumps(name)}, {json.dumps(value)});\n" for name, value in self.settings
            )
        self.process = subprocess.Popen(
            [
                "firefox-esr",
                "--headless",
                "--marionette",
                "--remote-allow-system-access",
                "--no-remote",
                "--profile",
                self.profile,
            ],
            env=os.environ | {"HOME": self.profile, "MOZ_CRASHREPORTER_DISABLE": "1"},
            stdout=subprocess.DEVNULL,
            stderr=subprocess.DEVNULL,
        )
        self.last = 0
        self.peer = socket.create_connection(("127.0.0.1", self.port()), timeout=PATIENCE)
        self.read()
        self.send("WebDriver:NewSession", {})
        self.send("WebDriver:SetTimeouts", {"script": 60_000, "pageLoad": 60_000})
        self.send("WebDriver:SetWindowRect", {"width": 1100, "height": 900})

    @property
    def settings(self) -> list[tuple[str, object]]:
        return [
            ("marionette.port", 0),
            ("app.update.enabled", False),
            ("browser.download.folderList", 2),
            ("browser.download.dir", self.downloads),
            ("browser.download.always_ask_before_handling_new_types", False),
        ]

    def port(self) -> int:
        """The port that Firefox chose, which it writes into its profile."""
        path = os.path.join(self.profile, "MarionetteActivePort")
        end = time.monotonic() + PATIENCE
        while time.monotonic() < end and self.process.poll() is None:
            if os.path.exists(path):
                with open(path, encoding="ascii") as file:
                    if text := file.read():
                        return int(text)
            time.sleep(0.1)
        raise Failed("Firefox did not start")

    def read(self) -> Any:
        """The next message: its length in digits, a colon, and JSON."""
        held = b""
        while not (head := re.match(rb"(\d+):", held)) or len(held) < head.end() + int(head[1]):
            # A message is only sent once it is asked for, so no more than one is read here.
            if not (more := self.peer.recv(65536)):
                raise Failed("Firefox ended")
            held += more
        return json.loads(held[head.end() :])

    def send(self, name: str, words: dict[str, Any]) -> Any:
        """The result of a command."""
        self.last += 1
        text = json.dumps([0, self.last, name, words]).encode()
        self.peer.sendall(b"%d:%s" % (len(text), text))
        _, number, error, result = self.read()
        if error or number != self.last:
            raise Failed(f"{name}: {error}")
        return result["value"] if isinstance(result, dict) and "value" in result else result

    # ---- what a `Browser` of browser.py can do, by the same names

    def run(self, script: str, *words: Any) -> Any:
        """The result of a script of the page."""
        return self.send("WebDriver:ExecuteScript", {"script": script, "args": list(words), "sandbox": None})

    def wait_for(self, script: str, *words: Any) -> Any:
        """The awaited result of a function of the page."""
        return self.run(f"return (async (...words) => {{ {script} }})(...arguments)", *words)

    def until(self, what: Callable[[], Any]) -> Any:
        """The result of a function once it is true, or its last result after some seconds."""
        end = time.monotonic() + self.patience
        while True:
            try:
                found = what()
            except Failed:
                found = None
            if found or time.monotonic() > end:
                return found
            time.sleep(0.05)

    def open(self, address: str) -> None:
        """Opens an address as if it was typed, and waits until the page is there."""
        self.send("WebDriver:Navigate", {"url": "about:blank"})
        self.send("WebDriver:Navigate", {"url": address})
        self.settled()

    def settled(self) -> Any:
        return self.until(lambda: self.run(IS_SETTLED))

    def at(self, address: str) -> Any:
        """Whether the page reaches an address in time and is loaded."""
        return self.until(lambda: str(self.send("WebDriver:GetCurrentURL", {})).endswith(address)) and self.settled()

    def all(self, selector: str) -> list["Element"]:
        found = self.send("WebDriver:FindElements", {"using": "css selector", "value": selector})
        return [Element(self, one[ELEMENT]) for one in found]

    def one(self, selector: str) -> Any:
        return self.until(lambda: next(iter(self.all(selector)), None))

    def text(self, selector: str) -> Any:
        """The text of an element, even if only screen readers get it; empty if there is no such element."""
        return self.run("return document.querySelector(arguments[0])?.textContent ?? ''", selector)

    def type(self, selector: str, text: str) -> None:
        field = self.one(selector)
        field.clear()
        field.send_keys(text)

    def press_at(self, x: float, y: float) -> None:
        """Presses the main button of the mouse at a point of the window."""
        steps: list[dict[str, Any]] = [
            {"type": "pointerMove", "x": int(x), "y": int(y), "origin": "viewport", "duration": 0},
            {"type": "pointerDown", "button": 0},
            {"type": "pointerUp", "button": 0},
        ]
        mouse = {"type": "pointer", "id": "mouse", "parameters": {"pointerType": "mouse"}, "actions": steps}
        self.send("WebDriver:PerformActions", {"actions": [mouse]})

    def loaded(self, name: str) -> bytes:
        """A file that was downloaded; empty if it did not come."""
        path = os.path.join(self.downloads, name)
        if not self.until(lambda: os.path.exists(path) and os.path.getsize(path) > 0):
            return b""
        with open(path, "rb") as file:
            return file.read()

    def picture(self, name: str) -> None:
        """Pictures are taken of the other browser alone."""

    def errors(self) -> list[str]:
        """The errors of scripts and requests that the console has."""
        self.send("Marionette:SetContext", {"value": "chrome"})
        found = self.run(ERRORS)
        self.send("Marionette:SetContext", {"value": "content"})
        return [str(one) for one in found]

    def end(self) -> None:
        self.peer.close()
        self.process.terminate()
        try:
            self.process.wait(30)
        except subprocess.TimeoutExpired:
            self.process.kill()
