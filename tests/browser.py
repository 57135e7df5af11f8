"""A headless Chromium, from Debian's packages chromium, chromium-driver and python3-selenium, and a relay that drops
replies.
"""
import json
import os
import shutil
import socket
import threading
import time
from typing import Any
from collections.abc import Callable

from firefox import IS_SETTLED

try:
    from selenium import webdriver
    from selenium.common.exceptions import StaleElementReferenceException
    from selenium.webdriver.chrome.options import Options
    from selenium.webdriver.chrome.service import Service
    from selenium.webdriver.common.by import By
except ImportError:
    webdriver = None  # type: ignore[assignment]


def missing() -> list[str]:
    """What is missing here for a browser."""
    lacking = [] if webdriver else ["python3-selenium"]
    return lacking + [
        package
        for package, name in (("chromium", "chromium"), ("chromium-driver", "chromedriver"))
        if not shutil.which(name)
    ]


def until(what: Callable[[], Any], seconds: float) -> Any:
    """The result of a function once it is true, or its result after this many seconds."""
    end = time.monotonic() + seconds
    while True:
        try:
            found = what()
        except StaleElementReferenceException:
            found = None
        if found or time.monotonic() > end:
            return found
        time.sleep(0.03)


class Browser:
    """A browser with a folder for what it downloads and one for its pictures."""

    def __init__(self, downloads: str, pictures: str, patience: float) -> None:
        options = Options()
        options.binary_location = str(shutil.which("chromium"))
        for word in (
            "--headless=new",
            "--no-sandbox",
            "--disable-dev-shm-usage",
            "--disable-gpu",
            "--no-first-run",
            "--disable-background-networking",
        ):
            options.add_argument(word)  # type: ignore[no-untyped-call]
        options.add_experimental_option(
            "prefs", {"download.default_directory": downloads, "download.prompt_for_download": False}
        )
        options.set_capability("goog:loggingPrefs", {"browser": "ALL", "performance": "ALL"})
        self.driver = webdriver.Chrome(service=Service(str(shutil.which("chromedriver"))), options=options)
        self.driver.set_script_timeout(60)
        self.pictures, self.patience = pictures, patience
        # The addresses that pages asked for, and the lines of the console.
        self.asked: list[str] = []
        self.said: list[str] = []
        self.screen()

    def screen(self, width: int = 1100, height: int = 900, scheme: str = "light", scale: int = 1) -> None:
        self.driver.execute_cdp_cmd(
            "Emulation.setDeviceMetricsOverride",
            {"width": width, "height": height, "deviceScaleFactor": scale, "mobile": width < 600},
        )
        self.driver.execute_cdp_cmd(
            "Emulation.setEmulatedMedia", {"features": [{"name": "prefers-color-scheme", "value": scheme}]}
        )

    def open(self, address: str) -> None:
        """Opens an address as if it was typed, and waits until the page is there."""
        self.driver.get("about:blank")
        self.driver.get(address)
        self.settled()

    def go(self, address: str) -> None:
        """Follows an address like a link of the pages, without waiting."""
        self.run("history.pushState(null, '', arguments[0]); dispatchEvent(new PopStateEvent('popstate'))", address)

    def settled(self) -> bool:
        return bool(self.until(lambda: self.run(IS_SETTLED)))

    def until(self, what: Callable[[], Any]) -> Any:
        return until(what, self.patience)

    def run(self, script: str, *words: object) -> Any:
        return self.driver.execute_script(script, *words)  # type: ignore[no-untyped-call]

    def wait_for(self, script: str, *words: object) -> Any:
        """The awaited result of a function of the page."""
        return self.driver.execute_async_script(
            f"const done = arguments[arguments.length - 1]; (async (...words) => {{ {script} }})(...arguments)"
            ".then((found) => done(found), (error) => done(`${error}`))",
            *words,
        )

    def one(self, selector: str) -> Any:
        return self.until(lambda: next(iter(self.driver.find_elements(By.CSS_SELECTOR, selector)), None))

    def all(self, selector: str) -> Any:
        return self.driver.find_elements(By.CSS_SELECTOR, selector)

    def text(self, selector: str) -> str:
        """The text of an element, even if only screen readers get it; empty if there is no such element."""
        return str(self.run("return document.querySelector(arguments[0])?.textContent ?? ''", selector))

    def type(self, selector: str, text: str) -> None:
        field = self.one(selector)
        field.clear()
        field.send_keys(text)

    def unfold(self) -> None:
        """Opens all that is folded."""
        self.run("for (const one of document.querySelectorAll('main details')) one.open = true")

    def press(self, *keys: str) -> None:
        """Keys for the page as a whole."""
        self.driver.switch_to.active_element.send_keys(*keys)

    def at(self, address: str) -> bool:
        """Whether the page reaches an address in time and is loaded."""
        return bool(self.until(lambda: self.driver.current_url.endswith(address))) and self.settled()

    def picture(self, name: str) -> None:
        self.driver.save_screenshot(os.path.join(self.pictures, name + ".png"))

    def keep_logs(self) -> None:
        """Records the page's console output and its requests."""
        logs = self.driver.get_log  # (It has no types.)
        self.said += [entry["message"] for entry in logs("browser")]  # type: ignore[no-untyped-call]
        for entry in logs("performance"):  # type: ignore[no-untyped-call]
            message = json.loads(entry["message"])["message"]
            if message["method"] == "Network.requestWillBeSent":
                self.asked.append(message["params"]["request"]["url"])

    def unnamed(self) -> list[str]:
        """The roles of visible or usable elements without a name for screen readers."""
        named = {
            "button",
            "link",
            "textbox",
            "spinbutton",
            "slider",
            "combobox",
            "img",
            "image",
            "searchbox",
            "checkbox",
            "table",
            "dialog",
        }
        nodes = self.driver.execute_cdp_cmd("Accessibility.getFullAXTree", {})["nodes"]
        roles = [
            (node.get("role", {}).get("value"), node.get("name", {}).get("value"))
            for node in nodes
            if not node.get("ignored")
        ]
        return [role for role, name in roles if role in named and not name]

    def drop(self, paths: list[str], selector: str) -> None:
        """Drops files on an element, as the system does."""
        box = self.run(
            "const box = document.querySelector(arguments[0]).getBoundingClientRect(); "
            "return [box.x + box.width / 2, box.y + box.height / 2]",
            selector,
        )
        data = {"items": [], "files": paths, "dragOperationsMask": 1}
        for kind in ("dragEnter", "dragOver", "drop"):
            self.driver.execute_cdp_cmd(
                "Input.dispatchDragEvent", {"type": kind, "x": box[0], "y": box[1], "data": data}
            )

    def end(self) -> None:
        self.driver.quit()


class Relay:
    """A relay in front of a server that drops the replies to some deposits: these are stored, but the client doesn't
    learn of it. While `away` is set it passes nothing on, so that no request gets a reply."""

    def __init__(self, port: int) -> None:
        self.to, self.left, self.away = port, 0, False
        # The tokens of the deposits whose replies were dropped, and the targets of the requests that read.
        self.cut: list[str] = []
        self.asked: list[str] = []
        self.listener = socket.create_server(("127.0.0.1", 0))
        self.port = self.listener.getsockname()[1]
        threading.Thread(target=self.take, daemon=True).start()

    def take(self) -> None:
        while True:
            try:
                client, _ = self.listener.accept()
            except OSError:
                return
            server = socket.create_connection(("127.0.0.1", self.to))
            state = {"cut": False}
            threading.Thread(target=self.send_on, args=(client, server, state), daemon=True).start()
            threading.Thread(target=self.send_back, args=(client, server, state), daemon=True).start()

    def send_on(self, client: socket.socket, server: socket.socket, state: dict[str, bool]) -> None:
        try:
            while (piece := client.recv(65536)) and not self.away:
                # A browser sends a request at once, and the next one after its reply.
                if piece.startswith(b"GET "):
                    self.asked.append(piece.split(b" ")[1].decode())
                if piece.startswith(b"POST /deposits HTTP/1.1\r\n") and self.left:
                    self.left -= 1
                    self.cut.append(
                        next(
                            line.split()[1] for line in piece.split(b"\r\n") if line.lower().startswith(b"x-token:")
                        ).decode()
                    )
                    state["cut"] = True
                server.sendall(piece)
            server.shutdown(socket.SHUT_WR)
        except OSError:
            pass

    def send_back(self, client: socket.socket, server: socket.socket, state: dict[str, bool]) -> None:
        try:
            while piece := server.recv(65536):
                if state["cut"]:
                    break
                client.sendall(piece)
        except OSError:
            pass
        for peer in (client, server):
            try:
                peer.shutdown(socket.SHUT_RDWR)
            except OSError:
                pass
            peer.close()

    def end(self) -> None:
        self.listener.close()
