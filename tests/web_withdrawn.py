"""The part of tests/test_web.py on a deposit that the club has withdrawn."""
import os

from browser import Browser
from clients import check, same
from gateways import Gateway, asked, pattern

FIRST_PORT = 10700
CARDS = "return [...document.querySelectorAll('.cards strong')].map((one) => one.textContent)"


def withdrawn(_gateway: Gateway, browser: Browser, _base: str, folder: str) -> None:
    """Its page says so, and a list has only the others."""
    path = os.path.join(folder, "withdrawn")
    with open(path, "w", encoding="utf-8") as file:
        file.write("2 a telephone number\n")
    gateway = Gateway(os.path.join(folder, "withdrawn.db"), FIRST_PORT, f"WITHDRAWN={path}", seconds=900)
    base = f"http://127.0.0.1:{gateway.port}"
    try:
        for turn in (1, 2, 3):
            headers = {"x-member": "ann", "x-token": f"d{turn}"}
            same("a deposit", asked(gateway.port, 1, "POST", "/deposits", pattern("ann", turn), headers)[0], 201)
        for place in ("2", "2/at/5"):
            browser.open(f"{base}/d/{place}")
            same(f"the page /d/{place}", browser.text(".refusal p"), "The club has withdrawn this deposit.")
        # For a second or two nginx keeps the list that it read while it started.
        browser.until(lambda: b'"id":3' in asked(gateway.port, 1, "GET", "/deposits/after/0")[1])
        browser.open(f"{base}/d")
        wanted = ["Of ann, the 3.", "Of ann, the 1."]
        check("the list has the others", browser.until(lambda: browser.run(CARDS) == wanted))
    finally:
        gateway.end()


PARTS = [withdrawn]
