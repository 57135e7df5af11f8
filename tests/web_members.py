"""The part of tests/test_web.py on a club with passwords: the pages say whose deposits they send, and whose the last
one became.
"""
import base64
import os

from browser import Browser, until
from clients import check, same
from gateways import Gateway
from pages import listed
from web_many import SHOWN, done, written

FIRST_PORT = 10600
# The gateway's refusal as the page gets it once the member closes the browser's own dialog, which a browser without a
# screen never does.
REFUSED = """
const whole = window.fetch;
window.fetch = (path, options) => (options?.method === 'POST'
  ? Promise.resolve(new Response('<html>', { status: 401 }))
  : whole(path, options));
"""
FIELD = "return [...document.querySelectorAll('#member')].length"


def passwords(_gateway: Gateway, browser: Browser, _base: str, folder: str) -> None:
    """After a refusal the field for a member's name is gone. A deposit is said to be the member's who logged in."""
    file = os.path.join(folder, "htpasswd")
    with open(file, "w", encoding="utf-8") as out:
        out.write("ann:{PLAIN}of-ann\n")
    os.chmod(file, 0o644)
    gateway = Gateway(os.path.join(folder, "members.db"), FIRST_PORT, f"MEMBERS_FILE={file}")
    base = f"http://127.0.0.1:{gateway.port}"
    try:
        browser.open(f"{base}/new")
        browser.run(REFUSED)
        browser.type("#pattern", "#N First\nx = 1, y = 1\no!")
        browser.type("#member", "bob")
        browser.one("#send").click()
        check("no password", until(lambda: "checks passwords" in browser.text("#sent .refusal"), 20))
        browser.open(f"{base}/new")
        same("the field is gone after a refusal", browser.run(FIELD), 0)
        check(
            "and it is said whose the deposit will be",
            "stored for the member that you log in as." in browser.text(".login"),
        )
        browser.one(".login button").click()
        same("another name", browser.run("return document.getElementById('member').value"), "bob")
        browser.driver.execute_cdp_cmd("Network.enable", {})
        good = "Basic " + base64.b64encode(b"ann:of-ann").decode()
        browser.driver.execute_cdp_cmd("Network.setExtraHTTPHeaders", {"headers": {"authorization": good}})
        browser.one("#send").click()
        check(
            "a deposit of another member",
            browser.at("/d/1")
            and browser.until(lambda: "it is stored for ann, who logged in, not for bob." in browser.text(".note")),
        )
        check("it says whose it is", "Deposited by ann." in browser.text(".by"))
        same("so has the archive", [row["member"] for row in listed(gateway)], ["ann"])
        browser.open(f"{base}/new")
        check("the name that logs in", "last time ann" in browser.text(".login") and browser.run(FIELD) == 0)
        browser.type("#pattern", "#N Second\nx = 2, y = 1\n2o!")
        browser.one("#send").click()
        check(
            "the next deposit", browser.at("/d/2") and browser.until(lambda: "Deposited by ann." in browser.text(".by"))
        )
        same("nothing else is said", browser.text(".note"), "Deposited.")
        browser.run("localStorage.clear()")
        browser.open(f"{base}/new")
        files = {f"{size}.rle": b"x = %d, y = 1\n%do!\n" % (size, size) for size in (3, 4)}
        browser.drop(written(os.path.join(folder, "of-ann"), files), ".drop")
        browser.until(lambda: browser.text(".many .count") == "2 files: 2 to deposit.")
        browser.type("#many-member", "bob")
        browser.one("#send-many").click()
        same("a folder of another member", done(browser), "2 files: 2 deposited.")
        check(
            "it is said whose they are",
            browser.until(lambda: "stored for ann, who logged in, not for bob" in browser.text(".many")),
        )
        same(
            "where the link leads",
            browser.until(lambda: "see-them" in browser.run(SHOWN) and browser.one("#see-them").get_attribute("href")),
            f"{base}/d/of/ann",
        )
    finally:
        browser.driver.execute_cdp_cmd("Network.setExtraHTTPHeaders", {"headers": {}})
        browser.run("localStorage.clear(); sessionStorage.clear()")
        gateway.end()


PARTS = [passwords]
