"""The parts of tests/test_web.py on what a visit loads: how many requests, what a browser keeps of them, how soon the
picture is there on a slow line, and what becomes of a page that was open during an upgrade.
"""
import os
import re
import shutil
import subprocess
import time

from browser import Browser, Relay
from clients import check, same
from gateways import BUSY, DEPLOY, Gateway
from pages import WEB, bundled, content, index, kept

# The most requests of a first visit to a deposit, whatever they ask for; there is a search index, which takes some.
MOST_REQUESTS = 20
# A slow line: milliseconds until an answer begins, and bytes a second.
LATENCY, RATE = 150, 200_000
# The most bytes of the pages' files that such a visit transfers, compressed: 0.28 s on that line.
MOST_SENT = 55_000
# Above this the first picture is late, in milliseconds. A machine with other work is much slower than the 1,500 that
# are wanted.
LATE = 8000
# After this many seconds without a request a page has all that it wants.
QUIET = 3
# Notes when the large canvas has its first picture: when it has more than one color.
WATCH = """
const look = () => {
  const canvas = document.querySelector('canvas.large');
  if (canvas?.width > 0) {
    const pixels = new Uint32Array(canvas.getContext('2d').getImageData(0, 0, canvas.width, canvas.height).data.buffer);
    if (pixels.some((pixel) => pixel !== pixels[0])) {
      window.pictureAt = performance.now();
      return;
    }
  }
  requestAnimationFrame(look);
};
requestAnimationFrame(look);
"""
# The modules that a window has loaded, and the bytes of the pages' files that were transferred.
MODULES = """
const entries = performance.getEntriesByType('resource')
  .map((entry) => [new URL(entry.name).pathname, entry.encodedBodySize]);
const own = entries.filter(([path]) => path.startsWith('/web/'));
return [
  [...new Set(own.map(([path]) => path).filter((path) => path.endsWith('.js')))],
  own.reduce((sum, [, size]) => sum + size, 0)
];
"""


def new_browser(folder: str, is_slow: bool) -> Browser:
    """A browser that has never been at the site."""
    browser = Browser(folder, folder, BUSY)
    command = browser.driver.execute_cdp_cmd
    command("Page.addScriptToEvaluateOnNewDocument", {"source": WATCH})
    if is_slow:
        line = {"latency": LATENCY, "downloadThroughput": RATE, "uploadThroughput": RATE}
        command("Network.enable", {})
        command("Network.emulateNetworkConditions", {"offline": False, **line})
    return browser


def visit(browser: Browser, relay: Relay, address: str) -> tuple[list[str], float]:
    """The requests of a visit to a deposit, until it asks no more, and when its first picture was there, in
    milliseconds."""
    relay.asked.clear()
    browser.open(f"http://127.0.0.1:{relay.port}{address}")
    at = browser.until(lambda: browser.run("return window.pictureAt"))
    before = -1
    while before < len(relay.asked):
        before = len(relay.asked)
        time.sleep(QUIET)
    return list(relay.asked), float(at or "inf")


def bundles(gateway: Gateway, _browser: Browser, _base: str, folder: str) -> None:
    """The same sources always give the same files. Without a folder the script says how it is called. A page that names
    a file that nobody makes is refused, and a guide without words."""
    script, again = os.path.join(DEPLOY, "bundle"), os.path.join(folder, "bundled-again")
    same("bundled again", subprocess.run([script, again], timeout=60, check=False).returncode, 0)
    pages = os.path.join(gateway.folder, "pages")
    found = [{name: content(os.path.join(place, name)) for name in os.listdir(place)} for place in (pages, again)]
    check("the same files", found[0] == found[1] and len(found[0]) > 10)
    done = subprocess.run([script], capture_output=True, text=True, timeout=60, check=False)
    same("without a folder", (done.returncode, done.stdout, done.stderr), (2, "", "usage: deploy/bundle FOLDER\n"))
    changed = os.path.join(folder, "changed")
    shutil.copytree(WEB, os.path.join(changed, "web"))
    for name in ("deploy", "docs"):
        os.mkdir(os.path.join(changed, name))
    script = shutil.copy(script, os.path.join(changed, "deploy"))
    for path, text, refused in (
        ("docs/GUIDE.md", "## Terms\n", "docs/GUIDE.md has no table of words"),
        ("web/index.html", '<img src="/web/none.svg">\n', "index.html names files that are not bundled: none.svg"),
    ):
        with open(os.path.join(changed, path), "a", encoding="utf-8") as page:
            page.write(text)
        done = subprocess.run([script, again], capture_output=True, text=True, timeout=60, check=False)
        same(f"with {path} changed", (done.returncode, done.stdout, done.stderr), (1, "", f"bundle: {refused}\n"))


def visits(gateway: Gateway, _browser: Browser, _base: str, folder: str) -> None:
    """A first visit to a deposit makes few requests. A second one asks only for the page and for what may have changed
    in the archive."""
    number = kept(gateway, "visited", b"#N Visited\nx = 3, y = 3\nbo$2bo$3o!\n")
    check("an index for a visit", index(gateway, os.path.join(folder, "club.db")))
    relay, browser = Relay(gateway.port), new_browser(folder, False)
    try:
        first, _ = visit(browser, relay, f"/d/{number}")
        check(f"a first visit makes {len(first)} requests: {first}", 10 < len(first) <= MOST_REQUESTS)
        modules, sent = browser.run(MODULES)
        page = content(os.path.join(gateway.folder, "pages", "index.html")).decode()
        named = set(re.findall(r"/web/[a-z]+-\w+\.js", page)) | {bundled(gateway, "stepper.js")}
        same("the page names the modules before they are imported", sorted(modules), sorted(named & set(first)))
        same("it names no others", named - set(first), set())
        check(f"{sent} bytes are transferred", 20_000 < sent <= MOST_SENT)
        again, _ = visit(browser, relay, f"/d/{number}")
        check(f"a second visit: {again}", f"/d/{number}" in again)
        same("files that it asks for again", [path for path in again if path.startswith("/web/")], [])
    finally:
        browser.end()
        relay.end()


def slow_line(gateway: Gateway, _browser: Browser, _base: str, folder: str) -> None:
    """On a slow line the first picture of a deposit comes soon. It is the least time of two, as others may be at
    work."""
    relay = Relay(gateway.port)
    times = []
    for _ in range(2):
        browser = new_browser(folder, True)
        try:
            times.append(visit(browser, relay, "/d/4")[1])
        finally:
            browser.end()
    relay.end()
    check(f"the first picture on a slow line after {min(times):.0f} ms", min(times) < LATE)


def upgrade(pages: str, others: str, to: str) -> None:
    """Puts another release of the pages into the folder: the file of a group has another name there, and so has each
    that names one with another name."""
    texts = {name: content(os.path.join(pages, name)).decode() for name in os.listdir(pages) if name.endswith(".js")}
    renamed = {others}
    while more := {name for name in texts.keys() - renamed if any(old in texts[name] for old in renamed)}:
        renamed |= more
    texts["index.html"] = content(os.path.join(pages, "index.html")).decode()
    for name, text in texts.items():
        os.remove(os.path.join(pages, name))
        for old in renamed:
            text = text.replace(old, re.sub(r"-\w+\.js$", f"-{to}.js", old))
        new = re.sub(r"-\w+\.js$", f"-{to}.js", name) if name in renamed else name
        with open(os.path.join(pages, new), "w", encoding="utf-8") as file:
            file.write(text)


def upgraded(gateway: Gateway, browser: Browser, _base: str, folder: str) -> None:
    """A page that was open during an upgrade is loaded again once it needs a file that is gone; and once only, if that
    does not help."""
    pages, before = os.path.join(gateway.folder, "pages"), os.path.join(folder, "release")
    shutil.copytree(pages, before)
    others = os.path.basename(bundled(gateway, "lazyPages.js"))
    try:
        relay = Relay(gateway.port)
        browser.open(f"http://127.0.0.1:{relay.port}/d")
        upgrade(pages, others, "AAAAAAAA")
        browser.go("/find")
        check("the new release is loaded", browser.until(lambda: browser.all("script[src='/web/main-AAAAAAAA.js']")))
        check(
            "with the page that was wanted", browser.at("/find") and browser.until(lambda: browser.text("h1") == "Find")
        )
        same("that took one load", relay.asked.count("/find"), 1)
        relay.end()
        # Another address of the site, so that the browser keeps nothing of it.
        relay = Relay(gateway.port)
        browser.open(f"http://127.0.0.1:{relay.port}/d")
        os.remove(os.path.join(pages, "lazyPages-AAAAAAAA.js"))
        browser.go("/new")
        check("a file that stays away", browser.until(lambda: "No reply came" in browser.text(".refusal")))
        check("there is a button", browser.all(".again"))
        same("the page was loaded again once", relay.asked.count("/new"), 1)
        relay.end()
    finally:
        shutil.rmtree(pages)
        shutil.copytree(before, pages)


PARTS = [bundles, visits, slow_line, upgraded]
