"""The parts of tests/test_web.py on waiting and continuing: what a page shows while a reply is missing, trying again,
and what a browser stores.
"""
import time

from browser import Browser, Relay
from clients import check, same
from gateways import Gateway
from pages import asked, kept, listed

VISIBLE = (
    "const style = getComputedStyle(document.querySelector('.page'), '::after'); "
    "return style.content.includes('Waiting') && style.visibility === 'visible'"
)
# A list may be two seconds old.
OLD = 2.1
KEYS = {"older": "[", "newer": "]"}


def waiting(gateway: Gateway, browser: Browser, _base: str, _folder: str) -> None:
    """A page that waits says so, for who sees it and who hears it; a read without a reply can be tried again, and then
    shows the page."""
    relay = Relay(gateway.port)
    try:
        browser.open(f"http://127.0.0.1:{relay.port}/find")
        check("a page that is there does not wait", not browser.run(VISIBLE))
        for address, heading in (
            ("/", "Game of Life patterns"),
            ("/d", "Deposits"),
            ("/d/1", "deposit 1"),
            ("/c/1", "Census 1"),
        ):
            relay.away = True
            browser.go(address)
            check(f"waiting for {address} is seen", browser.until(lambda: browser.run(VISIBLE)))
            check(
                f"waiting for {address} is heard",
                browser.until(lambda: browser.text("#status") == "Waiting for the archive…"),
            )
            check(
                f"no reply to {address} is shown",
                browser.until(lambda: browser.text(".refusal")) and browser.settled() and not browser.run(VISIBLE),
            )
            relay.away = False
            browser.one(".again").click()
            check(
                f"{address} once more",
                browser.until(lambda: heading in browser.text("h1") and not browser.all(".refusal"))
                and browser.settled(),
            )
            browser.go("/find")
            browser.at("/find")
        # A generation that does not come.
        browser.go("/d/1")
        browser.until(lambda: browser.all("canvas.large")) and browser.settled()
        relay.away = True
        browser.type("#generation", "777\ue007")
        again = browser.until(lambda: browser.all(".again"))
        relay.away = False
        if again:
            again[0].click()
        check(
            "a generation is asked for again",
            bool(again) and browser.at("/d/1/at/777") and browser.until(lambda: browser.all(".again") == []),
        )
        browser.open(f"http://127.0.0.1:{relay.port}/d/4000")
        check(
            "what is not there is not tried again",
            browser.until(lambda: browser.text(".refusal")) and browser.all(".again") == [],
        )
    finally:
        relay.end()


def rated(gateway: Gateway, browser: Browser, base: str, _folder: str) -> None:
    """A census that the gateway refuses for its rate waits, says so, and is sent again by itself."""
    path, names = "/deposits/1/censuses/0/4", {"x-member": "ann", "x-token": "g0-l4-d1"}
    browser.open(f"{base}/d/1")
    browser.unfold()
    browser.type("#census-member", "ann")
    browser.type("#census-limit", "4")
    for _ in range(20):
        status, body, lines = asked(gateway.port, path, "POST", b"", names)
        if status == 429:
            break
    same("when it may be sent again", (status, lines["retry-after"]), (429, "5"))
    same("other requests may come sooner", asked(gateway.port, "/deposits/1")[0], 200)
    browser.one("#count").click()
    check(
        "it waits",
        browser.until(lambda: "sent again every 5 seconds" in browser.text(".waiting"))
        and "this one waits" in browser.text("#status"),
    )
    check("it is counted", browser.at("/c/2") and browser.text("h1") == "Census 2")


def already(_gateway: Gateway, browser: Browser, base: str, _folder: str) -> None:
    """A deposit that was there already says so, and one that is new does not."""
    for said in ("Deposited.", "You had already deposited this; it keeps its number."):
        browser.open(f"{base}/new")
        browser.type("#pattern", "#N Told\nx = 7, y = 1\n7o!")
        browser.type("#member", "ann")
        browser.one("#send").click()
        time.sleep(OLD)
        check(
            f"it is shown: {said}",
            browser.until(lambda: browser.text("h1").startswith("Told ")) and browser.text(".note") == said,
        )
    browser.driver.refresh()
    browser.settled()
    check(
        "it is shown once",
        browser.until(lambda: browser.text("h1").startswith("Told ")) and browser.text(".note") == "",
    )


# From now on lists come once they are released.
HELD = """
const fetched = window.fetch;
const held = new Promise((resolve) => { window.release = resolve; });
window.fetch = async (path, options) => {
  if (path.startsWith('/deposits/after/')) await held;
  return fetched(path, options);
};
"""


def neighbours(gateway: Gateway, browser: Browser, base: str, _folder: str) -> None:
    """A deposit leads to the next one only if there is one, even if the list with it is late, and from a number that is
    not there one goes back."""
    last = kept(gateway, "last", b"#N Last\nx = 1, y = 2\no$o!\n")
    time.sleep(OLD)
    links = "return [...document.querySelectorAll('.pager a')].map((link) => link.getAttribute('href'))"
    browser.open(f"{base}/d/{last}")
    same("the newest has none after it", browser.run(links), [f"/d/{last - 1}"])
    browser.press(KEYS["newer"])
    browser.press(KEYS["older"])
    check(
        "its key leads nowhere",
        browser.at(f"/d/{last - 1}") and browser.until(lambda: browser.run(links) == [f"/d/{last - 2}", f"/d/{last}"]),
    )
    browser.open(f"{base}/d/{last + 1}")
    browser.until(lambda: browser.text(".refusal"))
    browser.press(KEYS["older"])
    check("back from a number that is not there", browser.at(f"/d/{last}"))
    browser.run(HELD)
    browser.go(f"/d/{last - 1}")
    check("the deposit comes before the list", browser.at(f"/d/{last - 1}") and browser.text("h1") != "")
    browser.press(KEYS["newer"])
    browser.run("window.release()")
    check("its key waits for the list", browser.at(f"/d/{last}"))


def capitals(_gateway: Gateway, browser: Browser, base: str, _folder: str) -> None:
    """Addresses are taken in capitals, too."""
    for address, wanted in (
        ("D/1", "deposit 1"),
        ("o/b3-s23/XQ4_153", "glider xq4_153"),
        ("d/of/ANN", "Deposits of ann"),
        ("New", "New deposit"),
    ):
        browser.open(f"{base}/{address}")
        check(f"the address {address}", wanted in browser.text("h1") and browser.all(".refusal") == [])


# Asks for the last number of an archive with this many deposits, which answers slowly, and counts the requests, those
# at once and the turns. Each try has the module again, which remembers what it found.
LAST = """
const { lastDeposit } = await import(`/sources/requests/archive.js?${words[0]}-${words[1]}`);
const whole = window.fetch;
const seen = { requests: 0, now: 0, most: 0 };
window.fetch = async (path, options) => {
  const found = /\\/deposits\\/after\\/([0-9]+)/.exec(path);
  if (!found) return whole(path, options);
  seen.requests += 1;
  seen.now += 1;
  seen.most = Math.max(seen.most, seen.now);
  await new Promise((resolve) => setTimeout(resolve, 20));
  seen.now -= 1;
  const deposits = [];
  for (let id = Number(found[1]) + 1; id <= words[0] && deposits.length < 100; id += 1) deposits.push({ id });
  return new Response(JSON.stringify({ deposits }), { status: 200 });
};
const begun = performance.now();
try {
  const last = await lastDeposit(new AbortController().signal);
  return [last, seen.requests, seen.most, performance.now() - begun];
} finally {
  window.fetch = whole;
}
"""


def last_number(_gateway: Gateway, browser: Browser, base: str, _folder: str) -> None:
    """The newest number is looked for by four lists at a time: few turns, also in a large archive. The time is the
    least of three, as others may be at work."""
    browser.open(f"{base}/find")
    for number in (0, 1, 99, 100, 101, 1099, 1100, 43_557, 999_999):
        found, requests, most, took = min(
            (browser.wait_for(LAST, number, turn) for turn in range(3)), key=lambda one: float(one[-1])
        )
        check(
            f"the last of {number} is {found} by {requests} requests in {took:.0f} ms",
            found == number and most <= 4 and requests <= 40 and took < 800,
        )
    same("four are asked at once", most, 4)


def kept_places(gateway: Gateway, browser: Browser, base: str, _folder: str) -> None:
    """Back and reload find the place in a list, a text that is half typed, and the speed."""
    for turn in range(30):
        kept(gateway, f"place-{turn}", f"#N Place {turn}\nx = 1, y = 1\n{turn + 100}o!".encode())
    browser.screen(700, 500)
    browser.open(f"{base}/d/after/3")
    browser.run("scrollTo(0, 420)")
    browser.until(lambda: browser.run("return history.state?.scroll === 420"))
    browser.run("document.querySelectorAll('.cards a')[9].click()")
    browser.until(lambda: browser.all("canvas.large"))
    browser.settled()
    same("another page begins at its top", browser.run("return scrollY"), 0)
    browser.driver.back()
    check(
        "back finds the place in the list",
        browser.until(lambda: browser.run("return !!document.querySelector('.cards') && scrollY") == 420),
    )
    browser.driver.refresh()
    check(
        "reload finds it, too",
        browser.until(lambda: browser.run("return !!document.querySelector('.cards') && scrollY") == 420),
    )
    browser.screen()
    text = "#N Half\nx = 3, y = 1\n3"
    browser.open(f"{base}/new")
    browser.type("#pattern", text)
    browser.go("/find")
    browser.at("/find")
    browser.driver.back()
    check(
        "back finds what was typed",
        browser.until(lambda: browser.run("return document.getElementById('pattern')?.value") == text),
    )
    browser.driver.refresh()
    check(
        "reload finds what was typed",
        browser.until(lambda: browser.run("return document.getElementById('pattern')?.value") == text),
    )
    browser.one("#pattern").send_keys("o!")
    browser.type("#member", "ann")
    browser.one("#send").click()
    browser.until(lambda: browser.text("h1").startswith("Half "))
    browser.open(f"{base}/new")
    same(
        "nothing of it is left after it is deposited",
        browser.run("return document.getElementById('pattern').value"),
        "",
    )
    browser.open(f"{base}/d/1")
    browser.run(
        "const speed = document.getElementById('speed'); speed.value = '2'; speed.dispatchEvent(new Event('change'))"
    )
    browser.open(f"{base}/d/2")
    same("the speed is kept", browser.run("return document.getElementById('speed').value"), "2")
    browser.run("localStorage.removeItem('speed')")


def kept_texts(_gateway: Gateway, browser: Browser, base: str, _folder: str) -> None:
    """A name and an author that are typed for a file without them are kept with its text, until it is deposited."""
    token = "return document.getElementById('token').value"
    texts = "return ['text-name', 'text-author'].map((name) => document.getElementById(name)?.value)"
    browser.open(f"{base}/new")
    browser.type("#pattern", "x = 9, y = 1\n9o!")
    browser.type("#text-name", "Typed")
    browser.type("#text-author", "Ann")
    wanted = browser.run(token)
    browser.go("/find")
    browser.at("/find")
    browser.driver.back()
    check("both are in their fields", browser.until(lambda: browser.run(texts) == ["Typed", "Ann"]))
    same("they are sent", browser.run(token), wanted)
    browser.type("#member", "ann")
    browser.one("#send").click()
    check("they are deposited", browser.until(lambda: browser.text("h1").startswith("Typed ")))
    browser.open(f"{base}/new")
    browser.type("#pattern", "x = 9, y = 2\n9o!")
    same("another text has none of them", browser.run(texts), ["", ""])
    browser.run("sessionStorage.clear()")


def no_cells(gateway: Gateway, browser: Browser, base: str, _folder: str) -> None:
    """Before it stores a pattern without cells, the page asks, once."""
    last = len(listed(gateway))
    browser.open(f"{base}/new")
    browser.type("#pattern", "#N Nothing\nx = 0, y = 0\n!")
    browser.type("#member", "ann")
    browser.one("#send").click()
    check("it asks", browser.until(lambda: "has no live cells" in browser.text("#sent")))
    same("nothing is stored", len(listed(gateway)), last)
    browser.one("#send").click()
    check("it is stored by the second press", browser.at(f"/d/{last + 1}"))


# Answers in place of an archive without deposits and without an index.
EMPTY = """
window.fetch = async (path) => (String(path).startsWith('/deposits/after/')
  ? new Response('{"deposits":[]}', { status: 200 })
  : new Response('', { status: 404 }));
"""


def nothing_yet(gateway: Gateway, browser: Browser, base: str, _folder: str) -> None:
    """The first page of an empty archive has no example that leads nowhere. Without scripts, a page has links to the
    archive's own texts."""
    examples = "return [...document.querySelectorAll('.examples a')].map((link) => link.textContent)"
    browser.open(f"{base}/")
    same("examples", browser.run(examples), ["loaf", "xq4_153", "B36/S23", "#1"])
    browser.open(f"{base}/about")
    browser.run(EMPTY)
    browser.go("/")
    check("an empty archive", browser.until(lambda: "This list is still empty" in browser.text(".empty")))
    same("examples of an empty archive", browser.run(examples), ["loaf", "xq4_153", "B36/S23"])
    check("nothing plays", browser.until(lambda: not browser.one("#play-it").is_displayed()))
    without = asked(gateway.port, "/")[1].decode().split("<noscript>")[1].split("</noscript>")[0]
    for path in ("/words", "/deposits/after/0", "/deposits/1"):
        check(f"a link without scripts to {path}", f'<a href="{path}">' in without)


def followed(_gateway: Gateway, browser: Browser, base: str, _folder: str) -> None:
    """Back in a list the focus is on the card that was opened, so that the keys continue from there."""
    focus = "return document.activeElement.pathname ?? document.activeElement.tagName"
    browser.open(f"{base}/d/after/3")
    same("the focus of a list at first", browser.run(focus), "H1")
    for _ in range(5):
        browser.press("j")
    card = browser.run(focus)
    browser.press("\ue007")
    check("a card is opened", browser.at(card) and browser.run(focus) == "H1")
    browser.driver.back()
    check(
        "the focus is on its card again", browser.at("/d/after/3") and browser.until(lambda: browser.run(focus) == card)
    )
    browser.press("j")
    check("the next one", browser.run(focus) == f"/d/{int(card.split('/')[2]) - 1}")
    browser.open(f"{base}/d/after/3")
    same("a list that is opened again begins at its heading", browser.run(focus), "H1")


# The least contrast of the border of what can be used with what is round it (WCAG 2.1, 1.4.11: 3).
CONTRAST = """
const channel = (part) => (part <= 0.03928 ? part / 12.92 : ((part + 0.055) / 1.055) ** 2.4);
const light = (color) => {
  const [red, green, blue] = color.match(/[0-9.]+/g).slice(0, 3).map((part) => channel(part / 255));
  return 0.2126 * red + 0.7152 * green + 0.0722 * blue;
};
const back = light(getComputedStyle(document.documentElement).backgroundColor);
return [...document.querySelectorAll(
  'main button, main input:not([type=range]):not([type=checkbox]):not([type=file]), main select, main textarea'
)].filter((one) => one.checkVisibility() && !one.disabled).map((one) => {
  const style = getComputedStyle(one);
  const [edge, inside] = [light(style.borderColor), light(style.backgroundColor)];
  return Math.max(...[back].map((round) => (Math.max(edge, round) + 0.05) / (Math.min(edge, round) + 0.05)));
}).reduce((least, found) => Math.min(least, found), 99);
"""


def contrasts(_gateway: Gateway, browser: Browser, base: str, _folder: str) -> None:
    """Borders of fields and buttons are seen, light and dark."""
    for scheme in ("light", "dark"):
        browser.screen(1100, 900, scheme)
        for address in ("new", "find", "d/1"):
            browser.open(f"{base}/{address}")
            browser.until(lambda: browser.run(CONTRAST) < 99)
            least = browser.run(CONTRAST)
            check(f"borders of {address} in {scheme}: {least:.2f}", 3 <= least < 99)
    browser.screen()


SHADES = """
const { thumbnail } = await import('/sources/drawing/draw.js');
const rows = Array.from({ length: 640 }, (_, row) => words[0] === 'half'
  ? Array.from({ length: 640 }, (_, at) => at)
  : row % 40 === 0 ? [row, row + 1] : []);
const canvas = thumbnail({ width: 640, height: 640, population: 1, rows }, 176, 120);
const pixels = canvas.getContext('2d').getImageData(0, 0, canvas.width, canvas.height).data;
return [...pixels.filter((_, at) => at % 4 === 0)];
"""


def shaded(_gateway: Gateway, browser: Browser, base: str, _folder: str) -> None:
    """A small drawing of a large field is as dark as it has live cells, and a single cell is seen, in one pixel or
    across up to four."""
    browser.screen(1100, 900, "light")
    browser.open(f"{base}/find")
    half, few = browser.wait_for(SHADES, "half"), browser.wait_for(SHADES, "few")
    dark, white = min(half), max(half)
    check(f"half of the cells are live: {dark} to {white}", white == 255 and 110 < dark < 175)
    check(
        f"single cells are seen: {min(few)}, {sum(shade < 255 for shade in few)}",
        150 < min(few) < 230 and 16 <= sum(shade < 255 for shade in few) <= 64,
    )


def phone(_gateway: Gateway, browser: Browser, base: str, _folder: str) -> None:
    """On a phone the controls take few rows, the head of a census' table is not broken, and there is room beside the
    canvas to scroll by."""
    browser.screen(390, 844)
    browser.open(f"{base}/d/1")
    beside = browser.run("return innerWidth - document.querySelector('canvas.large').getBoundingClientRect().right")
    check(f"{beside} pixels beside the canvas", beside >= 32)
    browser.open(f"{base}/c/1")
    heads = browser.run(
        "return [...document.querySelectorAll('.census thead th')]"
        ".map((head) => head.getClientRects().length === 1 && head.getBoundingClientRect().height < 40)"
    )
    same("the head of a census", heads, [True, True])
    browser.screen()


# The files of the pages that a window has loaded, with their bytes, without the replies of an archive or an index.
LOADED = """
return [...performance.getEntriesByType('navigation'), ...performance.getEntriesByType('resource')]
  .map((entry) => [new URL(entry.name).pathname, entry.decodedBodySize])
  .filter(([path]) => path === '/d' || path.startsWith('/web/') || path === '/favicon.ico');
"""
# The most bytes that the list of deposits may load before it asks the archive, uncompressed.
MOST_BYTES = 100_000


def light(_gateway: Gateway, browser: Browser, base: str, _folder: str) -> None:
    """The list of deposits loads what it shows, and no more: a player, a form or the names of objects come with their
    own pages."""
    browser.open(f"{base}/d")
    browser.until(lambda: browser.all(".cards canvas"))
    loaded = dict(browser.run(LOADED))
    check(
        f"the list is {sum(loaded.values())} bytes: {sorted(loaded)}",
        40_000 < sum(loaded.values()) <= MOST_BYTES and min(loaded.values()) > 0,
    )


PARTS = [
    light,
    waiting,
    rated,
    already,
    neighbours,
    capitals,
    last_number,
    kept_places,
    kept_texts,
    no_cells,
    nothing_yet,
    followed,
    shaded,
    phone,
]
