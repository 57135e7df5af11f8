"""The parts of tests/test_web.py on the search index: searching, a member's deposits, where an object occurs, censuses,
the feed; and that the pages do without an index.
"""
import json
import os
import random
import shutil
import subprocess
import time
import unicodedata
import xml.etree.ElementTree

import archives
from typing import Any
from collections.abc import Callable
from browser import Browser
from clients import check, exchanged, message, same
from gateways import DEPLOY, Gateway
from pages import asked, index, kept, listed
from web_addresses import Previewed

LINKS = (
    "return [...document.querySelectorAll('.cards a')]"
    ".map((link) => Number(link.getAttribute('href').match(/[0-9]+/)[0]))"
)
ENTER = "\ue007"
MANY = 100_000
# How long a search over all blocks may take once they came, in seconds.
QUICK = 0.3
ANN, BLOCK, BLOCKS = (
    b"#N Ann\xe2\x80\x99s \xc3\x89ater\n#O Ann Smith\nx = 4, y = 4, rule = B3/S23\n2o$obo$2bo$2b2o!\n",
    b"#N Lone block\n#O Bob Jones\nx = 2, y = 2\n2o$2o!\n",
    b"#N Block beside block\nx = 6, y = 2\n2o2b2o$2o2b2o!\n",
)


def opened(browser: Browser, address: str) -> Any:
    """Opens an address, with the list of blocks as it is now."""
    browser.open(address)
    return browser.run(LINKS)


def numbers(browser: Browser) -> Any:
    return browser.run(LINKS)


def without(gateway: Gateway, browser: Browser, base: str, _: object) -> None:
    """Without an index there is no search, and numbers, codes, lists and members are as they are."""
    same(
        "there is no index",
        asked(gateway.port, "/index/index.json")[:2],
        (404, b'{"error":"no-such-page","refusal":12}'),
    )
    browser.open(f"{base}/find")
    check(
        "no form to search by",
        browser.all("form.search") == [] and browser.one("#box").is_displayed(),
    )
    browser.open(f"{base}/find?text=glider")
    check(
        "a search that was cited says that no index exists", browser.until(lambda: "no index" in browser.text(".count"))
    )
    browser.open(f"{base}/c")
    check("the list of censuses says so too", "no index" in browser.text(".empty"))
    browser.open(f"{base}/o/B3-S23/xs4_33")
    check(
        "an object has its total",
        "in all censuses of deposits under B3/S23." in browser.text(".total") and browser.all("#occurrences") == [],
    )
    browser.open(f"{base}/d/of/ANN")
    check("a member in capitals", browser.text("h1") == "Deposits of ann" and len(numbers(browser)) > 3)


def a_census(gateway: Gateway, number: int, generation: int = 0, limit: int = 4) -> Any:
    reply = exchanged(
        gateway.life_port,
        [
            message(
                "POST",
                f"/deposits/{number}/censuses/{generation}/{limit}",
                b"",
                "x-member: ann",
                f"x-token: s{number}-{generation}-{limit}",
            )
        ],
    )
    return json.loads(reply.partition(b"\r\n\r\n")[2])["census"]


def searched(gateway: Gateway, browser: Browser, base: str, folder: str) -> None:
    """Deposits are found by each of their properties, the best first, through the form and by an address."""
    ids = [
        kept(gateway, f"search-{turn}", text, member)
        for turn, (text, member) in enumerate(
            [(ANN, "cid"), (BLOCK, "cid"), (BLOCKS, "dan"), (b"#N Another\nx = 5, y = 1, rule = B36/S23\n5o!\n", "dan")]
        )
    ]
    check("an index is made", index(gateway, os.path.join(folder, "club.db")))
    browser.open(f"{base}/find")
    browser.type("#search-text", "lone block" + ENTER)
    check(
        "a name by the form",
        browser.at("/find?text=lone+block") and browser.until(lambda: numbers(browser) == [ids[1]]),
    )
    check("it is said what the index is", "nothing about it is proved" in browser.text(".hint"))
    browser.picture("search")
    queries: list[tuple[str, list[int]]] = [
        ("text=block", [ids[2], ids[1]]),
        ("text=block+beside", [ids[2]]),
        ("text=eater", [ids[0]]),
        ("text=%C3%89ATER", [ids[0]]),
        ("text=smith", [ids[0]]),
        ("author=jones", [ids[1]]),
        ("rule=23/36", [ids[3]]),
        ("rule=B36/S23", [ids[3]]),
        ("member=dan", [ids[3], ids[2]]),
        ("member=DAN&cells=8..8", [ids[2]]),
        ("text=block&side=3..", [ids[2]]),
        ("text=block&side=..3", [ids[1]]),
        ("text=another&day=2000-01-01..", [ids[3]]),
        ("text=another&day=..2000-01-01", []),
        (f"text={ids[3]}", [ids[3]]),
        ("text=nothing+of+it", []),
    ]
    for query, wanted in queries:
        browser.open(f"{base}/find?{query}")
        check(
            f"what is found by {query}: {numbers(browser)}",
            browser.until(
                lambda: numbers(browser) == wanted
                and browser.text(".count").startswith(str(len(wanted)) if wanted else "None")
            ),
        )
    browser.open(f"{base}/find?member=dan&cells=8..8")
    same(
        "the form has what was asked",
        browser.run(
            "return ['member', 'cells', 'cells-to', 'text']"
            ".map((name) => document.getElementById('search-' + name).value)"
        ),
        ["dan", "8", "8", ""],
    )
    browser.open(f"{base}/find?text=list+5")
    shown = browser.run("return [...document.querySelectorAll('.cards strong')].map((name) => name.textContent)")
    check(
        f"the best first: {shown[:3]}",
        shown[0] == "List 5"
        and set(shown[1:11]) == {f"List {number}" for number in range(50, 60)}
        and "List 15" not in shown[:11],
    )
    browser.one(f".cards a[href$='{numbers(browser)[0]}']").click()
    check("a find leads to its deposit", browser.until(lambda: browser.text("h1").startswith("List 5 ")))


def members(gateway: Gateway, browser: Browser, base: str, folder: str) -> None:
    """A member's deposits are there at once, also those that came after the index was made."""
    check("an index is made again", index(gateway, os.path.join(folder, "club.db")))
    later = kept(gateway, "later", b"#N Later\nx = 3, y = 1\n3o!\n", "dan")
    time.sleep(2.1)
    browser.open(f"{base}/d/of/dan")
    rows = listed(gateway)
    wanted = [row["id"] for row in rows if row["member"] == "dan"][::-1]
    check(
        f"a member's deposits: {numbers(browser)}",
        browser.until(lambda: numbers(browser) == wanted and wanted[0] == later)
        and browser.text(".count") == "3 deposits",
    )
    browser.open(f"{base}/d/of/eve")
    check("24 of them at first", len(numbers(browser)) == 24 and browser.text(".count") == "30 deposits")
    browser.one(".more").click()
    check("more by a press", len(set(numbers(browser))) == 30 and not browser.one(".more").is_displayed())


def counted(gateway: Gateway, browser: Browser, base: str, folder: str) -> None:
    """An object's page says which censuses and deposits have it, a deposit's which censuses it has, and there is a list
    of all."""
    rows = listed(gateway)
    one, two = (
        next(row["id"] for row in rows if row["member"] == member and row["population"] == cells)
        for member, cells in (("cid", 4), ("dan", 8))
    )
    made = [a_census(gateway, one), a_census(gateway, two), a_census(gateway, one, 3)]
    check("an index of the censuses", index(gateway, os.path.join(folder, "club.db")))
    lines = (
        "return [...document.querySelectorAll('.censuses tbody tr')]"
        ".map((row) => [...row.children].map((cell) => cell.textContent))"
    )
    browser.open(f"{base}/o/B3-S23/xs4_33")
    found = browser.until(lambda: browser.one("#occurrences") and browser.run(lines))
    check(
        f"where an object occurs: {found}",
        [row[0] for row in found][:3] == [str(number) for number in sorted(made, reverse=True)]
        and [row[2] for row in found][:3] == ["1", "2", "1"],
    )
    total = int(browser.text(".total").split()[0])
    check(
        "it is the total of the archive",
        sum(int(row[2]) for row in found) == total and f"In {len(found)} censuses of " in browser.text("#occurrences"),
    )
    check("a deposit by its name", found[0][1].startswith(f"Lone blockdeposit {one}, generation 3"))
    browser.picture("object")
    browser.one("#occurrences tbody a").click()
    check("it leads to the census", browser.at(f"/c/{max(made)}"))
    browser.open(f"{base}/o/B36-S23/xq4_153")
    check(
        "an object that no census has",
        browser.until(lambda: "No census in the index contains it." in browser.text("#occurrences")),
    )
    browser.open(f"{base}/d/{one}")
    check(
        "a deposit's censuses",
        browser.until(lambda: browser.text("#censuses h2") == "2 censuses")
        and [row[0] for row in browser.run(lines)] == [str(made[2]), str(made[0])],
    )
    browser.open(f"{base}/find")
    browser.one("a[href='/c']").click()
    check(
        "the list of censuses",
        browser.at("/c")
        and browser.text(".count") == f"{max(made)} censuses"
        and [row[0] for row in browser.run(lines)]
        == [str(number) for number in range(max(made), max(0, max(made) - 20), -1)],
    )
    steady = [row[3].startswith("steady") for row in browser.run(lines)]
    own = [
        json.loads(asked(gateway.life_port, f"/censuses/{number}")[1])["steady"]
        for number in range(max(made), max(0, max(made) - 20), -1)
    ]
    same("whether each is steady", steady, own)


def fed(gateway: Gateway, browser: Browser, base: str, _: object) -> None:
    """The page links the feed, and is what the archive has."""
    browser.open(f"{base}/")
    link = browser.run("return document.querySelector('link[type=\"application/atom+xml\"]').getAttribute('href')")
    status, body, lines = asked(gateway.port, link)
    titles = [title.text for title in xml.etree.ElementTree.fromstring(body).iter("{http://www.w3.org/2005/Atom}title")]
    check(
        "the feed",
        status == 200
        and lines["content-type"] == "application/atom+xml; charset=utf-8"
        and lines["cache-control"] == "no-cache"
        and titles[1] == "Later",
    )
    links = [
        link.get("href", "")
        for link in xml.etree.ElementTree.fromstring(body).iter("{http://www.w3.org/2005/Atom}link")
    ]
    check(
        f"its links are whole addresses: {links[:3]}",
        links[:2] == [f"{base}/index/feed.xml", f"{base}/"]
        and all(link.startswith(f"{base}/d/") for link in links[2:]),
    )
    again = asked(gateway.port, link, headers={"if-modified-since": lines["last-modified"]})
    same("a feed that a reader has is not sent again", again[:2], (304, b""))
    head = json.loads(asked(gateway.port, "/index/index.json")[1])
    status, _, lines = asked(gateway.port, "/index/" + head["blocks"]["deposits"][0])
    check("a block is kept by browsers", status == 200 and "immutable" in lines["cache-control"])


MARKED = b'#N <b>"Glider" & <!--# echo var="host" --> gr\xc3\xb6\xc3\x9fer\nx = 3, y = 3, rule = B3/S23\nbob$2bo$3o!\n'
NAMED = '<b>"Glider" & <!--# echo var="host" --> größer'


def titles(gateway: Gateway, _browser: Browser, base: str, folder: str) -> None:
    """A preview of a link to a deposit has its name, from the index. What is in a name is text; long names are cut."""
    marked = kept(gateway, "titles-marked", MARKED, "eve")
    long = kept(gateway, "titles-long", b"#N " + b"long " * 40 + b"\nx = 1, y = 1, rule = B3/S23\no!\n", "eve")
    bare = kept(gateway, "titles-bare", b"x = 2, y = 1, rule = B3/S23\n2o!\n", "eve")
    same("before the index has it", titled(gateway, f"/d/{marked}"), f"Deposit {marked} · Life archive")
    check("an index with names", index(gateway, os.path.join(folder, "club.db")))
    for path, wanted in (
        (f"/d/{marked}", f"{NAMED} · Deposit {marked} · Life archive"),
        (f"/d/000{marked}", f"{NAMED} · Deposit 000{marked} · Life archive"),
        (f"/D/{marked}/at/7/", f"{NAMED} · Deposit {marked}, generation 7 · Life archive"),
        (f"/d/{long}", f"{('long ' * 16).strip()} · Deposit {long} · Life archive"),
        (f"/d/{bare}", f"Deposit {bare} · Life archive"),
        (f"/d/{bare}{marked}", f"Deposit {bare}{marked} · Life archive"),
        (f"/c/{marked}", f"Census {marked} · Life archive"),
        ("/", "Life archive"),
    ):
        same(f"the preview of {path}", titled(gateway, path), wanted)
    for path in ("/index/names-0.txt", "/.names/0"):
        same(f"{path} is not served", asked(gateway.port, path)[:2], (404, b'{"error":"no-such-page","refusal":12}'))


def titled(gateway: Gateway, path: str) -> str:
    """The title of a page, which is the same in its properties."""
    said = Previewed(asked(gateway.port, path)[1]).said
    same(f"the two titles of {path}", said["title"], said["og:title"])
    return said["title"]


def narrow(gateway: Gateway, browser: Browser, base: str, _: object) -> None:
    """What the index adds fits a phone, and has a name for who hears it."""
    for address in ("find", "find?text=list&cells=1..", "c", "o/B3-S23/xs4_33", "d/of/eve"):
        browser.screen(320, 780)
        browser.open(f"{base}/{address}")
        browser.until(lambda: "nothing about it is proved" in browser.text("main") or address == "find")
        wide = browser.run("return document.documentElement.scrollWidth")
        check(f"'{address}' on 320 pixels: {wide}", wide <= 320)
        same(f"names on '{address}': {(unnamed := browser.unnamed())}", unnamed, [])
    browser.screen()


def folded(text: str) -> str:
    return "".join(
        letter for letter in unicodedata.normalize("NFKD", text) if not unicodedata.category(letter).startswith("M")
    ).lower()


# The time of each search is the least of three, as others may be at work. Beside them: how many blocks were on their
# way at once.
SEARCH = """
const { allDeposits, search, NOTHING } = await import('/sources/requests/index.js');
const whole = window.fetch;
let [going, most] = [0, 0];
window.fetch = async (...asked) => {
  going += 1;
  most = Math.max(most, going);
  try {
    return await whole(...asked);
  } finally {
    going -= 1;
  }
};
const all = await allDeposits(() => {}, new AbortController().signal);
window.fetch = whole;
const found = [];
for (const asked of words[0]) {
  const times = [];
  let rows;
  while (times.length < 3) {
    const begun = performance.now();
    rows = search(all, { ...NOTHING, ...asked });
    times.push(performance.now() - begun);
  }
  found.push([Math.min(...times), rows.map((row) => row.id)]);
}
return [all.length, most, found];
"""


def large(gateway: Gateway, browser: Browser, base: str, folder: str) -> None:
    """A search over 100,000 deposits is quick once its blocks came, and finds what it should."""
    chance, copy, made = random.Random(21), os.path.join(folder, "many.db"), os.path.join(gateway.folder, "index")
    entries = [archives.Entry(number, chance) for number in range(1, MANY + 1)]
    database = archives.new_archive(copy)
    archives.fill(database, entries, 1)
    database.close()
    shutil.rmtree(made)
    same(
        "an index of 100,000",
        subprocess.run(
            [os.path.join(DEPLOY, "life-index"), copy, made], stdout=subprocess.DEVNULL, timeout=120
        ).returncode,
        0,
    )
    browser.open(f"{base}/find")
    fits: list[tuple[dict[str, Any], Callable[[archives.Entry, int], bool]]] = [
        (
            {"text": "gun"},
            lambda entry, _: any("gun" in folded(text) for text in (entry.name, entry.author, entry.member)),
        ),
        (
            {"text": "rake puffer"},
            lambda entry, _: all(
                any(word in folded(text) for text in (entry.name, entry.author, entry.member))
                for word in ("rake", "puffer")
            ),
        ),
        (
            {"cells": ["10", "20"], "rule": "B36/S23"},
            lambda entry, _: 10 <= entry.cells <= 20 and entry.rule == "B36/S23",
        ),
        (
            {"text": "lane 77771"},
            lambda entry, number: "lane" in folded(entry.name + entry.author)
            and (number == 77771 or "77771" in entry.name),
        ),
        (
            {"member": "member-7", "side": ["", "30"]},
            lambda entry, _: entry.member == "member-7" and max(entry.width, entry.height) <= 30,
        ),
        ({}, lambda *_: True),
    ]
    count, most, found = browser.wait_for(SEARCH, [query for query, _ in fits])
    check(f"all blocks come, {most} at once", count == MANY and 1 < most <= 8)
    for (query, is_fit), (took, rows) in zip(fits, found):
        wanted = {number for number, entry in enumerate(entries, 1) if is_fit(entry, number)}
        check(
            f"{query}: {len(rows)} of {len(wanted)} in {took:.0f} ms",
            set(rows) == wanted and len(rows) == len(wanted) and took < 1000 * QUICK,
        )
    exact = [number for number, entry in enumerate(entries, 1) if entry.name == entries[4320].name]
    browser.open(f"{base}/find?text={entries[4320].name.replace(' ', '+')}")
    check("the page shows the best", browser.until(lambda: numbers(browser)[:1] == exact))
    shutil.rmtree(made)


PARTS = [without, searched, members, counted, fed, titles, narrow, large]
