"""The page of hauls for tests/test_web.py: a table that is dropped or chosen is shown, and other files are refused.

Tables and soups are made by haul_reference.py.
"""
import csv
import os
import re
from typing import Any

import haul_reference
import life
import reference
from browser import Browser
from clients import HERE, check, exchanged, message, same
from gateways import Gateway

ROOT, FIRST, SOUPS, GENERATION, LIMIT = "ann-2026", 1000, 5000, 2048, 60
LIFE, HIGHLIFE = "B3/S23", "B36/S23"
# A constellation, which has a name, and two that have none: three blinkers, and a text that only has the form of a
# code.
TRAFFIC_LIGHT, THREE_BLINKERS, UNKNOWN = "xp2_s01110szw222", "xp2_70ggg07", "xs999_0"
# A haul: how many of each code were counted, and in which soup first; None are the unresolved clusters.
Haul = dict[str | None, tuple[int, int | str]]
HAUL: Haul = {
    "xs4_33": (6107, 1000),
    "xq4_153": (1856, 1001),
    "xp2_7": (2451, 1003),
    "xs6_696": (3131, 1000),
    TRAFFIC_LIGHT: (611, 5481),
    THREE_BLINKERS: (269, 1007),
    UNKNOWN: (2, 1012),
    None: (489, 1042),
}
FOUND = 5481
# The longest table that is read, in bytes.
LONGEST = 16_777_216


def table(haul: Haul = HAUL, rule: str = LIFE, symmetry: str = "C1") -> str:
    return haul_reference.table_text(haul, ROOT, FIRST, SOUPS, GENERATION, LIMIT, rule, symmetry)


def objects(haul: Haul) -> list[str]:
    """The objects of a haul, the most frequent first."""
    return sorted((code for code in haul if code), key=lambda code: -haul[code][0])


def known_names() -> dict[str, str]:
    with open(os.path.join(HERE, "..", "web", "objects.csv"), encoding="ascii") as lines:
        return {row["code"]: row["name"] for row in csv.DictReader(line for line in lines if not line.startswith("#"))}


def written(folder: str, name: str, text: str) -> str:
    path = os.path.join(folder, name)
    with open(path, "w", encoding="ascii") as out:
        out.write(text)
    return path


def at_haul(browser: Browser, base: str) -> bool:
    """Opens the page of hauls without the table that the window keeps."""
    browser.open(f"{base}/haul")
    browser.run("sessionStorage.removeItem('haul')")
    browser.open(f"{base}/haul")
    return browser.at("/haul")


# ---- what is shown

ROWS = """
return [...document.querySelectorAll('main tbody tr')].map((row) => ({
  code: row.querySelector('th code').textContent,
  name: row.querySelector('th .name')?.textContent ?? null,
  link: row.querySelector('th a').pathname,
  numbers: [...row.querySelectorAll('.number')].map((cell) => cell.textContent),
  bar: row.querySelector('.bar').getBoundingClientRect().width
}));
"""
# For each row the pixels of its drawing that are of the color of live cells; null if it has none.
DRAWN = """
const { colors } = await import('/sources/drawing/draw.js');
const { live } = colors();
const pixelsOf = (canvas) => {
  const { width, height } = canvas;
  const pixels = new Uint32Array(canvas.getContext('2d').getImageData(0, 0, width, height).data.buffer);
  return [...pixels.keys()].filter((at) => pixels[at] === live).map((at) => [at % width, Math.floor(at / width)]);
};
return [...document.querySelectorAll('main tbody tr')]
  .map((row) => row.querySelector('canvas'))
  .map((canvas) => canvas && pixelsOf(canvas));
"""
FACTS = (
    "return Object.fromEntries([...document.querySelectorAll('.facts div')].map((fact) => "
    "[fact.querySelector('dt').textContent, fact.querySelector('dd').textContent]))"
)


def cells_of(pixels: Any, columns: int, rows: Any) -> Any:
    """The cells of a drawing with this many columns and rows, moved to the corner. Between large cells there is a gap
    of one pixel."""
    left, top = min(x for x, _ in pixels), min(y for _, y in pixels)
    width, height = 1 + max(x for x, _ in pixels) - left, 1 + max(y for _, y in pixels) - top
    size = max(-(-width // columns), -(-height // rows))
    return {((x - left) // size, (y - top) // size) for x, y in pixels}


def is_drawn(code: str, pixels: Any) -> Any:
    """Whether a drawing is that of the code; a code without cells has none."""
    wanted = life.spelled(code.split("_")[1])
    return cells_of(pixels, *life.box(wanted)) == wanted if wanted and pixels else not wanted and pixels is None


def is_listed(rows: Any, haul: Haul, rule: str) -> bool:
    """Whether the rows are the objects of a haul with their names, numbers, links and bars."""
    names = known_names() if rule == LIFE else {}
    codes, most = objects(haul), max(count for count, _ in haul.values())
    wanted = [
        {
            "code": code,
            "name": names.get(code),
            "link": f"/o/{rule.replace('/', '-')}/{code}",
            "numbers": [f"{number:,}" for number in haul[code]],
        }
        for code in codes
    ]
    widest = rows[0]["bar"] * most / haul[codes[0]][0] if rows else 0
    # The shortest bar has two pixels.
    bars = all(abs(row["bar"] - max(2, widest * haul[code][0] / most)) < 1 for row, code in zip(rows, codes))
    return widest > 50 and bars and [{name: row[name] for name in wanted[0]} for row in rows] == wanted


def is_shown(browser: Browser, haul: Haul, rule: str, named: str = "") -> bool:
    """Whether a haul is shown: what it is of, its sums, its objects, and the clusters without a code."""
    clusters, codes = sum(count for count, _ in haul.values()), objects(haul)
    browser.until(lambda: browser.text("#status") == f"{SOUPS:,} soups, {len(codes)} codes.")
    facts = {
        "Soups": f"{SOUPS:,}",
        "Clusters": f"{clusters:,}",
        "Objects": f"{len(codes)} codes",
        "Unresolved": f"{haul[None][0]:,}",
    }
    return (
        browser.text(".by")
        == f"Soups {FIRST:,} to {FIRST + SOUPS - 1:,} of {ROOT}{named}, at generation {GENERATION:,} under {rule}, "
        f"with periods up to {LIMIT}."
        and browser.run(FACTS) == facts
        and is_listed(browser.run(ROWS), haul, rule)
        and browser.text("main tfoot th").startswith("unresolved")
        and browser.text("main tfoot .number") == f"{haul[None][0]:,}"
        and browser.text(".refusal") == ""
    )


def dropped(_gateway: Gateway, browser: Browser, base: str, folder: str) -> None:
    """A table that is dropped is shown with drawings, names and bars, and nobody is asked for anything but the
    names."""
    check("the page of hauls", at_haul(browser, base) and browser.text("h1") == "A haul")
    check("it says whose tables it can't read", "Tables of apgsearch" in browser.text("#haul-file-hint"))
    browser.keep_logs()
    asked = len(browser.asked)
    browser.drop([written(folder, "ann.csv", table())], "main")
    check("a table that is dropped", is_shown(browser, HAUL, LIFE))
    names = {row["code"]: row["name"] for row in browser.run(ROWS)}
    same(
        "names of what is known alone",
        (names["xs4_33"], names["xq4_153"], names[TRAFFIC_LIGHT], names[THREE_BLINKERS], names[UNKNOWN]),
        ("block", "glider", "traffic light", None, None),
    )
    drawings = browser.wait_for(DRAWN)
    same(
        "a drawing of each object",
        [is_drawn(code, pixels) for code, pixels in zip(objects(HAUL), drawings)],
        [True] * len(objects(HAUL)),
    )
    same(
        "no drawing of a code without cells",
        [pixels is None for pixels in drawings],
        [code == UNKNOWN for code in objects(HAUL)],
    )
    browser.keep_logs()
    check(
        f"the table stays here: {browser.asked[asked:]}",
        all(re.search(r"/web/objects-\w+\.csv$|^data:|/sources/", url) for url in browser.asked[asked:]),
    )
    browser.picture("haul")


SOUP_FILES = """
const { soupFile } = await import('/sources/pages/haul.js');
return arguments[0].map((symmetry) => soupFile(arguments[1], arguments[2], arguments[3], symmetry));
"""


def soups_made(browser: Browser) -> None:
    """The soups of each symmetry are those of the reference, from their first column and row on."""
    texts = browser.wait_for(SOUP_FILES, list(haul_reference.WIDTHS), ROOT, LIFE, FOUND)
    for symmetry, text in zip(haul_reference.WIDTHS, texts):
        cells = haul_reference.soup(ROOT, FOUND, symmetry)
        named = f"soup {FOUND} of {ROOT}" + ("" if symmetry == "C1" else f" ({symmetry})")
        same(
            f"a soup of {symmetry}",
            life.read_file(text.encode()),
            (named.encode(), None, (), life.LIFE, cells),
        )


def chosen(_gateway: Gateway, browser: Browser, base: str, folder: str) -> None:
    """A table that is chosen, of another rule, is shown without names."""
    check("the page of hauls, empty again", at_haul(browser, base) and browser.all("main tbody tr") == [])
    browser.one("#haul-file").send_keys(written(folder, "highlife.csv", table(rule=HIGHLIFE)))
    check(
        "a table that is chosen",
        is_shown(browser, HAUL, HIGHLIFE) and {row["name"] for row in browser.run(ROWS)} == {None},
    )
    at_haul(browser, base)
    browser.one("#haul-file").send_keys(written(folder, "mirrored.csv", table(symmetry="D2_+1")))
    check("a table of a symmetry", is_shown(browser, HAUL, LIFE, " (D2_+1)"))
    soups_made(browser)


def elsewhere(_gateway: Gateway, browser: Browser, base: str, folder: str) -> None:
    """A table that is dropped on another page leads to the page of hauls, and is there again after the page of a soup
    and a reload."""
    path = written(folder, "elsewhere.csv", table())
    for address in ("/about", "/new"):
        at_haul(browser, base)
        browser.open(base + address)
        browser.drop([path], "h1")
        check(f"a table that is dropped on {address}", browser.at("/haul") and is_shown(browser, HAUL, LIFE))
    browser.one("main tbody button").click()
    check("a soup", browser.at("/new"))
    browser.driver.back()
    check("the table is there again", browser.at("/haul") and is_shown(browser, HAUL, LIFE))
    browser.driver.refresh()
    browser.settled()
    check("and after a reload", is_shown(browser, HAUL, LIFE))


def more(_gateway: Gateway, browser: Browser, base: str, folder: str) -> None:
    """Of a long table 100 objects are shown, and 100 more by each press."""
    haul: Haul = {f"xs{4 + turn}_33": (1 + turn * 37 % 251, FIRST + turn) for turn in range(250)}
    haul[None] = 0, ""
    at_haul(browser, base)
    browser.drop([written(folder, "long.csv", table(haul))], "main")
    shown = "return [...document.querySelectorAll('main tbody th code')].map((code) => code.textContent)"
    check(
        "the first hundred",
        browser.until(lambda: browser.run(shown) == objects(haul)[:100])
        and browser.text("main p button") == "Show 100 more of 250",
    )
    browser.one("main p button").click()
    check(
        "the second hundred",
        browser.run(shown) == objects(haul)[:200] and browser.text("main p button") == "Show 50 more of 250",
    )
    browser.one("main p button").click()
    check("all of them", browser.run(shown) == objects(haul) and not browser.one("main p button").is_displayed())
    codes = [code for code in haul if code]
    by_soup = sorted(codes, key=lambda code: haul[code][1])
    for head, wanted in (
        ("code", sorted(codes)),
        ("first", by_soup),
        ("first", by_soup[::-1]),
        ("count", objects(haul)),
    ):
        browser.one(f'th[data-column="{head}"] button').click()
        same(f"all of them by {head}", browser.run(shown), wanted)


def split(_gateway: Gateway, browser: Browser, base: str, folder: str) -> None:
    """Groups can be split: their objects count separately. That and the order are as they were when one comes back
    from a soup."""
    at_haul(browser, base)
    browser.drop([written(folder, "ann.csv", table())], "main")
    check("a table with groups", is_shown(browser, HAUL, LIFE))
    in_groups = 4 * HAUL[TRAFFIC_LIGHT][0] + 3 * HAUL[THREE_BLINKERS][0]
    blinkers = "return document.querySelector('a[href$=xp2_7]').closest('tr').textContent"
    check("groups are found", browser.until(lambda: f"{in_groups:,} more in groups" in browser.run(blinkers)))
    browser.one("#split").click()
    browser.one("th[data-column=code] button").click()
    counts = {code: count for code, (count, _) in HAUL.items() if code not in (None, TRAFFIC_LIGHT, THREE_BLINKERS)}
    counts["xp2_7"] += in_groups
    wanted = [[code, f"{counts[code]:,}"] for code in sorted(counts, key=str)]
    shown = "return [...document.querySelectorAll('main tbody tr')].map((row) => "
    shown += "[row.querySelector('th code').textContent, row.querySelector('.number').textContent])"
    same("split, by code", browser.run(shown), wanted)
    check("how many were in groups", f"{in_groups:,} of them in groups" in browser.run(blinkers))
    browser.one("main tbody button").click()
    check("a soup of it", browser.at("/new"))
    browser.driver.back()
    check("as it was before", browser.at("/haul") and browser.until(lambda: browser.run(shown) == wanted))
    browser.one("#split").click()
    check("groups again", [TRAFFIC_LIGHT, "611"] in browser.run(shown))


# ---- what is refused


def no_tables() -> Any:
    """Texts that are no tables, each by its name."""
    whole = table()
    lines = whole.split("\n")
    return {
        "empty.csv": "",
        "census.csv": "code,count\nxs4_33,3\nunresolved,0\n",
        "without-heading.csv": "\n".join(lines[4:]),
        "cut.csv": "\n".join(lines[:7]) + "\n",
        "without-end.csv": whole[:-1],
        "other-sum.csv": whole.replace("xs4_33,6107,", "xs4_33,6106,"),
        "no-count.csv": whole.replace("xs4_33,6107,1000", "xs4_33,0,1000"),
        "no-code.csv": whole.replace("xs4_33,", "ys4_33,"),
        "more-columns.csv": whole.replace("xs4_33,6107,1000", "xs4_33,6107,1000,1"),
        "symmetry.csv": table(symmetry="32x8"),
        "named-c1.csv": whole.replace("code,count,first", "# symmetry C1\ncode,count,first"),
        "two-symmetries.csv": table(symmetry="8x32\n# symmetry 8x32"),
        "headings.csv": "\n".join([lines[1], lines[0], *lines[2:]]),
        "longer.csv": whole.replace(ROOT, "a" * LONGEST),
    }


def refused(_gateway: Gateway, browser: Browser, base: str, folder: str) -> None:
    """An incomplete table is refused with a sentence, and neither it nor the table before it is shown. The next table
    is shown."""
    at_haul(browser, base)
    good = written(folder, "good.csv", table())
    for name, text in no_tables().items():
        browser.drop([good], "main")
        before = is_shown(browser, HAUL, LIFE)
        browser.drop([written(folder, name, text)], "main")
        found = browser.until(lambda: browser.text(".refusal") == f"{name} is not a complete table of life-haul.")
        check(f"{name} is refused", before and found and browser.one(".refusal").get_attribute("role") == "alert")
        same(f"{name} is heard of", browser.text("#status"), "That is not a table of a haul.")
        check(f"nothing is shown of {name}", browser.all("main table") == [] and browser.text(".by") == "")
    browser.drop([good], "main")
    check("a table after one that is refused", is_shown(browser, HAUL, LIFE))


# ---- a soup, and who reads the page


def soup_deposited(gateway: Gateway, browser: Browser, base: str, folder: str) -> None:
    """A press on the number of a soup takes the soup to the form, and it is deposited from there."""
    at_haul(browser, base)
    browser.drop([written(folder, "ann.csv", table())], "main")
    check("the table with the soup", is_shown(browser, HAUL, LIFE))
    browser.one(f"button[aria-label='Soup {FOUND}: see it, deposit it']").click()
    cells = haul_reference.soup(ROOT, FOUND)
    wanted = (f"soup {FOUND} of {ROOT}".encode(), None, (), life.LIFE, cells)
    text = browser.at("/new") and browser.until(lambda: browser.run("return document.getElementById('pattern').value"))
    check("a soup in the form", text and life.read_file(text.encode()) == wanted)
    check(
        "a soup is drawn",
        browser.until(lambda: f"soup {FOUND} of {ROOT}: {len(cells)} cells" in browser.text(".preview")),
    )
    browser.type("#member", "ann")
    browser.one("#send").click()
    browser.until(lambda: "/d/" in browser.driver.current_url)
    number = browser.driver.current_url.rsplit("/", 1)[1]
    same(
        "a soup is deposited",
        exchanged(gateway.life_port, [message("GET", f"/deposits/{number}")]),
        reference.reply(200, "text/plain", life.file_text(wanted)),
    )


def on_a_phone(_gateway: Gateway, browser: Browser, base: str, folder: str) -> None:
    """The table is no wider than a phone, and what is on it has a name for who hears it."""
    for width in (320, 390):
        browser.screen(width, 780)
        at_haul(browser, base)
        browser.drop([written(folder, "ann.csv", table())], "main")
        check(f"a haul on {width} pixels", is_shown_on_phone(browser, width))
    browser.picture("phone-haul")
    same(f"names on a haul: {(unnamed := browser.unnamed())}", unnamed, [])
    browser.screen()


def is_shown_on_phone(browser: Browser, width: int) -> Any:
    browser.until(lambda: len(browser.all("main tbody tr")) == len(objects(HAUL)))
    return (
        len(browser.all("main tbody tr")) == len(objects(HAUL))
        and browser.run("return document.documentElement.scrollWidth") <= width
    )


PARTS = [dropped, chosen, elsewhere, more, split, refused, on_a_phone, soup_deposited]
