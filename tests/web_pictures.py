"""The parts of tests/test_web.py on pictures to keep, and on the page of an object.
"""
import base64
import os
import random
import re
import struct
import subprocess
import xml.etree.ElementTree
import zlib
from typing import Any

import life
from browser import Browser, until
from clients import HERE, check, left_out, run, same
from gateways import Gateway
from pages import asked, content, kept

DRAW = os.path.join(HERE, "..", "crates", "life_draw", "out", "life_draw")
SVG = "{http://www.w3.org/2000/svg}"
DOWNLOADS = "downloads"
# Each cell's middle pixel of a picture, dark or not, with the size of a cell in a box of this many columns.
PIXELS = """
const [encoded, wide] = words;
const bitmap = await createImageBitmap(
  new Blob([Uint8Array.from(atob(encoded), (byte) => byte.charCodeAt(0))], { type: 'image/png' }));
const canvas = document.createElement('canvas');
canvas.width = bitmap.width;
canvas.height = bitmap.height;
const context = canvas.getContext('2d');
context.drawImage(bitmap, 0, 0);
const size = bitmap.width / wide;
const cells = [];
for (let y = 0; y < bitmap.height / size; y += 1)
  for (let x = 0; x < wide; x += 1)
    if (context.getImageData(Math.floor((x + 0.5) * size) - 1, Math.floor((y + 0.5) * size) - 1, 1, 1).data[0] < 128)
      cells.push([x - 1, y - 1]);
return [size, bitmap.height / size, cells];
"""


# The phases of an object as the page has them, cell by cell.
PHASES = """
const { phasesOf } = await import('/sources/pages/object.js');
const { readFile } = await import('/sources/patterns/rle.js');
const { cellsOf } = await import('/sources/patterns/pattern.js');
const { pattern, rule } = readFile(new TextEncoder().encode(words[0]));
const { phases } = await phasesOf(pattern, rule, words[1], new AbortController().signal);
return phases.map((phase) => [...cellsOf(phase)]);
"""


def saved(browser: Browser, folder: str, button: str, name: str) -> Any:
    """Presses a button, and answers the bytes of the file that comes."""
    path = os.path.join(folder, DOWNLOADS, name)
    browser.unfold()
    browser.one(button).click()
    browser.until(lambda: os.path.exists(path) and os.path.getsize(path) > 0)
    return content(path) if os.path.exists(path) else b""


def attribute(tree: xml.etree.ElementTree.Element, path: str, name: str) -> str:
    """An attribute of an element of a document."""
    element = tree.find(path)
    return "" if element is None else element.get(name, "")


def cells_of(path: str) -> set[tuple[int, int]]:
    """The cells of the path of a document."""
    runs = re.findall(r"M(-?\d+) (-?\d+)h(\d+)v1h-(\d+)z", path)
    return {(int(left) + step, int(top)) for left, top, long, _ in runs for step in range(int(long))}


# What a button of the page copies.
COPY = """
let copied = null;
Object.defineProperty(navigator, 'clipboard', {
  configurable: true,
  value: { writeText: async (text) => { copied = text; } }
});
[...document.querySelectorAll('button')].find((button) => button.textContent === words[0]).click();
await new Promise((resolve) => setTimeout(resolve));
return copied;
"""


def unsigned(svg: bytes) -> tuple[bytes, str]:
    """A document without the line that says where it comes from, and that line's text."""
    found = re.search(rb"<desc>(.*)</desc>\n", svg)
    assert found is not None
    return svg.replace(found[0], b""), found[1].decode()


def chunks(png: bytes) -> list[tuple[str, bytes]]:
    """The chunks of a PNG, each with its type and data. Their checksums are right."""
    place, found = 8, []
    while place < len(png):
        length, kind = struct.unpack(">I4s", png[place : place + 8])
        data, total = png[place + 8 : place + 8 + length], png[place + 8 + length : place + 12 + length]
        if zlib.crc32(kind + data) != struct.unpack(">I", total)[0]:
            return []
        found.append((kind.decode(), data))
        place += 12 + length
    return found if png.startswith(b"\x89PNG\r\n\x1a\n") else []


def texts_of(png: bytes) -> dict[str, str]:
    """The texts of a PNG by their keywords."""
    parts = [data.split(b"\0", 5) for kind, data in chunks(png) if kind == "iTXt"]
    return {part[0].decode(): part[5].decode() for part in parts if part[1:5] == [b""] * 4}


def pictures(gateway: Gateway, browser: Browser, base: str, folder: str) -> None:
    """A picture is byte for byte the one that life-draw makes of the copied text, but for its origin, and a PNG has the
    same cells."""
    name = 'A <b> & "c"'
    number = kept(gateway, "pictured", f"#N {name}\nx = 9, y = 3\nbo3b3o$2bo2bo$3o5bo!\n".encode())
    browser.open(f"{base}/d/{number}")
    for at, file in ((0, f"deposit-{number}"), (7, f"deposit-{number}-at-7")):
        if at:
            browser.type("#generation", f"{at}\ue007")
            browser.at(f"/at/{at}")
        text = asked(gateway.life_port, f"/deposits/{number}" + (f"/at/{at}" if at else ""))[1]
        url = f"{base}/d/{number}" + (f"/at/{at}" if at else "")
        origin = f"Generation {at} of deposit {number}, {url}" if at else f"Deposit {number}, {url}"
        title = f"{name}, generation {at}" if at else name
        body = text[text.index(b"x = ") :].decode()
        wanted = f"#N {title}\n#C {origin}\n{body}"
        same(f"what is copied of generation {at}", browser.wait_for(COPY, "Copy as RLE"), wanted)
        same(
            f"what is loaded of generation {at}",
            saved(browser, folder, "a.button[download]", f"{file}.rle").decode(),
            wanted,
        )
        svg, said = unsigned(saved(browser, folder, "#save-svg", f"{file}.svg"))
        same(f"the picture of generation {at} says where it comes from", said, origin)
        if os.access(DRAW, os.X_OK):
            same(
                f"the picture of generation {at} is that of life-draw",
                svg,
                subprocess.run([DRAW, "svg"], input=wanted.encode(), capture_output=True, timeout=60).stdout,
            )
        else:
            left_out(f"there is no {DRAW}, so no picture is compared with its own")
        cells = life.read_file(text)[4]
        tree = xml.etree.ElementTree.fromstring(svg)
        same(f"the title of generation {at}", tree.findtext(f"{SVG}title"), title)
        same(f"the cells of the picture of generation {at}", cells_of(attribute(tree, f"{SVG}path", "d")), cells)
        wide, high = 3 + max(x for x, _ in cells), 3 + max(y for _, y in cells)
        png = saved(browser, folder, "#save-png", f"{file}.png")
        size, rows, dark = browser.wait_for(PIXELS, base64.b64encode(png).decode(), wide)
        check(
            f"the PNG of generation {at}", size == 16 and rows == high and {tuple(cell) for cell in dark} == set(cells)
        )
        same(f"what the PNG of generation {at} says", texts_of(png), {"Title": title, "Description": origin})


def for_the_forum(gateway: Gateway, browser: Browser, base: str, _folder: str) -> None:
    """What is copied for the forum is the text between marks that the forum plays, and a link."""
    number = kept(gateway, "for-the-forum", b"#N Shared\nx = 3, y = 1\n3o!\n")
    browser.open(f"{base}/d/{number}/at/1")
    url = f"{base}/d/{number}/at/1"
    text = f"#N Shared, generation 1\n#C Generation 1 of deposit {number}, {url}\nx = 1, y = 3, rule = B3/S23\no$o$o!\n"
    wanted = f"[viewer]\n{text}[/viewer]\n[url]{url}[/url]\n"
    same("what is copied for the forum", browser.wait_for(COPY, "Copy for the forum"), wanted)


def copied(gateway: Gateway, browser: Browser, base: str, _folder: str) -> None:
    """What is copied while it plays is the generation whose address is copied. A file that is copied twice has its
    origin once."""
    number = kept(gateway, "copied", b"#N Copied\nx = 3, y = 3\nb2o$2o$bo!\n")
    browser.open(f"{base}/d/{number}")
    browser.run(
        "const speed = document.getElementById('speed'); speed.value = '5'; speed.dispatchEvent(new Event('change'))"
    )
    browser.one("#play").click()
    browser.until(lambda: int(browser.run("return document.getElementById('generation').value")) > 1)
    text, address = browser.wait_for(
        COPY.replace("return copied", "const text = copied")
        + """[...document.querySelectorAll('button')]
          .find((button) => button.textContent === 'Copy the address').click();
        await new Promise((resolve) => setTimeout(resolve));
        return [text, copied];""",
        "Copy as RLE",
    )
    browser.one("#play").click()
    at = int(address.rsplit("/", 1)[1])
    own = asked(gateway.life_port, f"/deposits/{number}/at/{at}")[1].decode()
    same(
        f"generation {at} is copied while it plays",
        text,
        f"#N Copied, generation {at}\n#C Generation {at} of deposit {number}, computed by a browser, {address}\n{own}",
    )
    browser.run("localStorage.removeItem('speed')")
    again = f"#N Again\n#C Deposit 1, {base}/d/1\n"
    same(
        "an origin is written once, and not as a comment too many",
        browser.wait_for(
            """
        const [{ withOrigin }, { readFile }] = [
          await import('/sources/patterns/writer.js'),
          await import('/sources/patterns/rle.js')
        ];
        return words[0].map((text) => {
          const bytes = new TextEncoder().encode(text);
          return new TextDecoder().decode(withOrigin(bytes, readFile(bytes), { title: null, origin: words[1] }));
        });""",
            [again + "x = 1, y = 1\no!\n", "#C c\n" * 64 + "x = 1, y = 1\no!\n", "#C x\n#O Xe\nx = 1, y = 1\no!\n"],
            f"Deposit 1, {base}/d/1",
        ),
        [
            again + "x = 1, y = 1\no!\n",
            "#C c\n" * 64 + "x = 1, y = 1\no!\n",
            f"#C x\n#O Xe\n#C Deposit 1, {base}/d/1\nx = 1, y = 1\no!\n",
        ],
    )


# The box of what the path of an animation shows at a moment.
BOX = """
const root = document.querySelector('svg');
root.pauseAnimations();
root.setCurrentTime(arguments[0]);
const { x, y, width, height } = root.querySelector('path').getBBox();
return [x, y, width, height];
"""


def animations(gateway: Gateway, browser: Browser, base: str, folder: str) -> None:
    """An animation is byte for byte the one of life-draw. It has each generation in its own place in one box, so a
    glider glides."""
    file = b"#N Glides\nx = 3, y = 3\nbo$2bo$3o!\n#\n"
    glider = kept(gateway, "glides", file)
    browser.open(f"{base}/d/{glider}/at/2")
    browser.unfold()
    browser.type("#frames", "9")
    svg, said = unsigned(saved(browser, folder, "#save-animation", f"deposit-{glider}-from-2.svg"))
    same("where an animation comes from", said, f"Generations 2 to 10 of deposit {glider}, {base}/d/{glider}/at/2")
    if os.access(DRAW, os.X_OK):
        same(
            "an animation is that of life-draw",
            svg,
            subprocess.run([DRAW, "animation", "2", "10"], input=file, capture_output=True, timeout=60).stdout,
        )
    else:
        left_out(f"there is no {DRAW}, so no animation is compared with its own")
    tree = xml.etree.ElementTree.fromstring(svg)
    now, made = frozenset({(1, 0), (2, 1), (0, 2), (1, 2), (2, 2)}), []
    for _ in range(11):
        made.append(now)
        now = life.following(life.LIFE, now)
    made = made[2:]
    left, top = min(x for frame in made for x, _ in frame), min(y for frame in made for _, y in frame)
    frames = [{(x - left, y - top) for x, y in frame} for frame in made]
    found = [cells_of(data) for data in attribute(tree, f"{SVG}path/{SVG}animate", "values").split(";")]
    same("each frame is in its place", found, frames)
    same("the box has all of them", tree.get("viewBox"), "-1 -1 7 7")
    browser.driver.get("about:blank")
    browser.run("document.body.innerHTML = arguments[0]", svg.decode())
    shown = [browser.run(BOX, 0.125 * at + 0.06) for at in range(18)]
    boxes = [
        [
            min(x for x, _ in cells),
            min(y for _, y in cells),
            1 + max(x for x, _ in cells) - min(x for x, _ in cells),
            1 + max(y for _, y in cells) - min(y for _, y in cells),
        ]
        for cells in frames
    ]
    same("one is seen after the other, over and over", shown, boxes * 2)


# How a browser decodes an animated PNG: the number of frames, how often it repeats, and of each frame the time and the
# cells.
DECODED = """
const [encoded, size] = words;
const decoder = new ImageDecoder({
  type: 'image/png',
  data: Uint8Array.from(atob(encoded), (byte) => byte.charCodeAt(0))
});
await decoder.tracks.ready;
const { frameCount, repetitionCount } = decoder.tracks.selectedTrack;
const frames = [];
for (let frameIndex = 0; frameIndex < frameCount; frameIndex += 1) {
  const { image } = await decoder.decode({ frameIndex });
  const canvas = new OffscreenCanvas(image.displayWidth, image.displayHeight);
  const context = canvas.getContext('2d');
  context.drawImage(image, 0, 0);
  const { data, width, height } = context.getImageData(0, 0, canvas.width, canvas.height);
  const cells = [];
  for (let y = 0; y < height / size; y += 1)
    for (let x = 0; x < width / size; x += 1)
      if (data[4 * (Math.floor((y + 0.5) * size) * width + Math.floor((x + 0.5) * size))] < 128)
        cells.push([x - 1, y - 1]);
  frames.push([image.duration, cells]);
  image.close();
}
return [frameCount, String(repetitionCount), frames];
"""


def moving(gateway: Gateway, browser: Browser, base: str, folder: str) -> None:
    """An animated PNG has each generation in its own place, as a browser decodes it, and says where it comes from."""
    number = kept(gateway, "moving", b"#N Moves\nx = 3, y = 3\nbo$2bo$3o!\n##\n")
    browser.open(f"{base}/d/{number}/at/1")
    browser.unfold()
    browser.type("#frames", "13")
    png = saved(browser, folder, "#save-moving", f"deposit-{number}-from-1.png")
    now, made = frozenset({(1, 0), (2, 1), (0, 2), (1, 2), (2, 2)}), []
    for _ in range(14):
        made.append(now)
        now = life.following(life.LIFE, now)
    made = made[1:]
    left, top = min(x for frame in made for x, _ in frame), min(y for frame in made for _, y in frame)
    many, turns, found = browser.wait_for(DECODED, base64.b64encode(png).decode(), 16)
    same("the frames", (many, turns), (13, "Infinity"))
    same(
        "each frame is in its place",
        [(time, {tuple(cell) for cell in cells}) for time, cells in found],
        [(125_000, {(x - left, y - top) for x, y in frame}) for frame in made],
    )
    same(
        "what it says",
        texts_of(png),
        {"Title": "Moves", "Description": f"Generations 1 to 13 of deposit {number}, {base}/d/{number}/at/1"},
    )
    same(
        "its chunks",
        [kind for kind, _ in chunks(png)],
        ["IHDR", "iTXt", "iTXt", "acTL", "fcTL", "IDAT"] + ["fcTL", "fdAT"] * 12 + ["IEND"],
    )
    numbers = [struct.unpack(">I", data[:4])[0] for kind, data in chunks(png) if kind in ("fcTL", "fdAT")]
    same("the numbers of its chunks", numbers, list(range(25)))


def large(gateway: Gateway, browser: Browser, base: str, folder: str) -> None:
    """An animation says how many generations have come, and can be stopped. A large SVG is saved after a question."""
    chance = random.Random(12)
    cells = {(x, y) for x in range(500) for y in range(500) if chance.random() < 0.35}
    number = kept(gateway, "large", life.file_text((b"Large", None, (), life.LIFE, life.normal(cells))))
    browser.open(f"{base}/d/{number}")
    section = "return document.getElementById('save-moving').closest('section').textContent"
    browser.unfold()
    browser.type("#frames", "240")
    browser.one("#save-moving").click()
    check(
        "it counts",
        until(lambda: re.search(r"Requesting the generations: [1-9]\d* of 240…", browser.run(section)), 60),
    )
    browser.one("#stop-saving").click()
    check(
        "it stops",
        browser.until(lambda: "Stopped." in browser.run(section)) and browser.one("#save-moving").is_enabled(),
    )
    browser.type("#frames", "20")
    name = f"deposit-{number}-from-0.svg"
    browser.one("#save-animation").click()
    found = until(lambda: re.search(r"This SVG has (\d+) MB\. A PNG is usually", browser.run(section)), 60)
    check("it is not saved yet", not os.path.exists(os.path.join(folder, DOWNLOADS, name)))
    svg = saved(browser, folder, "#save-large", name)
    check(
        f"a large SVG: {found and found[0]} {len(svg)}",
        found and len(svg) > 5_000_000 and int(found[1]) == round(len(svg) / 1e6) and svg.endswith(b"</svg>\n"),
    )


# The facts on a page: each term with what it is.
FACTS = (
    "return Object.fromEntries([...document.querySelectorAll('.facts div')].map((fact) => "
    "[fact.querySelector('dt').textContent, fact.querySelector('dd').textContent]))"
)


def has_facts(browser: Browser, wanted: dict[str, str]) -> bool:
    return bool(browser.until(lambda: browser.run(FACTS) == wanted))


def facts(_gateway: Gateway, browser: Browser, base: str, _folder: str) -> None:
    """An object's page has the cells of its smallest phase, which need not be the one that the code spells, and a
    spaceship's speed; a deposit's page has the speed, too."""
    for code, wanted in (
        ("xs6_696", {"Kind": "still life", "Period": "1", "Cells": "6"}),
        ("xp2_7", {"Kind": "oscillator", "Period": "2", "Cells": "3"}),
        (
            "xp3_co9nas0san9oczgoldlo0oldlogz1047210127401",
            {"Kind": "oscillator", "Period": "3", "Cells": "48 in the smallest phase"},
        ),
        ("xq4_153", {"Kind": "spaceship", "Period": "4", "Cells": "5", "Speed": "c/4 diagonal"}),
        (
            "xq4_6frc",
            {"Kind": "spaceship", "Period": "4", "Cells": "9 in the smallest phase", "Speed": "c/2 orthogonal"},
        ),
    ):
        browser.open(f"{base}/o/B3-S23/{code}")
        check(f"the facts of {code}", has_facts(browser, wanted))
    moves = [(1, 1, 4), (-2, 0, 4), (0, 2, 5), (2, -1, 6), (0, 1, 1), (12, 6, 60)]
    same(
        "speeds",
        browser.wait_for(
            "const { speedText } = await import('/sources/patterns/pattern.js'); "
            "return words[0].map((move) => speedText(...move));",
            moves,
        ),
        ["c/4 diagonal", "c/2 orthogonal", "2c/5 orthogonal", "(2,1)c/6", "c orthogonal", "(2,1)c/10"],
    )


def objects(_gateway: Gateway, browser: Browser, base: str, folder: str) -> None:
    """An object is played, its text is the program's, and its phases are those of the rule."""
    for code, rule, period in (
        ("xq4_153", "B3/S23", 4),
        ("xs6_696", "B3/S23", 1),
        ("xp15_4r4z4r4", "B3/S23", 15),
        ("xp2_7", "B36/S23", 2),
        ("xp3_co9nas0san9oczgoldlo0oldlogz1047210127401", "B3/S23", 3),
    ):
        browser.open(f"{base}/o/{rule.replace('/', '-')}/{code}")
        status, wanted, _ = run("object", rule, code, str(period))
        browser.until(lambda: browser.one("#load-object"))
        named = {"xq4_153": b"#N glider\n", "xs6_696": b"#N beehive\n", "xp15_4r4z4r4": b"#N pentadecathlon\n"}
        named["xp3_co9nas0san9oczgoldlo0oldlogz1047210127401"] = b"#N pulsar\n"
        origin = f"#C {code} of {rule}, {base}/o/{rule.replace('/', '-')}/{code}\n".encode()
        same(
            f"the text of {code} is the program's, with its name and its origin",
            (status, saved(browser, folder, "#load-object", f"{code}.rle")),
            (0, (named.get(code, b"") if rule == "B3/S23" else b"") + origin + wanted),
        )
        same(
            f"where {code} may be looked up",
            browser.one("a[href^='https://catagolue']").get_attribute("href"),
            f"https://catagolue.hatsya.com/object/{code}/{rule.lower().replace('/', '')}",
        )
        wiki = {b"glider": "Glider", b"beehive": "Beehive", b"pentadecathlon": "Pentadecathlon", b"pulsar": "Pulsar"}
        name = named.get(code, b"")[3:-1] if rule == "B3/S23" else b""
        same(
            f"where the name of {code} may be looked up",
            [link.get_attribute("href") for link in browser.all("a[href^='https://conwaylife.com']")],
            [f"https://conwaylife.com/wiki/{wiki[name]}"] if name else [],
        )
        if period == 1:
            check(f"{code} has no phases", browser.all("#phases") == [] and browser.all("#play-object") == [])
            continue
        browser.one("#phases summary").click()
        found = [cells for cells in browser.wait_for(PHASES, wanted.decode(), period)]
        now, phases = life.read_file(wanted)[4], []
        for _ in range(period):
            phases.append(now)
            now = life.following(life.read_rule(rule.encode()), now)
        left, top = min(x for phase in phases for x, _ in phase), min(y for phase in phases for _, y in phase)
        check(
            f"the phases of {code}",
            [{tuple(cell) for cell in cells} for cells in found]
            == [{(x - left, y - top) for x, y in phase} for phase in phases]
            and len(browser.all("#phases canvas")) == period,
        )
        browser.one("#play-object").click()
        check(
            f"{code} is played",
            browser.until(lambda: "phase" in browser.one(".page .picture canvas").get_attribute("aria-label"))
            and browser.text("#play-object") == "Pause",
        )
    browser.picture("object-phases")
    browser.screen(320, 780)
    browser.open(f"{base}/o/B3-S23/xp3_co9nas0san9oczgoldlo0oldlogz1047210127401")
    browser.one("#load-object")
    check(
        "an object fits a phone",
        browser.run("return document.documentElement.scrollWidth") <= 320 and browser.unnamed() == [],
    )
    browser.screen()


PARTS = [pictures, copied, for_the_forum, animations, moving, large, facts, objects]
