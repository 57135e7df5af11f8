"""The part of tests/test_web.py on the picture that other sites show for a link to a deposit."""
import os
import struct
import subprocess
import zlib

import life
from browser import Browser
from clients import HERE, check, same
from gateways import DEPLOY, Gateway
from pages import asked, content, kept
from web_addresses import Previewed

FIRST_PORT = 10900
GUN = content(os.path.join(HERE, "..", "examples", "gosper-gun.rle"))
DRAW = os.path.join(HERE, "..", "crates", "life_draw", "out", "life_draw")
WIDTH, HEIGHT, CELL = 1200, 630, 30


def index(gateway: Gateway, folder: str, withdrawn: str) -> None:
    copy = os.path.join(folder, "previews-copy.db")
    for name, *words in (
        ("life-copy", os.path.join(folder, "previews.db"), copy),
        ("life-index", "--draw", DRAW, "--withdrawn", withdrawn, copy, os.path.join(gateway.folder, "index")),
    ):
        done = subprocess.run([os.path.join(DEPLOY, name), *words], stdout=subprocess.DEVNULL, timeout=120, check=False)
        same(name, done.returncode, 0)


def cells_of(picture: bytes) -> set[tuple[int, int]]:
    """The cells of a picture of one gray byte a pixel with cells of 30 pixels, moved to the corner."""
    same("its size", struct.unpack(">II", picture[16:24]), (WIDTH, HEIGHT))
    data = picture.split(b"IDAT", 1)[1]
    lines = zlib.decompressobj().decompress(data)
    dark = {(x, y) for y in range(HEIGHT) for x in range(WIDTH) if lines[y * (WIDTH + 1) + 1 + x] < 128}
    left, top = min(x for x, _ in dark), min(y for _, y in dark)
    return {((x - left) // CELL, (y - top) // CELL) for x, y in dark}


def previews(_gateway: Gateway, _browser: Browser, _base: str, folder: str) -> None:
    """A link to a deposit has its picture once the index is made; another deposit, and one that is withdrawn, the
    picture of the site."""
    withdrawn = os.path.join(folder, "withdrawn-picture")
    with open(withdrawn, "w", encoding="ascii") as file:
        file.write("2\n")
    gateway = Gateway(os.path.join(folder, "previews.db"), FIRST_PORT, f"WITHDRAWN={withdrawn}", seconds=900)
    base = f"http://127.0.0.1:{gateway.port}"
    try:
        for number, text in enumerate((GUN, b"x = 1, y = 1\no!", b"#N A cell\nx = 1, y = 1\no!"), 1):
            same("a deposit", kept(gateway, f"preview-{number}", text), number)
        index(gateway, folder, os.devnull)
        usual, own = f"{base}/web/preview.png", f"{base}/index/previews"
        for path, wanted in (
            ("/d/1", f"{own}/1.png"),
            ("/d/1/at/30", f"{own}/1.png"),
            ("/D/0003/", f"{own}/3.png"),
            ("/d/2", usual),
            ("/d/4", usual),
            ("/d", usual),
            ("/", usual),
        ):
            said = Previewed(asked(gateway.port, path, headers={"accept": "text/html"})[1]).said
            same(f"the picture of {path}", said["og:image"], wanted)
        status, picture, lines = asked(gateway.port, "/index/previews/1.png")
        same("a picture", (status, lines["content-type"], lines["cache-control"]), (200, "image/png", "no-cache"))
        same("its cells", cells_of(picture), set(life.normal(life.read_file(GUN)[4])))
        same("withdrawn at once", asked(gateway.port, "/index/previews/2.png")[:2], (410, b'{"error":"withdrawn"}'))
        for path in (
            "/index/previews/4.png",
            "/index/previews/",
            "/index/previews/state.json",
            "/index/previews/01.png",
        ):
            same(f"nothing at {path}", asked(gateway.port, path)[0], 404)
        index(gateway, folder, withdrawn)
        names = sorted(os.listdir(os.path.join(gateway.folder, "index", "previews")))
        check(f"no file of it is left: {names}", names == ["1.png", "3.png", "state.json"])
    finally:
        gateway.end()


PARTS = [previews]
