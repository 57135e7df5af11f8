"""Preview pictures of deposits, which other sites show for a link: files of the search index, previews/N.png, drawn by
life-draw.

A run draws missing pictures, the newest deposit first, and stops after some seconds, so a large archive gets its
pictures in several runs. The oldest deposits of a very large archive have none, and so has a deposit with a long text
or a large picture. For these the pages have the picture of the site.
"""
import hashlib
import json
import os
import re
import shutil
import struct
import subprocess
import time
import zlib
from typing import Protocol

from life_operate.archive import sync

PREVIEWS = "previews"
# The next run compares with this.
STATE = "state.json"
# How many of the newest deposits have a picture, and how many seconds a run draws, and life-draw one picture.
MOST, SECONDS, DRAWN_WITHIN = 10_000, 20, 5
# The longest text that is drawn, and the largest picture, in bytes. A usual one has 3,000.
LONGEST_TEXT, LARGEST_PICTURE = 50_000, 40_000
BLOCK = 1000
# The size that other sites want, and the room for the pattern in it; the largest cell; from this size on there is a gap
# between cells.
WIDTH, HEIGHT, ROOM = 1200, 630, 0.9
LARGEST_CELL, GAP_FROM = 40, 6
LIVE, DEAD = 29, 255
BOX = re.compile(rb'viewBox="-1 -1 ([0-9]+) ([0-9]+)"')
RUN = re.compile(rb"M([0-9]+) ([0-9]+)h([0-9]+)v1")
FILE = re.compile(r"([1-9][0-9]*)\.png")
# What a picture is made from. The texts of a block are long, so only their beginnings are compared, as in the index.
ROWS = "SELECT id, rule, population, length(rle), substr(rle, 1, 14000) FROM deposits WHERE id >= ? ORDER BY id LIMIT ?"


class Archive(Protocol):
    """The part of index.Archive that is needed here."""

    counts: dict[str, int]
    withdrawn: frozenset[int]

    def rows(self, statement: str, *values: object) -> list[tuple[object, ...]]:
        ...


# ---- a picture


def png_of(document: bytes) -> bytes | None:
    """A PNG with the picture of an SVG document of life-draw."""
    box = BOX.search(document)
    if not box:
        return None
    wide, high = (int(side) - 2 for side in box.groups())
    size = min(LARGEST_CELL, ROOM * WIDTH / max(wide, 1), ROOM * HEIGHT / max(high, 1))
    size = float(int(size)) if size >= 1 else size
    left, top = (WIDTH - wide * size) / 2, (HEIGHT - high * size) / 2
    gap = 1 if size >= GAP_FROM else 0
    lines = [bytearray([0] + [DEAD] * WIDTH) for _ in range(HEIGHT)]
    for found in RUN.finditer(document):
        column, row, length = map(int, found.groups())
        begin = int(top + row * size)
        for line in lines[begin : max(begin + 1, int(top + (row + 1) * size) - gap)]:
            for at in range(column, column + length) if gap else [column]:
                first = int(left + at * size)
                end = max(first + 1, int(left + (at + (1 if gap else length)) * size) - gap)
                line[1 + first : 1 + end] = bytes([LIVE]) * (end - first)
    head = struct.pack(">IIBBBBB", WIDTH, HEIGHT, 8, 0, 0, 0, 0)
    parts = [(b"IHDR", head), (b"IDAT", zlib.compress(b"".join(lines), 9)), (b"IEND", b"")]
    return b"\x89PNG\r\n\x1a\n" + b"".join(chunk(name, data) for name, data in parts)


def chunk(name: bytes, data: bytes) -> bytes:
    return struct.pack(">I", len(data)) + name + data + struct.pack(">I", zlib.crc32(name + data))


def drawn(program: str, text: bytes) -> bytes | None:
    """The picture of a pattern file; None if it has none."""
    if len(text) > LONGEST_TEXT:
        return None
    try:
        done = subprocess.run([program, "svg"], input=text, capture_output=True, timeout=DRAWN_WITHIN, check=False)
    except subprocess.TimeoutExpired:
        return None
    picture = png_of(done.stdout) if done.returncode == 0 else None
    return picture if picture and len(picture) <= LARGEST_PICTURE else None


# ---- the folder


class Previews:
    """The folder of pictures, and a record of them: a digest for each deposit, with or without a picture, and for each
    complete block."""

    def __init__(self, folder: str) -> None:
        self.path = os.path.join(folder, PREVIEWS)
        self.sums: dict[str, str] = {}
        self.blocks: dict[str, str] = {}
        try:
            with open(os.path.join(self.path, STATE), "rb") as file:
                found = json.load(file)
            self.sums, self.blocks = dict(found["sums"]), dict(found["blocks"])
        except (OSError, ValueError, KeyError, TypeError):
            pass

    def file(self, number: int) -> str:
        return os.path.join(self.path, f"{number}.png")

    def write(self, path: str, content: bytes) -> None:
        with open(path + ".new", "wb") as file:
            file.write(content)
        sync(path + ".new")
        os.replace(path + ".new", path)

    def put(self, number: int, digest: str, picture: bytes | None) -> None:
        if picture:
            self.write(self.file(number), picture)
        else:
            self.remove(number)
        self.sums[str(number)] = digest

    def remove(self, number: int) -> None:
        if os.path.exists(self.file(number)):
            os.remove(self.file(number))
        self.sums.pop(str(number), None)

    def keep_only(self, first: int, last: int, withdrawn: frozenset[int]) -> None:
        """Removes the pictures of other deposits, and of those that were withdrawn."""
        files = [int(found[1]) for name in os.listdir(self.path) if (found := FILE.fullmatch(name))]
        for number in {*files, *map(int, self.sums)}:
            if not first <= number <= last or number in withdrawn:
                self.remove(number)

    def save(self) -> None:
        state = {"sums": self.sums, "blocks": self.blocks}
        self.write(os.path.join(self.path, STATE), json.dumps(state, separators=(",", ":")).encode())


def draw_block(archive: Archive, previews: Previews, program: str, begin: int, first: int, end: float) -> bool:
    """Draws the missing pictures of a block, the newest first; returns whether it then has all."""
    for number, *row in reversed(archive.rows(ROWS, begin, BLOCK)):
        digest = hashlib.sha256(repr(row).encode()).hexdigest()[:16]
        assert isinstance(number, int)
        if number < first or number in archive.withdrawn or previews.sums.get(str(number)) == digest:
            continue
        if time.monotonic() > end:
            return False
        text = archive.rows("SELECT rle FROM deposits WHERE id = ?", number)[0][0]
        previews.put(number, digest, drawn(program, text) if isinstance(text, bytes) else None)
    return True


def update(archive: Archive, folder: str, digests: list[str], draw: str) -> None:
    """Draws the pictures that are missing in the folder of an index, if there is a program that draws. `digests` has
    one of each block."""
    program, previews = shutil.which(draw), Previews(folder)
    if program:
        os.makedirs(previews.path, exist_ok=True)
    if not os.path.isdir(previews.path):
        return
    last = archive.counts["deposits"]
    first, end = max(1, last - MOST + 1), time.monotonic() + SECONDS
    previews.keep_only(first, last, archive.withdrawn)
    for place in reversed(range((first - 1) // BLOCK, len(digests) if program else 0)):
        if previews.blocks.get(str(place)) == digests[place]:
            continue
        if not program or not draw_block(archive, previews, program, 1 + place * BLOCK, first, end):
            break
        previews.blocks[str(place)] = digests[place]
    previews.save()
