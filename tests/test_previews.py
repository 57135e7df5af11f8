"""The preview pictures of the search index: what is drawn in each run, what is removed, and the limits. A script stands
in for life-draw; tests/web_previews.py has pictures of the program.
"""
import json
import os
import random
import subprocess
import sqlite3
import sys
from typing import Any

from archives import Entry, fill, new_archive
from clients import check, same
from test_index import DEPLOY, content, life_index

MANY = 30
# Draws each pattern as one cell, and keeps a line for each that it was asked for. It refuses one.
SCRIPT = """#!/bin/sh
text=$(cat)
echo "$text" | head -n 1 >> '{log}'
case "$text" in *refused*) exit 1 ;; esac
echo '<svg xmlns="http://www.w3.org/2000/svg" viewBox="-1 -1 3 3"><path d="M0 0h1v1h-1z"/></svg>'
"""
# Runs life-index with other limits.
LIMITED = """
import sys
sys.path.insert(0, sys.argv[1])
from life_operate import index, previews
previews.MOST, previews.SECONDS = int(sys.argv[2]), float(sys.argv[3])
sys.argv = sys.argv[3:]
index.main()
"""


class Club:
    """An archive with its index."""

    def __init__(self, folder: str, name: str) -> None:
        self.copy, self.room = os.path.join(folder, f"{name}.db"), os.path.join(folder, name)
        self.log, self.draw = os.path.join(folder, f"{name}.log"), os.path.join(folder, f"{name}.sh")
        self.withdrawn = os.path.join(folder, f"{name}.withdrawn")
        self.database: sqlite3.Connection = new_archive(self.copy)
        chance = random.Random(41)
        self.entries = [Entry(number, chance) for number in range(1, MANY + 1)]
        fill(self.database, self.entries, 1)
        with open(self.draw, "w", encoding="ascii") as file:
            file.write(SCRIPT.format(log=self.log))
        os.chmod(self.draw, 0o755)
        self.seen = 0

    def change(self, number: int, text: bytes) -> None:
        self.database.execute("UPDATE deposits SET rle = ?, rule = 'B3/S23' WHERE id = ?", (text, number))
        self.database.commit()

    def withdraw(self, *numbers: int) -> None:
        with open(self.withdrawn, "w", encoding="ascii") as file:
            file.writelines(f"{number}\n" for number in numbers)

    def index(self, draw: str | None = None) -> int:
        """Builds the index; how many pictures were asked for."""
        words = "--draw", draw or self.draw, "--withdrawn", self.withdrawn
        same("life-index", life_index(self.copy, self.room, ("", 1772323200), *words)[0][0], 0)
        return self.asked()

    def limited(self, most: int, seconds: float) -> int:
        words = [sys.executable, "-c", LIMITED, DEPLOY, str(most), str(seconds), "--draw", self.draw]
        done = subprocess.run([*words, self.copy, self.room], capture_output=True, text=True, timeout=60, check=False)
        same(f"life-index with limits: {done.stderr}", done.returncode, 0)
        return self.asked()

    def asked(self) -> int:
        count = content(self.log).count(b"\n") if os.path.exists(self.log) else 0
        self.seen, new = count, count - self.seen
        return new

    @property
    def pictures(self) -> set[int]:
        return {int(name[:-4]) for name in os.listdir(os.path.join(self.room, "previews")) if name.endswith(".png")}


def test_incremental(folder: str) -> None:
    """Each deposit is drawn once; one that is added, changed, withdrawn or taken back concerns no other."""
    club, everybody = Club(folder, "incremental"), set(range(1, MANY + 1))
    club.change(3, b"#N refused\nx = 1, y = 1, rule = B3/S23\no!\n")
    club.change(4, b"#C " + b"long " * 30 + b"\nx = 1, y = 1, rule = B3/S23\n" + b"o$" * 30_000 + b"!\n")
    same("without the program", (club.index("/none/life-draw"), os.listdir(club.room).count("previews")), (0, 0))
    same("pictures asked for", club.index(), MANY - 1)
    same("pictures", club.pictures, everybody - {3, 4})
    picture = content(club.room, "previews", "1.png")
    check("each is a PNG", picture.startswith(b"\x89PNG\r\n\x1a\n") and len(picture) < 10_000)
    same("the same again", club.index(), 0)
    fill(club.database, [Entry(MANY + 1, random.Random(5))], MANY + 1)
    same("one more", (club.index(), MANY + 1 in club.pictures), (1, True))
    club.change(7, b"x = 2, y = 1, rule = B3/S23\n2o!\n")
    same("one that has changed", club.index(), 1)
    club.withdraw(5, 6)
    same("withdrawn", (club.index(), club.pictures & {5, 6}), (0, set()))
    club.withdraw(6)
    same("taken back", (club.index(), club.pictures & {5, 6}), (1, {5}))
    club.withdraw(6, 8)
    same("withdrawn without the program", (club.index("/none/life-draw"), club.pictures & {6, 8}), (0, set()))
    same("the others stay", club.pictures, everybody - {3, 4, 6, 8} | {MANY + 1})
    state: dict[str, Any] = json.loads(content(club.room, "previews", "state.json"))
    check("nothing is remembered of them", not {"6", "8"} & set(state["sums"]))


def test_limits(folder: str) -> None:
    """A run stops after some seconds, and the next one draws what is missing. Only the newest have pictures."""
    club = Club(folder, "limits")
    same("no time", (club.limited(20, -1), club.pictures), (0, set()))
    newest = set(range(MANY - 19, MANY + 1))
    same("the newest", (club.limited(20, 60), club.pictures), (20, newest))
    same("nothing is missing", club.limited(20, 60), 0)
    fill(club.database, [Entry(MANY + 1, random.Random(5))], MANY + 1)
    same("one more", club.limited(20, 60), 1)
    same("the oldest has none then", club.pictures, newest - {min(newest)} | {MANY + 1})
    path = os.path.join(club.room, "previews", "state.json")
    with open(path, "w", encoding="ascii") as file:
        file.write("[]")
    same("a list that can't be read", (club.limited(20, 60), len(club.pictures)), (20, 20))
