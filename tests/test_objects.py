"""Asks the built program for the codes of known objects of Conway's Life, in any position, orientation and phase.

Each object of web/objects.csv is opened by its code. The pattern that the program prints, and a later phase of it,
which life.py computes, are tested in each of the eight orientations: the program has to find the kind that the code
names, with this very code. The constellations are also given here by their cells, as books draw them: the table has
their codes under their names.
"""
import csv
import os
import re

import pytest

import clients
import life
from clients import HERE, same

OBJECTS = os.path.join(HERE, "..", "web", "objects.csv")

pytestmark = [pytest.mark.quick, pytest.mark.usefixtures("program")]

# Row by row, as in the Life Lexicon.
DRAWINGS = {
    "bi-block": "OO.OO/OO.OO",
    "block and cap": "OO.OO./OO.O.O/...O.O/...OO.",
    "block and dock": "...OO./...OO./....../.OOOO./O....O/OO..OO",
    "beehive and dock": "...OO./..O..O/...OO./....../.OOOO./O....O/OO..OO",
    "boat-ship-tie": "OO..../O.O.../.OO.../...OO./...O.O/....O.",
    "half-bakery": "....OO./...O..O/...O.O./.OO.O../O..O.../O.O..../.O.....",
    "bakery": (
        "....OO..../...O..O.../...O.O..../.OO.O...O./O..O...O.O/"
        "O.O...O..O/.O...O.OO./....O.O.../...O..O.../....OO...."
    ),
    "traffic light": "..OOO../......./O.....O/O.....O/O.....O/......./..OOO..",
    "honey farm": (
        "......O....../.....O.O...../.....O.O...../......O....../............./"
        ".OO.......OO./O..O.....O..O/.OO.......OO./"
        "............./......O....../.....O.O...../.....O.O...../......O......"
    ),
    "fleet": (
        "....OO..../....O.O.../.....OO.../.......OO./OO.....O.O/"
        "O.O.....OO/.OO......./...OO...../...O.O..../....OO...."
    ),
    "interchange": (
        "..OOO....OOO../............../O............O/O............O/O............O/............../..OOO....OOO.."
    ),
    "pulsar quadrant": ".....O../...OOO../..O...OO/O..O..O./O...O.O./O....O../......../..OOO...",
}
# What becomes of the stairstep hexomino.
BLOCKADE = ("OO../.OO./..OO", 128)


def objects() -> list[tuple[str, str]]:
    """The names and the codes of the table."""
    with open(OBJECTS, newline="", encoding="ascii") as table:
        rows = list(csv.DictReader(line for line in table if not line.startswith("#")))
    return [(row["name"], row["code"]) for row in rows]


TABLE = objects()
CODES = dict(TABLE)


def said(words: list[str], data: bytes = b"") -> bytes:
    """What the program prints, or its message if it ends with another status than 0."""
    status, printed, errors = clients.run(*words, data=data)
    return printed if status == 0 else errors


def has_kind(line: bytes, prefix: str, number: str, code: str) -> bool:
    """Whether the line is of the kind that the prefix and the number of the code name, with the code."""
    forms = {"xs": "still", "xp": f"oscillator {number}", "xq": rf"ship {number} -?[0-9]+ -?[0-9]+"}
    return re.fullmatch(f"{forms[prefix]} {code}\n", line.decode("latin-1")) is not None


def problem_of(code: str) -> str | None:
    """The first wrong answer about the object of a code, or nothing."""
    parts = re.fullmatch(r"(xs|xp|xq)([0-9]+)_[0-9a-z]+", code)
    if not parts:
        return "not a code"
    prefix, number = parts.groups()
    limit = "1" if prefix == "xs" else number
    opened = said(["object", "B3/S23", code, limit])
    try:
        rule, cells = life.read_file(opened)[3:]
    except life.Fault:
        return f"it opens as {opened!r}"
    if rule != life.LIFE or not cells or prefix == "xs" and len(cells) != int(number):
        return f"it opens as {opened!r}"
    for phase in (0, max(1, int(limit) - 1)):
        later = life.generation(life.LIFE, cells, phase)
        for place, turn in enumerate(life.TURNS):
            image = life.normal(frozenset(turn(x, y) for x, y in later))
            line = said(["kind", limit], life.file_text((None, None, (), life.LIFE, image)))
            if not has_kind(line, prefix, number, code):
                return f"generation {phase} in orientation {place} is {line!r}"
    return None


@pytest.mark.parametrize("name, code", TABLE, ids=[name for name, _ in TABLE])
def test_object(name: str, code: str) -> None:
    same(f"a wrong answer about {name}, {code}", problem_of(code), None)


def drawn(rows: str) -> life.Cells:
    return frozenset((x, y) for y, row in enumerate(rows.split("/")) for x, cell in enumerate(row) if cell == "O")


@pytest.mark.parametrize("name", [*DRAWINGS, "blockade"])
def test_drawing(name: str) -> None:
    """A constellation as it is drawn has the code of the table."""
    if name == "blockade":
        cells = life.generation(life.LIFE, drawn(BLOCKADE[0]), BLOCKADE[1])
    else:
        cells = drawn(DRAWINGS[name])
    line = said(["kind", "60"], life.file_text((None, None, (), life.LIFE, life.normal(cells)))).decode("latin-1")
    same(f"the code of {name}, drawn", line.split()[-1:], [CODES.get(name)])
