"""Archives that tests write themselves, with the tables of docs/FORMATS.md and invented deposits. Other tests take the
schema version and the columns of a deposit from here.
"""
import hashlib
import os
import random
import re
import sqlite3
from collections.abc import Iterable

HERE = os.path.dirname(os.path.abspath(__file__))
# The greatest length of a log that has no commit.
BLANK = 41
WORDS = (
    "glider gun pulsar puffer rake eater block ship still oscillator "
    "synthesis tagalong breeder soup field fuse agar conduit reflector lane"
).split()


def described(form: str) -> str:
    """What docs/FORMATS.md has in this place."""
    with open(os.path.join(os.path.dirname(HERE), "docs", "FORMATS.md"), encoding="utf-8") as page:
        quoted = re.search(form, page.read())
    assert quoted
    return quoted[1]


# The schema version of the tables, and the statement that adds a deposit: its number, member, token, rule, population
# and file.
VERSION = int(described(r"(?m)^\| `layout` \| .* \| `version`: (\d+) \|$"))
ADD_DEPOSIT = "INSERT INTO deposits (id, member, token, rule, population, rle) VALUES (?, ?, ?, ?, ?, ?)"


def tables() -> list[str]:
    """The statements of the tables."""
    lines = described(r"(?s)\n\n((?:    .*\n)+)\n\(In the file each is on one line")
    return re.findall(r"CREATE TABLE .*?STRICT", " ".join(lines.split()))


def new_archive(path: str) -> sqlite3.Connection:
    if os.path.exists(path):
        os.remove(path)
    database = sqlite3.connect(path)
    for statement in tables():
        database.execute(statement)
    database.execute("INSERT INTO layout VALUES (?)", (VERSION,))
    return database


class Entry:
    """An invented deposit, and what the index should say about it."""

    def __init__(self, number: int, chance: random.Random) -> None:
        self.name = f"{chance.choice(WORDS)} {chance.choice(WORDS)} {number}" if number % 10 else ""
        self.author = f"{chance.choice(WORDS).title()} {chance.choice(WORDS).title()}" if number % 3 else ""
        self.member, self.rule = f"member-{chance.randint(1, 60)}", chance.choice(["B3/S23"] * 9 + ["B36/S23"])
        self.cells, self.width, self.height = chance.randint(1, 400), chance.randint(1, 120), chance.randint(1, 120)
        texts = [
            f"#N {self.name}\n" * bool(self.name),
            f"#O {self.author}\n" * bool(self.author),
            "#C x = 1, y = 2, rule = B1/S1\n" * (number % 5),
        ]
        self.file = "".join(
            [*texts, f"x = {self.width}, y = {self.height}, rule = {self.rule}\n{self.cells}o!\n"]
        ).encode()

    def row(self, number: int) -> tuple[int, str, str, str, int, bytes]:
        return number, self.member, hashlib.sha256(self.file).hexdigest(), self.rule, self.cells, self.file

    def said(self) -> tuple[str, str, str, str, int, int, int]:
        return self.name, self.author, self.member, self.rule, self.cells, self.width, self.height


def fill(database: sqlite3.Connection, entries: Iterable[Entry], first: int) -> None:
    database.executemany(ADD_DEPOSIT, (entry.row(first + place) for place, entry in enumerate(entries)))
    database.commit()


def add_census(
    database: sqlite3.Connection, number: int, deposit_number: int, rows: dict[str, int], steady: int
) -> None:
    database.execute(
        "INSERT INTO censuses VALUES (?, 'ann', ?, ?, ?, 60, ?, 1)",
        (number, f"c{number}", deposit_number, number % 7, 1 + sum(rows.values())),
    )
    database.executemany(
        "INSERT INTO census_rows VALUES (?, ?, ?)", [(number, code, count) for code, count in rows.items()]
    )
    database.execute("INSERT INTO census_flags VALUES (?, ?)", (number, steady))
    database.commit()
