"""Hauls computed for the tests by an implementation that shares no code with `life-haul`.

Soups come from hashlib. Generations and clusters are sets of cells. The program `life` is asked for the code of each
shape once. A cell is one number, as in life.py.
"""
import hashlib
import subprocess
from collections.abc import Iterable, Mapping

import life

# The count and the first soup of each code; those of None are of the clusters without a code.
Table = dict[str | None, tuple[int, int]]
# The same for a table that is only written: a first soup may be left blank.
Written = Mapping[str | None, tuple[int, int | str]]

NEAR = life.offsets(2)


# How many cells a row of a soup has, by the name of its symmetry.
WIDTHS = {"C1": 16, "8x32": 32, "4x64": 64, "2x128": 128, "1x256": 256, "D2_+1": 16, "D2_+2": 16}
# Which row is the mirror image of row 0. The image of row y is as far above it.
MIRRORS = {"D2_+1": 0, "D2_+2": -1}


def soup(root: str, number: int, symmetry: str = "C1") -> life.Cells:
    """The live cells of a soup: the bits of its digest that are 1, row by row, each byte's highest bit first; and their
    mirror images."""
    digest = int.from_bytes(hashlib.sha256(f"{root}{number}".encode()).digest(), "big")
    places = [divmod(bit, WIDTHS[symmetry]) for bit in range(256) if digest >> 255 - bit & 1]
    places += [(MIRRORS[symmetry] - row, column) for row, column in places] if symmetry in MIRRORS else []
    return life.normal((column, row) for row, column in places)


def clusters(cells: life.Cells) -> list[life.Cells]:
    """The clusters of a field: the cells of one are joined by chains of cells at most 2 columns and rows apart."""
    left = life.numbers_of(cells)
    found: list[life.Cells] = []
    while left:
        cluster: set[int] = set()
        new = {left.pop()}
        while new:
            cluster |= new
            new = {cell + offset for cell in new for offset in NEAR} & left
            left -= new
        found.append(life.normal(life.cells_of(cluster)))
    return found


class Names:
    """The codes of shapes under a rule and a limit on the period, as `life kind LIMIT` prints them."""

    def __init__(self, program: str, rule: str, limit: int) -> None:
        self.program, self.rule, self.limit = program, life.read_rule(rule.encode()), limit
        self.known: dict[life.Cells, str | None] = {}

    def ask(self, cells: life.Cells) -> str | None:
        """The code of a shape or None. The program prints `still CODE`, `oscillator P CODE`, `ship P DX DY CODE` or
        `unresolved`."""
        ended = subprocess.run(
            ["life", "kind", str(self.limit)],
            executable=self.program,
            input=life.file_text((None, None, (), self.rule, cells)),
            capture_output=True,
            check=True,
            timeout=60,
        )
        code = ended.stdout.decode().split()[-1]
        return None if code in ("unresolved", "-") else code

    def code(self, cluster: life.Cells) -> str | None:
        """The code of a cluster or None."""
        if cluster not in self.known:
            self.known[cluster] = self.ask(cluster)
        return self.known[cluster]


def haul(names: Names, root: str, first: int, count: int, n: int, symmetry: str = "C1") -> Table:
    """The table of a haul: the count and the first soup of each code, and of None for the clusters without a code."""
    table: Table = {}
    for number in range(first, first + count):
        for cluster in clusters(life.generation(names.rule, soup(root, number, symmetry), n)):
            code = names.code(cluster)
            seen, least = table.get(code, (0, number))
            table[code] = seen + 1, least
    return table


def add(tables: Iterable[Table]) -> Table:
    """The sum of tables: for each code the counts added and the least first soup."""
    total: Table = {}
    for table in tables:
        for code, (count, first) in table.items():
            seen, least = total.get(code, (0, first))
            total[code] = seen + count, min(least, first)
    return total


def read_table(text: str) -> Table:
    """The table in a text that a program printed, without its heading and its sums."""
    lines = text.splitlines()
    rows = [line.split(",") for line in lines[lines.index("code,count,first") + 1 : -2]]
    return {None if code == "unresolved" else code: (int(count), int(first)) for code, count, first in rows if first}


def table_text(
    table: Written, root: str, first: int, count: int, n: int, limit: int, rule: str, symmetry: str = "C1"
) -> str:
    """The text of the table of a haul: its heading, rows in byte order of their codes, the clusters without a code, and
    the sums. C1 is not named."""
    heading = f"# root {root}\n# rule {rule}\n# generation {n}\n# limit {limit}\n"
    heading += ("" if symmetry == "C1" else f"# symmetry {symmetry}\n") + "code,count,first\n"
    rows = [
        f"{code},{table[code][0]},{table[code][1]}\n" for code in sorted(code for code in table if code is not None)
    ]
    unresolved, least = table.get(None) or (0, "")
    clusters = sum(number for number, _ in table.values())
    return heading + "".join(rows) + f"unresolved,{unresolved},{least}\nclusters,{clusters},\nsoups,{count},{first}\n"
