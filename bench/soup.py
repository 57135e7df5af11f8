#!/usr/bin/env python3
"""Writes a soup of live cells as RLE: soup.py CELLS SEED.

The cells are drawn one in three in the rows of a square, until there are CELLS of them. The same words give the same
file on every machine: the numbers come from a generator of our own (Marsaglia's xorshift, 64 bits).

soup.py --long BYTES writes a file of exactly that many bytes with as many items as fit.
soup.py --sparse SIDE PERCENT SEED writes a square of that side in which PERCENT % of the cells are live.
soup.py --grid SIDE SOUP SQUARE SEED writes a square of that side parted into squares, with a soup of SOUP by SOUP, half
    live, in each.
soup.py --field OBJECTS SEED writes a field of scattered blocks, blinkers and gliders, each in a square of 6 by 6 of its
    own.
"""
import sys
from collections.abc import Iterator


def numbers(seed: int) -> Iterator[int]:
    state = seed * 2654435761 + 88172645463325252
    mask = 2**64 - 1
    state &= mask
    while True:
        state ^= (state << 13) & mask
        state ^= state >> 7
        state ^= (state << 17) & mask
        yield state


def rows_of(cells: int, seed: int) -> list[str]:
    """Rows of a soup, each a string of b and o."""
    side = 1
    while side * side < 3 * cells:
        side += 1
    source = numbers(seed)
    left = cells
    rows = []
    while left > 0:
        row = []
        for _ in range(side):
            live = left > 0 and next(source) % 3 == 0
            left -= live
            row.append("o" if live else "b")
        rows.append("".join(row))
    return rows


def sparse(side: int, percent: int, seed: int) -> list[str]:
    """Rows of a square in which each cell is live with this probability."""
    source = numbers(seed)
    return ["".join("o" if next(source) % 100 < percent else "b" for _ in range(side)) for _ in range(side)]


def grid(side: int, soup: int, square: int, seed: int) -> list[str]:
    """Rows of a square of that side with a soup in the corner of each of its squares."""
    source = numbers(seed)
    rows = []
    for row in range(side):
        drawn = row % square < soup
        rows.append(
            "".join("o" if drawn and column % square < soup and next(source) % 2 else "b" for column in range(side))
        )
    return rows


OBJECTS = [["oo", "oo"], ["ooo"], ["bo", "bbo", "ooo"]]


def field_of(objects: int, seed: int) -> list[str]:
    """Rows of a field with 170 squares per row, each with a block, a blinker or a glider."""
    source = numbers(seed)
    rows = []
    for first in range(0, objects, 170):
        band: list[list[str]] = [[] for _ in range(6)]
        for _ in range(min(170, objects - first)):
            drawn = OBJECTS[next(source) % 3]
            for number, row in enumerate(band):
                row.append((drawn[number] if number < len(drawn) else "").ljust(6, "b"))
        rows += ["".join(row) for row in band]
    return rows


def body_of(rows: list[str]) -> str:
    lines = []
    line = ""
    for number, row in enumerate(rows):
        items = []
        start = 0
        row = row.rstrip("b")
        while start < len(row):
            end = start
            while end < len(row) and row[end] == row[start]:
                end += 1
            items.append((str(end - start) if end - start > 1 else "") + row[start])
            start = end
        items.append("$" if number + 1 < len(rows) else "!")
        for item in items:
            if len(line) + len(item) > 70:
                lines.append(line)
                line = ""
            line += item
    lines.append(line)
    return "\n".join(lines) + "\n"


def main() -> None:
    if sys.argv[1] == "--long":
        size = int(sys.argv[2])
        head = "x = 1024, y = 1024\n"
        body: list[str] = []
        used = len(head) + 1
        row = "bo" * 512 + "$"
        while used + len(row) <= size and len(body) < 1000:
            body.append(row)
            used += len(row)
        filler = "\n" * (size - used)
        sys.stdout.write(head + "".join(body) + filler + "!")
        return
    if sys.argv[1] == "--field":
        rows = field_of(int(sys.argv[2]), int(sys.argv[3]))
    elif sys.argv[1] == "--grid":
        rows = grid(*(int(word) for word in sys.argv[2:6]))
    elif sys.argv[1] == "--sparse":
        rows = sparse(int(sys.argv[2]), int(sys.argv[3]), int(sys.argv[4]))
    else:
        rows = rows_of(int(sys.argv[1]), int(sys.argv[2]))
    sys.stdout.write("x = %d, y = %d\n" % (max(len(row) for row in rows), len(rows)) + body_of(rows))


if __name__ == "__main__":
    main()
