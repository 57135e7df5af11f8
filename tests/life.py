"""The game for all tests and benches: rules, sets of cells and their generations, pattern files and codes, from
docs/FORMATS.md. It shares no code with the program. The limits are those of docs/limits.csv.

A set of cells is a frozenset of pairs (column, row).
"""
import collections
import csv
import os
import re
from typing import Any, Callable, Iterable

Rule = tuple[frozenset[int], frozenset[int]]
Cell = tuple[int, int]
Cells = frozenset[Cell]
# The name, the author, the comments, the rule and the cells of a file.
Record = tuple[bytes | None, bytes | None, tuple[bytes, ...], Rule, Cells]
Kind = tuple[Any, ...]

with open(
    os.path.join(os.path.dirname(os.path.abspath(__file__)), "..", "docs", "limits.csv"), newline="", encoding="ascii"
) as table:
    LIMITS = {row["name"]: int(row["value"]) for row in csv.DictReader(table)}
LONGEST_FILE, LARGEST_BOX = LIMITS["LONGEST_FILE"], LIMITS["LARGEST_BOX"]
BLANKS = b" \t\r"
# A count, if there is one, and a tag.
ITEM = re.compile(rb"([0-9]*)([^0-9])", re.DOTALL)
LIFE: Rule = (frozenset({3}), frozenset({2, 3}))


class Fault(Exception):
    """The fault of a file by its number."""


def compact(text: bytes) -> bytes:
    """A text without its blanks."""
    return text.translate(None, BLANKS)


# ---- rules


def read_rule(text: bytes) -> Rule:
    """The births and the survivals, or fault 5 or 6."""
    written = compact(text).decode("latin-1")
    forms = [
        (r"[Bb]([0-8]*)/?[Ss]([0-8]*)", (0, 1)),
        (r"[Ss]([0-8]*)/?[Bb]([0-8]*)", (1, 0)),
        (r"([0-8]*)/([0-8]*)", (1, 0)),
    ]
    for form, (born, lives) in forms:
        match = re.fullmatch(form, written)
        if match:
            births, survivals = (frozenset(map(int, match.groups()[k])) for k in (born, lives))
            if 0 in births:
                raise Fault(6)
            return births, survivals
    raise Fault(5)


def rule_text(rule: Rule) -> str:
    return "B" + "".join(map(str, sorted(rule[0]))) + "/S" + "".join(map(str, sorted(rule[1])))


# ---- sets of cells


def corner(cells: Cells) -> Cell:
    return min(x for x, _ in cells), min(y for _, y in cells)


def normal(cells: Iterable[Cell]) -> Cells:
    """The cells moved so that the least column and the least row are 0."""
    cells = frozenset(cells)
    if not cells:
        return cells
    left, top = corner(cells)
    return frozenset((x - left, y - top) for x, y in cells)


def box(cells: Iterable[Cell]) -> Cell:
    """One more than the greatest column, and than the greatest row."""
    return max((x + 1 for x, _ in cells), default=0), max((y + 1 for _, y in cells), default=0)


# ---- generations, of cells that are one number each, so that a neighbour is a sum

ROW = 1 << 20


def numbers_of(cells: Iterable[Cell]) -> set[int]:
    return {y * ROW + x for x, y in cells}


def cells_of(numbers: Iterable[int]) -> Cells:
    """The cells of these numbers; columns are from -ROW / 2 to ROW / 2 - 1."""
    halves = (divmod(number + ROW // 2, ROW) for number in numbers)
    return frozenset((x - ROW // 2, y) for y, x in halves)


def offsets(reach: int) -> list[int]:
    """The offsets from a cell to every other cell at most `reach` columns and rows away."""
    steps = range(-reach, reach + 1)
    return [y * ROW + x for y in steps for x in steps if (x, y) != (0, 0)]


NEIGHBOURS = offsets(1)


def stepped(rule: Rule, numbers: set[int]) -> set[int]:
    """The next generation. Cells without live neighbours are not in `counts`."""
    births, survivals = rule
    counts: collections.Counter[int] = collections.Counter()
    for offset in NEIGHBOURS:
        counts.update(map(offset.__add__, numbers))
    alone = numbers - counts.keys() if 0 in survivals else set()
    return alone | {cell for cell, count in counts.items() if count in (survivals if cell in numbers else births)}


def generation(rule: Rule, cells: Iterable[Cell], n: int) -> Cells:
    """Generation n of the cells."""
    numbers = numbers_of(cells)
    for _ in range(n):
        numbers = stepped(rule, numbers)
    return cells_of(numbers)


def following(rule: Rule, cells: Iterable[Cell]) -> Cells:
    """The next generation."""
    return generation(rule, cells, 1)


# ---- files


def texts_before(lines: list[bytes]) -> tuple[bytes | None, bytes | None, list[bytes], bytes | None, int]:
    """The name, the author, the comments, the rule of a '#r' line, and the number of the line with the header."""
    first: dict[bytes, bytes] = {}
    comments: list[bytes] = []
    at = 0
    while at < len(lines):
        front = lines[at].lstrip(BLANKS)
        if front and not front.startswith(b"#"):
            break
        mark, text = front[1:2], front[2:].strip(BLANKS)
        if front.startswith(b"#CXRLE") or not front:
            pass
        elif mark in (b"C", b"c"):
            comments.append(text)
        elif text and mark in (b"N", b"O", b"r"):
            if mark not in first:
                first[mark] = text
            elif mark != b"r":
                comments.append(text)
        at += 1
    return first.get(b"N"), first.get(b"O"), comments, first.get(b"r"), at


def read_file(data: bytes, is_limited: bool = True) -> Record:
    """The record of a file, its cells normal; or its fault. The text of a generation may be longer and wider than a
    file that is deposited."""
    if is_limited and len(data) > LONGEST_FILE:
        raise Fault(1)
    lines = data.split(b"\n")
    name, author, comments, noted, at = texts_before(lines)
    if len(comments) > LIMITS["MOST_COMMENTS"] or any(
        len(text) > LIMITS["LONGEST_TEXT"] for text in (*comments, name or b"", author or b"")
    ):
        raise Fault(2)
    if at == len(lines):
        raise Fault(3)
    header = compact(lines[at])
    if header[:1] not in (b"x", b"X"):
        raise Fault(3)
    match = re.fullmatch(rb"[xX]=[0-9]+,[yY]=[0-9]+(?:,[rR][uU][lL][eE]=(.*))?", header, re.DOTALL)
    if not match:
        raise Fault(4)
    given = match.group(1) if match.group(1) is not None else noted
    rule = LIFE if given is None else read_rule(given)
    body = b"".join(line for line in lines[at + 1 :] if not line.lstrip(BLANKS).startswith(b"#"))
    return (
        name,
        author,
        tuple(comments),
        rule,
        normal(placed(compact(body), LIMITS["LONGEST_SIDE"] if is_limited else ROW // 2)),
    )


def placed(body: bytes, widest: int) -> set[Cell]:
    """The cells of the body of a file, without its blanks and line ends."""
    cells: set[Cell] = set()
    x = y = at = 0
    while True:
        item = ITEM.match(body, at)
        if not item:
            raise Fault(8 if body[at:] else 10)
        digits, tag = item.groups()
        at = item.end()
        # More digits than the greatest count has say no more.
        count = int(digits.lstrip(b"0")[:8] or b"0") if digits else 1
        if digits and not 1 <= count <= LIMITS["GREATEST_COUNT"]:
            raise Fault(8)
        if tag == b"!":
            if digits:
                raise Fault(8)
            return cells
        if tag == b"b":
            x += count
        elif tag == b"$":
            x, y = 0, y + count
        elif tag == b"o":
            if x + count > widest or y >= widest:
                raise Fault(9)
            cells.update((x + k, y) for k in range(count))
            x += count
        else:
            raise Fault(7)


def body_items(cells: Iterable[Cell]) -> list[str]:
    """The items of a body: each a count, if it is not 1, and a tag."""
    rows: dict[int, set[int]] = {}
    for x, y in cells:
        rows.setdefault(y, set()).add(x)
    items: list[tuple[int, str]] = []
    last = 0
    for y in sorted(rows):
        if y > last:
            items.append((y - last, "$"))
            last = y
        x = 0
        while x <= max(rows[y]):
            tag = "o" if x in rows[y] else "b"
            end = x
            while end <= max(rows[y]) and ((end in rows[y]) == (tag == "o")):
                end += 1
            items.append((end - x, tag))
            x = end
    return [("" if n == 1 else str(n)) + tag for n, tag in items] + ["!"]


def file_text(record: Record) -> bytes:
    """The canonical text of a record."""
    name, author, comments, rule, cells = record
    out = b""
    if name is not None:
        out += b"#N " + name + b"\n"
    if author is not None:
        out += b"#O " + author + b"\n"
    for comment in comments:
        out += b"#C" + (b" " + comment if comment else b"") + b"\n"
    width, height = box(cells)
    out += f"x = {width}, y = {height}, rule = {rule_text(rule)}\n".encode()
    line = ""
    for item in body_items(cells):
        if len(line) + len(item) > LIMITS["LONGEST_LINE"]:
            out += line.encode() + b"\n"
            line = ""
        line += item
    return out + line.encode() + b"\n"


# ---- kinds and codes


def kind_of(rule: Rule, cells: Cells, limit: int) -> Kind:
    """('empty',), ('unresolved',), ('still',), ('oscillator', p) or ('ship', p, dx, dy)."""
    if not cells:
        return ("empty",)
    later = cells
    for p in range(1, limit + 1):
        later = following(rule, later)
        if later and normal(later) == normal(cells):
            (a, b), (c, d) = corner(cells), corner(later)
            if (a, b) != (c, d):
                return ("ship", p, c - a, d - b)
            return ("still",) if p == 1 else ("oscillator", p)
        if not later:
            return ("unresolved",)
    return ("unresolved",)


TURNS: list[Callable[[int, int], Cell]] = [
    lambda x, y: (x, y),
    lambda x, y: (-y, x),
    lambda x, y: (-x, -y),
    lambda x, y: (y, -x),
    lambda x, y: (-x, y),
    lambda x, y: (x, -y),
    lambda x, y: (y, x),
    lambda x, y: (-y, -x),
]
CHARACTERS = "0123456789abcdefghijklmnopqrstuvwxyz"


def wechsler(cells: Cells) -> str:
    """The text of a normal set."""
    width, height = box(cells)
    strips = []
    for top in range(0, height, 5):
        values = [sum(1 << t for t in range(5) if (x, top + t) in cells) for x in range(width)]
        while values and not values[-1]:
            values.pop()
        text, zeros = "", 0
        for value in values:
            if not value:
                zeros += 1
                continue
            text += {0: "", 1: "0", 2: "w", 3: "x"}[zeros] if zeros < 4 else "y" + CHARACTERS[zeros - 4]
            text += CHARACTERS[value]
            zeros = 0
        strips.append(text)
    return "z".join(strips)


def code_of(rule: Rule, cells: Cells, limit: int) -> str | None:
    """The code of a pattern that comes back within the limit and has a phase of at most LARGEST_BOX columns and rows;
    otherwise None."""
    kind = kind_of(rule, cells, limit)
    if kind[0] in ("empty", "unresolved"):
        return None
    period = 1 if kind[0] == "still" else kind[1]
    texts, phase = [], cells
    for _ in range(period):
        for turn in TURNS:
            image = normal(frozenset(turn(x, y) for x, y in phase))
            if max(box(image)) <= LARGEST_BOX:
                texts.append(wechsler(image))
        phase = following(rule, phase)
    if not texts:
        return None
    prefix = {"still": f"xs{len(cells)}", "oscillator": f"xp{period}", "ship": f"xq{period}"}[kind[0]]
    return prefix + "_" + min(texts, key=lambda text: (len(text), text))


def spelled(text: str) -> Cells | None:
    """The sets that could have this text, before it is written again. Strips are read from the left."""
    cells: set[Cell] = set()
    for s, strip in enumerate(text.split("z")):
        x, at = 0, 0
        while at < len(strip):
            c = strip[at]
            if c == "w":
                x += 2
            elif c == "x":
                x += 3
            elif c == "y":
                at += 1
                if at == len(strip) or strip[at] not in CHARACTERS:
                    return None
                x += 4 + CHARACTERS.index(strip[at])
            elif c in CHARACTERS[:32]:
                value = CHARACTERS.index(c)
                cells.update((x, 5 * s + t) for t in range(5) if value >> t & 1)
                x += 1
            else:
                return None
            at += 1
    return frozenset(cells)


def is_code(rule: Rule, text: str, limit: int) -> bool:
    """Whether some set has this code under the rule within the limit."""
    match = re.fullmatch(r"(?:xs|xp|xq)[1-9][0-9]{0,5}_([0-9a-z]*)", text)
    if not match:
        return False
    cells = spelled(match.group(1))
    if not cells or normal(cells) != cells or max(box(cells)) > LARGEST_BOX or wechsler(cells) != match.group(1):
        return False
    return code_of(rule, cells, limit) == text
