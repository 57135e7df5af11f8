"""The pictures of the program `life-draw`, read by Python's own parsers.

Each picture is compared with the cells that are decoded here from the file: a text character by character, an SVG
document by an XML parser and its path rectangle by rectangle. Some pictures are compared with texts that were written
by hand. The pictures of docs/pictures are drawn again by tools/make-pictures, which also needs the program `life`, and
compared, also with generations that are computed here.
"""
import os
import random
import re
import subprocess
import xml.etree.ElementTree as xml
from collections.abc import Iterable

import pytest

import life
from clients import HERE, check, same

pytestmark = pytest.mark.full
TOP = os.path.dirname(HERE)
PROGRAM = os.path.join(TOP, "crates", "life_draw", "out", "life_draw")
LIFE = os.path.join(TOP, "crates", "life_patterns", "out", "life_patterns")
EXAMPLES = os.path.join(TOP, "examples")
SVG = "{http://www.w3.org/2000/svg}"
RECTANGLE = re.compile(r"M(\d+) (\d+)h(\d+)v1h-(\d+)z")
# What the characters of a text show: the upper cell, the lower cell.
HALVES = {"█": (True, True), "▀": (True, False), "▄": (False, True), " ": (False, False)}


@pytest.fixture(scope="module", autouse=True)
def programs() -> None:
    for path in (PROGRAM, LIFE):
        if not os.access(path, os.X_OK):
            pytest.skip(f"there is no program {path}")


def run(*words: str | bytes, file: bytes = b"") -> tuple[int, bytes, bytes]:
    """The status of the program, and the bytes of its two streams. It is called by its name, which its messages
    have."""
    done = subprocess.run(
        [b"life-draw", *words], executable=PROGRAM, input=file, capture_output=True, timeout=60, check=False
    )
    return done.returncode, done.stdout, done.stderr


def content(*path: str) -> bytes:
    with open(os.path.join(*path), "rb") as file:
        return file.read()


# ---- files, read and written here


def decoded(file: bytes) -> tuple[bytes | None, life.Cells]:
    """The name and the cells of a good pattern file, moved to the origin."""
    name, _, _, _, cells = life.read_file(file, is_limited=False)
    return name, cells


def encoded(cells: Iterable[life.Cell], name: bytes | None = None) -> bytes:
    """A pattern file of these cells."""
    return life.file_text((name, None, (), life.LIFE, frozenset(cells)))


# ---- pictures, read here


def shown_by_text(text: bytes) -> tuple[set[life.Cell], int]:
    """The cells that a text shows, and how many lines it has."""
    lines = text.decode().split("\n")
    if lines.pop() != "":
        raise ValueError("no line end at the end")
    cells = set[life.Cell]()
    for i, line in enumerate(lines):
        if line != line.rstrip(" "):
            raise ValueError(f"line {i + 1} ends with a blank")
        for x, character in enumerate(line):
            upper, lower = HALVES[character]
            cells |= {(x, 2 * i)} if upper else set()
            cells |= {(x, 2 * i + 1)} if lower else set()
    return cells, len(lines)


def shown_by_path(path: str | None) -> set[life.Cell]:
    """The cells of the rectangles of a path, each a run of a row; no two of them touch in a row."""
    if path is None:
        raise ValueError("no path")
    runs = [(int(x), int(y), int(n), int(back)) for x, y, n, back in RECTANGLE.findall(path)]
    if "".join(f"M{x} {y}h{n}v1h-{back}z" for x, y, n, back in runs) != path or any(
        n != back or n == 0 for _, _, n, back in runs
    ):
        raise ValueError("another path")
    cells = {(x + i, y) for x, y, n, _ in runs for i in range(n)}
    if sum(n for _, _, n, _ in runs) != len(cells):
        raise ValueError("a cell twice")
    if any((x - 1, y) in cells or (x + n, y) in cells for x, y, n, _ in runs):
        raise ValueError("a run that is not the longest")
    if sorted(runs, key=lambda r: (r[1], r[0])) != runs:
        raise ValueError("runs out of order")
    return cells


def title_of(name: bytes | None) -> str | None:
    """The title of a name: what is not UTF-8, and what no XML document may have, is U+FFFD."""
    if name is None:
        return None
    return "".join(
        c if c in "\t\n\r" or " " <= c and c not in "\ufffe\uffff" else "\ufffd" for c in name.decode(errors="replace")
    )


def check_svg(name: str, document: bytes, title: str | None, cells: Iterable[life.Cell]) -> None:
    """Compares a document with a title and cells."""
    width, height = life.box(cells)
    tags = ([SVG + "title"] if title is not None else []) + [SVG + "rect", SVG + "path"]
    wanted = {
        "view box": f"-1 -1 {width + 2} {height + 2}",
        "elements": [SVG + "svg", *tags],
        "title": title,
        "background": {"x": "-1", "y": "-1", "width": str(width + 2), "height": str(height + 2), "fill": "white"},
        "cells": set(cells),
    }
    try:
        root = xml.fromstring(document)
        rectangle, path = root.find(SVG + "rect"), root.find(SVG + "path")
        came = {
            "view box": root.get("viewBox"),
            "elements": [element.tag for element in root.iter()],
            "title": root.findtext(SVG + "title"),
            "background": None if rectangle is None else rectangle.attrib,
            "cells": None if path is None else shown_by_path(path.get("d")),
        }
        same(f"{name}, svg", came, wanted)
    except (xml.ParseError, ValueError) as error:
        check(f"{name}, svg: {error}", False)


def frames_of(document: bytes) -> tuple[list[set[life.Cell]], str | None, str | None, str | None]:
    """The frames of an animated document, each as the cells that it shows, how long all of them are shown, and its view
    box and title."""
    root = xml.fromstring(document)
    path = root.find(SVG + "path")
    animate = None if path is None else path.find(SVG + "animate")
    if path is None or animate is None:
        raise ValueError("no motion")
    motion = dict(animate.attrib)
    frames = motion.pop("values").split(";")
    seconds = motion.pop("dur")
    if motion != {"attributeName": "d", "calcMode": "discrete", "repeatCount": "indefinite"}:
        raise ValueError("another motion")
    if path.get("d") != frames[0] or not all(frame.startswith("M0 0") for frame in frames):
        raise ValueError("other frames")
    if [element.tag for element in root] != [SVG + "title"] * (root.find(SVG + "title") is not None) + [
        SVG + "rect",
        SVG + "path",
    ]:
        raise ValueError("other elements")
    return [shown_by_path(frame[4:]) for frame in frames], seconds, root.get("viewBox"), root.findtext(SVG + "title")


def check_animation(name: str, file: bytes, first: int, last: int) -> None:
    """Compares the frames of an animation with generations that are computed here, in one box."""
    title, cells = decoded(file)
    generations = []
    for at in range(last + 1):
        generations += [cells] if at >= first else []
        cells = life.following(life.LIFE, cells)
    everything = set[life.Cell]().union(*generations)
    left, top = min((x for x, _ in everything), default=0), min((y for _, y in everything), default=0)
    wanted = [{(x - left, y - top) for x, y in frame} for frame in generations]
    width, height = life.box(set[life.Cell]().union(*wanted))
    status, document, said = run("animation", str(first), str(last), file=file)
    try:
        same(
            f"{name}, {first} to {last}",
            (status, said, *frames_of(document)),
            (0, b"", wanted, f"{125 * len(wanted)}ms", f"-1 -1 {width + 2} {height + 2}", title_of(title)),
        )
    except (xml.ParseError, KeyError, ValueError) as error:
        check(f"{name}, {first} to {last}: {status}, {said!r}, {error}", False)


def check_pictures(name: str, file: bytes) -> None:
    """Compares the pictures of a good file with what is decoded here."""
    title, cells = decoded(file)
    status, text, said = run("text", file=file)
    try:
        lines = (life.box(cells)[1] + 1) // 2
        same(f"{name}, text", (status, said, *shown_by_text(text)), (0, b"", cells, lines))
    except (ValueError, KeyError) as error:
        check(f"{name}, text: {status}, {said!r}, {error}", False)
    status, document, said = run("svg", file=file)
    same(f"{name}, svg's status", (status, said), (0, b""))
    check_svg(name, document, title_of(title), cells)


# ---- the tests

GLIDER = b"#N Glider\nx = 3, y = 3\nbo$2bo$3o!\n"
BY_HAND = [
    ("glider by hand", ("text",), GLIDER, " ▀▄\n▀▀▀\n"),
    ("one cell by hand", ("text",), b"x = 1, y = 1\no!\n", "▀\n"),
    ("five rows by hand", ("text",), b"x = 3, y = 5\no$bo$o$2bo$3o!\n", "▀▄\n▀ ▄\n▀▀▀\n"),
    ("a line without a cell by hand", ("text",), b"x = 1, y = 5\no4$bo!\n", "▀\n\n ▀\n"),
    ("empty by hand", ("text",), b"x = 0, y = 0\n!\n", ""),
    (
        "glider's document by hand",
        ("svg",),
        GLIDER,
        '<svg xmlns="http://www.w3.org/2000/svg" viewBox="-1 -1 5 5" shape-rendering="crispEdges">\n'
        '<title>Glider</title>\n<rect x="-1" y="-1" width="5" height="5" fill="white"/>\n'
        '<path d="M1 0h1v1h-1zM2 1h1v1h-1zM0 2h3v1h-3z"/>\n</svg>\n',
    ),
    (
        "empty document by hand",
        ("svg",),
        b"x = 0, y = 0\n!\n",
        '<svg xmlns="http://www.w3.org/2000/svg" viewBox="-1 -1 2 2" shape-rendering="crispEdges">\n'
        '<rect x="-1" y="-1" width="2" height="2" fill="white"/>\n<path d=""/>\n</svg>\n',
    ),
    (
        "a blinker in motion by hand",
        ("animation", "0", "1"),
        b"x = 3, y = 1\n3o!\n",
        '<svg xmlns="http://www.w3.org/2000/svg" viewBox="-1 -1 5 5" shape-rendering="crispEdges">\n'
        '<rect x="-1" y="-1" width="5" height="5" fill="white"/>\n'
        '<path d="M0 0M0 1h3v1h-3z">'
        '<animate attributeName="d" calcMode="discrete" dur="250ms" repeatCount="indefinite" '
        'values="M0 0M0 1h3v1h-3z;M0 0M1 0h1v1h-1zM1 1h1v1h-1zM1 2h1v1h-1z"/></path>\n</svg>\n',
    ),
    (
        "two cells that die, by hand",
        ("animation", "0", "1"),
        b"#N Gone\nx = 2, y = 1\n2o!\n",
        '<svg xmlns="http://www.w3.org/2000/svg" viewBox="-1 -1 4 3" shape-rendering="crispEdges">\n'
        '<title>Gone</title>\n<rect x="-1" y="-1" width="4" height="3" fill="white"/>\n'
        '<path d="M0 0M0 0h2v1h-2z">'
        '<animate attributeName="d" calcMode="discrete" dur="250ms" repeatCount="indefinite" '
        'values="M0 0M0 0h2v1h-2z;M0 0"/></path>\n</svg>\n',
    ),
]
NAMES = {
    "marks": b'<&> "it\'s" ]]>',
    "entity": b"&amp;",
    "umlauts": "Löschzüge \u65e5\u672c \U0001f680".encode(),
    "Latin-1": b"L\xf6sch",
    "cut UTF-8": b"a\xe2\x82 b\xf0\x9f\x9a",
    "surrogate": b"a\xed\xa0\x80b",
    "too long a form": b"a\xc0\xafb",
    "control characters": b"a\x01b\x1bc\x7fd\te",
    "carriage return": b"a\rb",
    "no characters": b"a\xef\xbf\xbeb\xef\xbf\xbfc",
    "closing tag": b"</title><script>alert(1)</script>",
}


@pytest.mark.parametrize("case, words, file, wanted", BY_HAND, ids=[case for case, *_ in BY_HAND])
def test_by_hand(case: str, words: tuple[str, ...], file: bytes, wanted: str) -> None:
    """Pictures that were written by hand."""
    same(case, run(*words, file=file), (0, wanted.encode(), b""))


@pytest.mark.parametrize("name", sorted(name for name in os.listdir(EXAMPLES) if name.endswith(".rle")))
def test_example(name: str) -> None:
    """The pictures of each example."""
    check_pictures(name, content(EXAMPLES, name))


@pytest.mark.parametrize("case", NAMES)
def test_name(case: str) -> None:
    """The title of a picture is the name of the pattern, whatever bytes it has."""
    check_pictures(f"name with {case}", encoded({(0, 0), (1, 1)}, NAMES[case]))


@pytest.mark.parametrize(
    "words, wanted",
    [
        pytest.param((), b"error: 'life-draw' requires a subcommand but one was not provided", id="no word"),
        pytest.param(("png",), b"error: unrecognized subcommand 'png'", id="another word"),
        pytest.param(("text", "glider.rle"), b"error: unexpected argument 'glider.rle' found", id="a word too many"),
        pytest.param(
            (b"\xff",), b"error: invalid UTF-8 was found in one or more arguments", id="a word that is not UTF-8"
        ),
        pytest.param(("--help",), b"Draws Game of Life patterns", id="help"),
        pytest.param(
            ("text", "--help"), b"Draws the pattern on standard input as text, in half blocks", id="help of text"
        ),
        pytest.param(("help", "svg"), b"Draws the pattern on standard input as an SVG document", id="help of svg"),
        pytest.param(
            ("animation", "--help"),
            b"Draws generations of the pattern on standard input as an animated SVG document",
            id="help of animation",
        ),
        pytest.param(
            ("animation", "1"),
            b"error: the following required arguments were not provided",
            id="an animation without its last generation",
        ),
        pytest.param(
            ("animation", "one", "2"),
            b"error: invalid value 'one' for '<FIRST>'",
            id="an animation from no number",
        ),
    ],
)
def test_words(words: tuple[str | bytes, ...], wanted: bytes) -> None:
    """Words that name no picture: their text begins as wanted, with status 2."""
    status, text, said = run(*words, file=GLIDER)
    same(f"{words}", (status, text, said[: len(wanted)]), (2, b"", wanted))


def test_faults() -> None:
    """The files with a fault of tests/cases: they are refused as by `life`."""
    folder = os.path.join(HERE, "cases", "faults")
    names = [name.removesuffix(".stderr") for name in sorted(os.listdir(folder)) if name.endswith(".stderr")]
    check(f"there are {len(names)} faults", len(names) >= 10)
    for name in names:
        has_input = os.path.exists(os.path.join(folder, f"{name}.stdin"))
        file = content(folder, f"{name}.stdin") if has_input else b""
        wanted = int(content(folder, f"{name}.status")), b"", content(folder, f"{name}.stderr").rstrip() + b"\n"
        for picture in (("text",), ("svg",), ("animation", "0", "9")):
            same(f"{name}, {picture[0]}", run(*picture, file=file), wanted)
    same("1025 columns", run("text", file=encoded({(0, 0), (1024, 0)})), (1, b"", b"refused: bad-pattern too-wide\n"))


@pytest.mark.parametrize(
    "name, shell, status, said",
    [
        ("input closed", "text <&-", 1, b"refused: unreadable\n"),
        ("input a folder", "svg < /", 1, b"refused: unreadable\n"),
        ("output full", "svg > /dev/full", 1, b""),
        ("output closed", "text >&-", 1, b""),
    ],
)
def test_streams(name: str, shell: str, status: int, said: bytes) -> None:
    """Streams that are closed, are folders, or are full."""
    done = subprocess.run(
        ["bash", "-c", f'exec -a life-draw "$0" {shell}', PROGRAM],
        input=GLIDER,
        capture_output=True,
        timeout=60,
        check=False,
    )
    same(name, (done.returncode, done.stdout, done.stderr), (status, b"", said))


@pytest.mark.parametrize("picture", ["text", "svg"])
def test_closed_pipe(picture: str) -> None:
    """More than a pipe holds, to a reader that leaves after ten bytes."""
    wide = encoded({(x, y) for x in range(0, 1024, 2) for y in range(100)})
    with subprocess.Popen(
        [PROGRAM, picture], stdin=subprocess.PIPE, stdout=subprocess.PIPE, stderr=subprocess.PIPE
    ) as program:
        assert program.stdin and program.stdout and program.stderr
        program.stdin.write(wide)
        program.stdin.close()
        front = program.stdout.read(10)
        program.stdout.close()
        said = program.stderr.read()
        status = program.wait(60)
    check(
        f"{picture} into a pipe that is closed: status {status}, {said!r}",
        (len(front), said) == (10, b"") and status in (1, -13),
    )


def test_soups() -> None:
    """Seeded sets in boxes of many sizes."""
    chance = random.Random(30)
    for width, height in [
        (1, 1),
        (1, 9),
        (9, 1),
        (2, 2),
        (3, 5),
        (8, 8),
        (17, 33),
        (64, 64),
        (65, 63),
        (300, 7),
        (7, 300),
        (1024, 2),
        (2, 1024),
    ]:
        for share in (0.1, 0.5, 0.9):
            cells = {(x, y) for x in range(width) for y in range(height) if chance.random() < share}
            check_pictures(f"soup of {width} by {height}, {share}", encoded(cells))


def test_large() -> None:
    """Patterns as wide as a file may be, and one that is far from the origin."""
    check_pictures("two corners", encoded({(0, 0), (1023, 1023)}))
    check_pictures("full", b"x = 1024, y = 1024\n" + b"$".join([b"1024o"] * 1024) + b"!\n")
    check_pictures("every other cell", encoded({(x, y) for x in range(1024) for y in range(1000) if (x + y) % 2}))
    check_pictures("not at the origin", b"#N\n#N Far\n#N Other\nx = 1, y = 1\n7$5bobo$6bo!\n")


@pytest.mark.parametrize("example", ["glider", "gosper-gun", "acorn", "pulsar"])
def test_animation_of(example: str) -> None:
    """Generations of an example in motion."""
    for first, last in ((0, 0), (0, 30), (17, 41)):
        check_animation(example, content(EXAMPLES, f"{example}.rle"), first, last)


def test_animations() -> None:
    """The most generations in motion, no cell, soups, and the last generations that there may be."""
    check_animation("240 generations", content(EXAMPLES, "acorn.rle"), 3, 242)
    check_animation("no cell", b"#N None\nx = 0, y = 0\n!\n", 0, 3)
    chance = random.Random(31)
    for size in (5, 40, 130):
        cells = {(x, y) for x in range(size) for y in range(size) if chance.random() < 0.4}
        check_animation(f"soup of {size} by {size}", encoded(cells, b"Soup"), 1, 8)
    check_animation("glider", GLIDER, 2040, 2048)


@pytest.mark.parametrize("first, last", [(0, 2049), (2049, 2049), (3, 2), (0, 240), (1809, 2**64 - 1)])
def test_refused_animation(first: int, last: int) -> None:
    """Numbers that are refused before a byte is read."""
    done = subprocess.run(
        [PROGRAM, "animation", str(first), str(last)],
        stdin=subprocess.DEVNULL,
        capture_output=True,
        timeout=60,
        check=False,
    )
    same(
        f"animation {first} {last}",
        (done.returncode, done.stdout, done.stderr),
        (1, b"", b"refused: out-of-limit\n"),
    )


def test_kept_pictures(folder: str) -> None:
    """The pictures of docs/pictures: drawn again, and computed here."""
    kept, made = os.path.join(TOP, "docs", "pictures"), os.path.join(folder, "pictures")
    os.mkdir(made)
    done = subprocess.run(
        [os.path.join(TOP, "tools", "make-pictures"), made, LIFE, PROGRAM], capture_output=True, timeout=60, check=False
    )
    same("tools/make-pictures", (done.returncode, done.stdout, done.stderr), (0, b"", b""))
    names = sorted(os.listdir(made))
    check(f"the pictures of docs/pictures: {names}", names == sorted(os.listdir(kept)) and len(names) >= 5)
    for name in names:
        same(f"docs/pictures/{name}", content(made, name), content(kept, name))
    for name in names:
        found = re.fullmatch(r"([a-z-]+?)(?:-(\d+))?\.svg", name)
        assert found, name
        title, cells = decoded(content(EXAMPLES, f"{found[1]}.rle"))
        for _ in range(int(found[2] or 0)):
            cells = life.following(life.LIFE, cells)
        # A generation that is printed has no texts.
        check_svg(
            f"docs/pictures/{name}", content(kept, name), None if found[2] else title_of(title), life.normal(cells)
        )
