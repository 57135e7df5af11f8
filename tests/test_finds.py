"""The scripts for the table of a haul: what examples/scripts/deposit-finds refuses and deposits, and what
examples/scripts/plot-haul draws. The expected finds, soups and censuses are computed in Python.
"""
import hashlib
import json
import os
import subprocess
import tempfile
import xml.etree.ElementTree
from collections.abc import Iterator

import pytest

import haul_reference
import life
import reference
from clients import HERE, Server, check, deposit, exchanged, message, same

TOP = os.path.join(HERE, "..")
SCRIPTS = os.path.join(TOP, "examples", "scripts")
HAUL = os.path.abspath(os.path.join(TOP, "crates", "life_haul", "out", "life_haul"))
ROOT, SOUPS, GENERATION, LIMIT = "ann-2026", 40, 500, 60
# A code, its count and the first soup that has it.
Find = tuple[str, int, int]

pytestmark = [pytest.mark.quick, pytest.mark.usefixtures("program", "haul")]


@pytest.fixture(scope="module")
def haul() -> None:
    """Skips the tests if life-haul is not built."""
    if not os.access(HAUL, os.X_OK):
        pytest.skip(f"there is no program {HAUL}")


@pytest.fixture
def room() -> Iterator[str]:
    """A folder for one test."""
    with tempfile.TemporaryDirectory() as path:
        yield path


def said(room: str, name: str, *words: str) -> tuple[int, str, str]:
    """The status of a script and the texts of its two streams. What it remembers is in the room."""
    environment = os.environ | {"XDG_STATE_HOME": os.path.join(room, "state"), "HOME": room, "LIFE_HAUL": HAUL}
    ended = subprocess.run(
        [os.path.join(SCRIPTS, name), *words], capture_output=True, text=True, timeout=300, check=False, env=environment
    )
    return ended.returncode, ended.stdout, ended.stderr


def table(room: str) -> tuple[str, list[list[str]]]:
    """The path of a haul's table, and its rows: the least count first, and of equal counts in the order of the
    table."""
    path = os.path.join(room, "haul.csv")
    with open(path, "wb") as file:
        subprocess.run([HAUL, ROOT, "0", str(SOUPS), str(GENERATION), str(LIMIT)], stdout=file, check=True)
    with open(path, encoding="ascii") as file:
        rows = [line.rstrip("\n").split(",") for line in file if line.startswith("x")]
    return path, sorted(rows, key=lambda row: int(row[1]))


def test_usage(room: str) -> None:
    """Wrong arguments, and files that are no tables."""
    path, _ = table(room)
    nowhere = "http://localhost:9"
    wrong: list[list[str]] = [
        [],
        [nowhere, path, "ann"],
        [nowhere, path, "Ann", "5"],
        [nowhere, path, "ann", "0"],
        [nowhere, path, "ann", "x"],
    ]
    for words in wrong:
        status, printed, errors = said(room, "deposit-finds", *words)
        check(f"usage {words[1:]}: {errors!r}", status == 2 and printed == "" and errors.startswith("deposit-finds: "))
    plain = os.path.join(room, "plain.csv")
    with open(plain, "w", encoding="ascii") as file:
        file.write("code,count,first\nxs4_33,1,0\nunresolved,0,\n")
    same(
        "no table",
        said(room, "deposit-finds", nowhere, plain, "ann", "5"),
        (1, "", f"deposit-finds: {plain}: not a table of a haul\n"),
    )
    same(
        "a table that can't be read",
        said(room, "deposit-finds", nowhere, room + "/none", "ann", "5"),
        (1, "", f"deposit-finds: {room}/none: it cannot be read\n"),
    )
    same("no table to draw", said(room, "plot-haul", plain), (1, "", f"plot-haul: {plain}: not a table of a haul\n"))
    same("no file to draw", (said(room, "plot-haul", room + "/none")[0], said(room, "plot-haul")[0]), (1, 2))
    status, printed, errors = said(room, "deposit-finds", nowhere, path, "ann", "5")
    check(f"no server: {errors!r}", status == 1 and printed == "" and "no reply from" in errors)


def titles(parent: xml.etree.ElementTree.Element) -> list[str]:
    """The titles of the children of an element."""
    return [title.text or "" for title in parent.findall("{*}title")]


def test_picture(room: str) -> None:
    """A picture has a point for each code, with its count, from the most frequent on."""
    path, rows = table(room)
    status, printed, errors = said(room, "plot-haul", path)
    same("a picture", (status, errors), (0, ""))
    tree = xml.etree.ElementTree.fromstring(printed)
    same(
        "its title",
        titles(tree),
        [f"{SOUPS} soups of {ROOT} under B3/S23 at generation {GENERATION}: {len(rows)} codes"],
    )
    rule, soups, generation, symmetry = MIRRORED
    mirrored = said(room, "plot-haul", hauled(room, rule, soups, generation, symmetry))[1]
    title = titles(xml.etree.ElementTree.fromstring(mirrored))[0]
    check(
        f"the title of another symmetry: {title}",
        title.startswith(f"{soups} soups of {ROOT} ({symmetry}) under {rule} at generation {generation}: "),
    )
    points = tree.findall("{*}circle")
    wanted = sorted(
        (f"{code}: {int(count):,}" for code, count, _ in rows),
        key=lambda text: (-int(text.split(": ")[1].replace(",", "")), text),
    )
    same("its points", [title for point in points for title in titles(point)], wanted)
    places = [(float(point.attrib["cx"]), float(point.attrib["cy"])) for point in points]
    check(
        "a greater rank is further right, a smaller count lower",
        places == sorted(places, key=lambda place: (place[0], place[1]))
        and all(one[1] <= other[1] for one, other in zip(places, places[1:])),
    )


# ---- what is deposited

# The haul whose finds are deposited: rule, how many soups, generation. Of its rarest codes the first 7 have two of one
# soup.
RULE, HAULED, AT, RAREST = "B3/S23", 20, 200, 7
HIGHLIFE = "B36/S23", 6, 64
# Another haul with soups of another symmetry than C1.
MIRRORED = "B3/S23", 4, 64, "D2_+1"


def soup(rule: str, number: int, symmetry: str = "C1") -> bytes:
    """A soup as a pattern file: the archive's canonical text of its cells."""
    cells = haul_reference.soup(ROOT, number, symmetry)
    return life.file_text((None, None, (), life.read_rule(rule.encode()), cells))


def counted(rule: str, soups: int, generation: int, symmetry: str = "C1") -> list[Find]:
    """The rows of a haul's table: the least count first, and of equal counts in byte order of the codes."""
    found: dict[str, tuple[int, int]] = {}
    for number in range(soups):
        read, cells = life.read_file(soup(rule, number, symmetry))[3:]
        for code, count in reference.tally(read, life.generation(read, cells, generation), LIMIT)[0]:
            seen, first = found.get(code, (0, number))
            found[code] = seen + count, first
    return sorted(((code, *row) for code, row in found.items()), key=lambda row: (row[1], row[0]))


def hauled(room: str, rule: str, soups: int, generation: int, symmetry: str = "C1") -> str:
    """The path of the table that life-haul prints."""
    path = os.path.join(room, f"{rule.replace('/', '-')}-{symmetry}.csv")
    with open(path, "wb") as file:
        subprocess.run(
            [HAUL, "--rule", rule, "--symmetry", symmetry, ROOT, "0", str(soups), str(generation), str(LIMIT)],
            stdout=file,
            check=True,
        )
    return path


def number_of(reply: bytes) -> int:
    return int(next(iter(json.loads(reply.split(b"\r\n\r\n", 1)[1]).values())))


def deposited(
    archive: reference.Archive, member: str, rule: str, generation: int, finds: list[Find], symmetry: str = "C1"
) -> str:
    """What the script prints for finds, once the archive of the reference has their soups and censuses. Soups come in
    the order of their files' names, and the token of a file is its digest."""
    numbers, printed = {}, ""
    for number in sorted({first for _, _, first in finds}, key=lambda first: f"{first}.rle"):
        text = soup(rule, number, symmetry)
        numbers[number] = number_of(archive.replies(deposit(member, hashlib.sha256(text).hexdigest(), text)))
    for code, _, first in finds:
        token = f"g{generation}-l{LIMIT}-d{numbers[first]}"
        asked = message(
            "POST",
            f"/deposits/{numbers[first]}/censuses/{generation}/{LIMIT}",
            b"",
            f"x-member: {member}",
            f"x-token: {token}",
        )
        printed += f"{code}\t{numbers[first]}\t{number_of(archive.replies(asked))}\n"
    return printed


class Archive(reference.Archive):
    """The reference, which counts the field of a census once."""

    def __init__(self) -> None:
        super().__init__()
        self.known: dict[int, tuple[int, int, int, reference.Tally, bool]] = {}

    def counted(self, number: int) -> tuple[int, int, int, reference.Tally, bool]:
        if number not in self.known:
            self.known[number] = super().counted(number)
        return self.known[number]


def is_same(server: Server, archive: Archive) -> bool:
    """Whether the archive that is served shows the list, each deposit, each census and each of their codes as the one
    of the reference. Numbers beyond the last are asked for too: nothing is there."""
    last, most = len(archive.deposits) + 1, len(archive.censuses) + 1
    codes = {code for number in range(1, most) for code, _ in archive.counted(number)[3][0]}
    paths = [
        "/deposits/after/0",
        *(f"/deposits/{number}" for number in range(1, last + 1)),
        *(f"/censuses/{number}" for number in range(1, most + 1)),
        *(f"/objects/{rule}/{code}/{LIMIT}" for rule in ("B3S23", "B36S23") for code in sorted(codes)),
    ]
    asked = [message("GET", path) for path in paths]
    return exchanged(server.port, asked) == archive.replies(b"".join(asked))


def url(server: Server) -> str:
    return f"http://127.0.0.1:{server.port}"


def test_finds_are_deposited(room: str) -> None:
    """The first soups of the rarest codes are deposited and counted, and the numbers are printed. Again they are the
    same, and nothing is new."""
    archive, path, rows = Archive(), hauled(room, RULE, HAULED, AT), counted(RULE, HAULED, AT)
    rarest = rows[:RAREST]
    check("soups with one find and a soup with two", 1 < len({first for _, _, first in rarest}) < RAREST < len(rows))
    with Server(os.path.join(room, "finds.db"), 1000) as server:
        printed = deposited(archive, "ann", RULE, AT, rarest)
        same("the rarest finds", said(room, "deposit-finds", url(server), path, "ann", str(RAREST)), (0, printed, ""))
        check("what the archive has of them", is_same(server, archive))
        # The second time without the record of what was sent.
        for home in (room, os.path.join(room, "another")):
            same(
                f"the same again from {home}",
                said(home, "deposit-finds", url(server), path, "ann", str(RAREST)),
                (0, printed, ""),
            )
            check(f"nothing new from {home}", is_same(server, archive))
        everything = deposited(archive, "ann", RULE, AT, rows)
        said_of_all = said(room, "deposit-finds", url(server) + "/", path, "ann", "9999")
        same("all finds", (said_of_all, everything.startswith(printed)), ((0, everything, ""), True))
        others = deposited(archive, "bob", RULE, AT, rows[:1])
        same(
            "another member's find",
            (said(room, "deposit-finds", url(server), path, "bob", "1"), is_same(server, archive)),
            ((0, others, ""), True),
        )
        rule, soups, generation = HIGHLIFE
        path, found = hauled(room, rule, soups, generation), counted(rule, soups, generation)[:3]
        under_it = deposited(archive, "ann", rule, generation, found)
        same(
            "finds under another rule",
            (said(room, "deposit-finds", url(server), path, "ann", "3"), is_same(server, archive)),
            ((0, under_it, ""), True),
        )
        path, found = hauled(room, *MIRRORED), counted(*MIRRORED)[:3]
        mirrored = deposited(archive, "ann", RULE, MIRRORED[2], found, MIRRORED[3])
        same(
            "finds of another symmetry",
            (said(room, "deposit-finds", url(server), path, "ann", "3"), is_same(server, archive)),
            ((0, mirrored, ""), True),
        )


def changed(path: str, before: str, after: str) -> str:
    """The path of a table with one line changed."""
    other = path + "-changed"
    with open(path, encoding="ascii") as table_text, open(other, "w", encoding="ascii") as out:
        lines = table_text.read().split("\n")
        lines[lines.index(before)] = after
        out.write("\n".join(lines))
    return other


def test_changed_tables(room: str) -> None:
    """A table that was changed by hand: a soup that can't be made, an invalid limit, a soup without the code."""
    archive, path, rows = Archive(), hauled(room, RULE, HAULED, AT), counted(RULE, HAULED, AT)
    code, count, first = rows[0]
    row, too_great = f"{code},{count},{first}", 9007199255740992
    with Server(os.path.join(room, "not-found.db"), 1000) as server:
        status, printed, errors = said(
            room, "deposit-finds", url(server), changed(path, row, f"{code},1,{too_great}"), "ann", "2"
        )
        check(
            "a soup that can't be made",
            (status, printed) == (1, "")
            and errors.endswith(f"deposit-finds: soup {too_great} of {ROOT} can't be made\n"),
        )
        check("nothing is sent of it", is_same(server, archive))
        # No other soup has the code, as its count is 1.
        other = (first + 1) % HAULED
        printed = deposited(archive, "ann", RULE, AT, [(code, 1, other), *rows[1:2]])
        line, rest = printed.split("\n", 1)
        _, number, census = line.split("\t")
        wanted = (1, rest, f"census {census} of deposit {number} has no {code}\n")
        same(
            "a soup without the code",
            (count, said(room, "deposit-finds", url(server), changed(path, row, f"{code},1,{other}"), "ann", "2")),
            (1, wanted),
        )
        check("what the archive has of it", is_same(server, archive))
        refused = f"deposit {number}: out-of-limit: a generation is 0 to 2048, a limit 1 to 2048\n"
        again = changed(changed(path, row, f"{code},1,{other}"), f"# limit {LIMIT}", "# limit 2049")
        same(
            "an invalid limit",
            (said(room, "deposit-finds", url(server), again, "ann", "1"), is_same(server, archive)),
            ((1, "", refused), True),
        )
