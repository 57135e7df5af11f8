"""Compares generations with Golly's: its own files and seeded fields are evolved by its QuickLife and by the program
`life`.

The live cells have to be the same up to a translation, since the program prints each generation from its corner. Files
of Golly that the program refuses as patterns, such as those with other kinds of rules, are left out; fields never are.

It needs Debian's golly, which has `bgolly` and the files.
"""
import concurrent.futures
import glob
import os
import random
import shutil
import subprocess

import pytest

import life
from clients import HERE, check, same

PROGRAM = os.path.abspath(os.path.join(HERE, "..", "crates", "life_patterns", "out", "life_patterns"))
PATTERNS = "/usr/share/golly/Patterns"
GENERATIONS = (0, 1, 64, 512)
# At least this many of Golly's files must be accepted.
TAKEN = 100
RULES = ["B3/S23", "B36/S23", "B2/S", "B3678/S34678", "B35678/S5678", "B1357/S1357", "B3/S012345678", "B4678/S35678"]
SIDES = [1, 7, 31, 64, 65, 150]
Field = tuple[life.Rule, life.Cells]

pytestmark = [pytest.mark.full, pytest.mark.usefixtures("golly")]


@pytest.fixture(scope="module")
def golly() -> None:
    """Skips the tests without Golly, or if the program is not built."""
    if not shutil.which("bgolly") or not os.path.isdir(PATTERNS):
        pytest.skip("Golly is not installed")
    if not os.access(PROGRAM, os.X_OK):
        pytest.skip(f"there is no program {PROGRAM}")


def field_of(text: bytes) -> Field:
    """The rule and the live cells that a file spells, moved so that the least column and row are 0. Generations are
    wider than files may be."""
    return life.read_file(text, is_limited=False)[3:]


def by_life(path: str, generation: int) -> Field | str:
    """What the program prints, or the refusal that it says. Any other end is an error."""
    with open(path, "rb") as file:
        done = subprocess.run(
            [PROGRAM, "generation", str(generation)], stdin=file, capture_output=True, timeout=120, check=False
        )
    if done.returncode == 1 and done.stderr.startswith(b"refused: "):
        return done.stderr.decode()
    done.check_returncode()
    return field_of(done.stdout)


def by_golly(path: str, generation: int, folder: str) -> Field:
    """What QuickLife writes."""
    written = os.path.join(folder, f"{random.getrandbits(64)}.rle")
    subprocess.run(
        ["bgolly", "-q", "-q", "-a", "QuickLife", "-m", str(generation), "-o", written, path],
        capture_output=True,
        timeout=120,
        check=True,
    )
    with open(written, "rb") as file:
        text = file.read()
    os.remove(written)
    return field_of(text)


def compare(paths: list[str], folder: str) -> None:
    """Compares the generations of files, on all processors."""

    def compare_file(path: str) -> None:
        for generation in GENERATIONS:
            same(f"generation {generation} of {path}", by_life(path, generation), by_golly(path, generation, folder))

    with concurrent.futures.ThreadPoolExecutor(os.cpu_count()) as pool:
        list(pool.map(compare_file, paths))


def is_taken(path: str) -> bool:
    """Whether the program accepts a file as a pattern."""
    return not str(by_life(path, 0)).startswith("refused: bad-pattern ")


def test_files_of_golly(folder: str) -> None:
    paths = sorted(glob.glob(f"{PATTERNS}/**/*.rle", recursive=True))
    with concurrent.futures.ThreadPoolExecutor(os.cpu_count()) as pool:
        taken = [path for path, good in zip(paths, pool.map(is_taken, paths)) if good]
    check(f"{len(taken)} of Golly's {len(paths)} files are accepted", len(taken) >= TAKEN)
    compare(taken, folder)


@pytest.fixture(scope="module")
def fields(folder: str) -> str:
    """A folder of files of random fields, of each side under each rule, three tenths of the cells live, and half of
    them."""
    path, chance = os.path.join(folder, "fields"), random.Random(2048)
    os.mkdir(path)
    for rule in RULES:
        for side in SIDES:
            for tenths in (3, 5):
                rows = [
                    "".join("o" if chance.randrange(10) < tenths else "b" for _ in range(side)) for _ in range(side)
                ]
                name = f"{rule.replace('/', '-')}-{side}-{tenths}.rle"
                with open(os.path.join(path, name), "w", encoding="ascii") as file:
                    file.write(f"x = {side}, y = {side}, rule = {rule}\n" + "$\n".join(rows) + "!\n")
    return path


@pytest.mark.parametrize("rule", RULES)
def test_random_fields(folder: str, fields: str, rule: str) -> None:
    compare(sorted(glob.glob(f"{fields}/{rule.replace('/', '-')}-*.rle")), folder)
