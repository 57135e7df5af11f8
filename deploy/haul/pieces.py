"""The common part of the scripts that split a haul: its arguments, its folder, and the pieces of its range."""
from __future__ import annotations

import argparse
import dataclasses
import json
import os
import re
import shutil
import subprocess
import sys
from typing import NoReturn

# The repository, found from the path under which the script was called. In the package, the folder of the documents,
# which has the same `examples`.
TOP = os.path.join(os.path.dirname(os.path.abspath(sys.argv[0])), "..", "..")
ADD = os.path.join(TOP, "examples", "scripts", "add-hauls")
# The most soups for one call of the program, and the most tables that fit on the command line of `add-hauls`.
MOST_SOUPS = 1_000_000
MOST_PIECES = 10_000
# The command that counts a piece: FIRST is its first soup, COUNT the number of soups. A table gets its name once it is
# whole, and is then never made again. The arguments of the haul are in the environment, so a shell never parses them.
PIECE = (
    "trap 'rm -f FIRST.$$' EXIT\n"
    "trap 'exit 1' INT TERM\n"
    "[ -e FIRST.csv ] && exit\n"
    '"$HAUL_PROGRAM" --rule "$HAUL_RULE" --symmetry "$HAUL_SYMMETRY" -- '
    '"$HAUL_ROOT" FIRST COUNT "$HAUL_N" "$HAUL_LIMIT" > FIRST.$$ && mv FIRST.$$ FIRST.csv'
)


class Haul:
    """The arguments of a haul, which argparse sets."""

    root: str
    first: int
    count: int
    n: int
    limit: int
    folder: str
    size: int
    rule: str
    symmetry: str
    program: str


@dataclasses.dataclass(frozen=True)
class Piece:
    """A part of a range: its first soup, and the number of soups."""

    first: int
    count: int


def end(why: str) -> NoReturn:
    sys.exit(f"haul/{os.path.basename(sys.argv[0])}: {why}")


def number(text: str) -> int:
    if not re.fullmatch("[0-9]{1,19}", text):
        raise argparse.ArgumentTypeError(f"{text}: not a number")
    return int(text)


def positive(text: str) -> int:
    if number(text) == 0:
        raise argparse.ArgumentTypeError("0: not a number from 1 on")
    return number(text)


def absolute(path: str) -> str:
    return os.path.abspath(path)


def usual_program() -> str:
    """The repository's `life-haul` or, in the package, the one on the PATH."""
    own = os.path.join(TOP, "life-haul")
    return own if os.path.exists(own) else shutil.which("life-haul") or own


def parser_of(description: str | None) -> argparse.ArgumentParser:
    """A parser for the arguments that all scripts have."""
    parser = argparse.ArgumentParser(
        description=description, formatter_class=argparse.RawDescriptionHelpFormatter, allow_abbrev=False
    )
    parser.add_argument("root", metavar="ROOT")
    for name in ("FIRST", "COUNT", "N", "LIMIT"):
        parser.add_argument(name.lower(), metavar=name, type=number)
    parser.add_argument("--folder", required=True)
    parser.add_argument("--size", type=positive, default=10_000)
    parser.add_argument("--rule", default="B3/S23")
    parser.add_argument("--symmetry", default="C1")
    parser.add_argument("--program", type=absolute, default=usual_program())
    return parser


def read_arguments(parser: argparse.ArgumentParser, arguments: list[str], haul: Haul) -> None:
    """Sets the arguments of a haul from those of a command line."""
    parser.parse_args(arguments, haul)
    if haul.size > MOST_SOUPS:
        parser.error(f"a piece has at most {MOST_SOUPS} soups")
    if haul.count > MOST_PIECES * haul.size:
        parser.error(f"more than {MOST_PIECES} pieces: use a larger --size")


def pieces_of(haul: Haul) -> list[Piece]:
    return [Piece(haul.first + done, min(haul.size, haul.count - done)) for done in range(0, haul.count, haul.size)]


def validate(haul: Haul, pieces: list[Piece]) -> None:
    """Ends like the program if that refuses the first soup of the last piece. This also builds the program if
    necessary."""
    last = pieces[-1].first if pieces else haul.first
    numbers = map(str, (last, min(haul.count, 1), haul.n, haul.limit))
    done = subprocess.run(
        [haul.program, "--rule", haul.rule, "--symmetry", haul.symmetry, "--", haul.root, *numbers],
        stdout=subprocess.DEVNULL,
        check=False,
    )
    if done.returncode != 0:
        sys.exit(done.returncode)


def take_folder(haul: Haul) -> None:
    """Makes the folder, or checks that it is this haul's."""
    names = ["root", "first", "count", "n", "limit", "rule", "size"]
    # Like their tables, hauls of C1 do not name their symmetry.
    names += ["symmetry"] if haul.symmetry != "C1" else []
    own = json.dumps({name: getattr(haul, name) for name in names}) + "\n"
    stored = os.path.join(haul.folder, "haul.json")
    os.makedirs(haul.folder, exist_ok=True)
    if os.path.exists(stored):
        with open(stored, encoding="utf-8") as file:
            if file.read() != own:
                end(f"{haul.folder}: this folder belongs to another haul (its arguments are in haul.json)")
    elif os.listdir(haul.folder):
        end(f"{haul.folder}: the folder has other files")
    else:
        with open(stored, "w", encoding="utf-8") as file:
            file.write(own)
    os.makedirs(os.path.join(haul.folder, "pieces"), exist_ok=True)


def write_list(haul: Haul, pieces: list[Piece]) -> None:
    """Writes a line for each piece, with its first soup and its count."""
    with open(os.path.join(haul.folder, "list"), "w", encoding="utf-8") as file:
        file.writelines(f"{piece.first} {piece.count}\n" for piece in pieces)


def environment(haul: Haul) -> dict[str, str]:
    """The environment for the commands that count pieces."""
    return os.environ | {
        "HAUL_PROGRAM": haul.program,
        "HAUL_ROOT": haul.root,
        "HAUL_N": str(haul.n),
        "HAUL_LIMIT": str(haul.limit),
        "HAUL_RULE": haul.rule,
        "HAUL_SYMMETRY": haul.symmetry,
    }


def table_names(pieces: list[Piece]) -> list[str]:
    return [f"{piece.first}.csv" for piece in pieces]
