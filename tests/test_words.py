"""What the programs say about their arguments: the text of `life explain` for each name, and the
hint after a usage error if a file is named although the pattern comes on standard input.

No clause covers the sentences, so they are compared here, and so are the names in the help and in the usage error for
an unknown name.
"""
import os
import re
import subprocess
from typing import IO

import pytest

import clients
from clients import GLIDER, HERE, check, same
from tables.program import read_program
from tables.texts import read_file

TOP = os.path.join(HERE, "..")
DRAW = os.path.abspath(os.path.join(TOP, "crates", "life_draw", "out", "life_draw"))

pytestmark = [pytest.mark.quick, pytest.mark.usefixtures("program")]


def said(called: str, *words: str, stdout: int | IO[str] = subprocess.PIPE) -> tuple[int, str | None, str]:
    """The status of a program that is called by its name, and what it prints on its two streams."""
    if called == "life-draw" and not os.access(DRAW, os.X_OK):
        pytest.skip(f"there is no program {DRAW}")
    done = subprocess.run(
        [called, *words],
        executable={"life": clients.PROGRAM, "life-draw": DRAW}[called],
        stdin=subprocess.DEVNULL,
        stdout=stdout,
        stderr=subprocess.PIPE,
        text=True,
        timeout=60,
    )
    return done.returncode, done.stdout, done.stderr


# ---- explanations


def explanations() -> dict[str, str]:
    """The lines for each name, as documents and web pages have them."""
    return {
        name: "".join(f"{line}\n" for line in lines) for name, lines in read_program(read_file).explanations.items()
    }


EXPLANATIONS = explanations()


def test_names_in_two_kinds() -> None:
    check("there are names in two kinds", sum(text.count("\n") > 1 for text in EXPLANATIONS.values()) > 2)


@pytest.mark.parametrize("name", EXPLANATIONS)
def test_explanation(name: str) -> None:
    same(f"explain {name}", said("life", "explain", name), (0, EXPLANATIONS[name], ""))


def test_another_name() -> None:
    """A name that no refusal has is a usage error, which lists the names and suggests one."""
    names = ", ".join(sorted(EXPLANATIONS))
    status, printed, errors = said("life", "explain", "no-ned")
    check(
        "another name is a usage error",
        (status, printed) == (2, "") and errors.startswith("error: invalid value 'no-ned' for '<NAME>'\n"),
    )
    check("it lists the names", f"\n  [possible values: {names}]\n" in errors)
    check("it suggests one", "\n  tip: a similar value exists: 'no-end'\n" in errors)
    for word in ("", "No-End", "no-end ", "no-en"):
        same(f"explain {word!r} is a usage error", said("life", "explain", word)[:2], (2, ""))


def test_names_of_the_help() -> None:
    """The help lists the names. It is printed as a usage error is."""
    listed = re.search(r"(?m)^Names: +((?:.*\n)(?: +.*\n)*)", said("life", "explain", "--help")[2])
    same("the names of the help", listed and " ".join(listed[1].split()), ", ".join(sorted(EXPLANATIONS)))


def test_full_output() -> None:
    with open("/dev/full", "w", encoding="ascii") as full:
        same("standard output fails", said("life", "explain", "full", stdout=full), (1, None, ""))


# ---- files that are named

# What is typed with a file, and what is said then.
FRONT = "The pattern comes on standard input: "
NAMED = [
    ("life", ["generation", "1", "glider.rle"], "life generation 1 < glider.rle"),
    ("life", ["kind", "4", "patterns/glider.rle"], "life kind 4 < patterns/glider.rle"),
    ("life", ["census", "0", "2", "two gliders.rle"], "life census 0 2 < 'two gliders.rle'"),
    ("life", ["kind", "4", "ann's $HOME.rle"], "life kind 4 < 'ann'\\''s $HOME.rle'"),
    (
        "life",
        ["deposit", "--db", "the club.db", "ann", "t1", "2.rle"],
        "life deposit --db 'the club.db' ann t1 < 2.rle",
    ),
    ("life", ["deposit", "--db=club.db", "ann", "", "glider.rle"], "life deposit --db=club.db ann '' < glider.rle"),
    ("life-draw", ["text", "glider.rle"], "life-draw text < glider.rle"),
    ("life-draw", ["animation", "0", "29", "glider.rle"], "life-draw animation 0 29 < glider.rle"),
]
# The same with a file in the place of a number.
IN_PLACE_OF_A_NUMBER = [
    ("life", ["generation", "glider.rle"], "life generation ... < glider.rle"),
    ("life", ["kind", "patterns/glider"], "life kind ... < patterns/glider"),
    ("life", ["census", "0", "two gliders.rle"], "life census 0 ... < 'two gliders.rle'"),
    ("life-draw", ["animation", "0", "glider.rle"], "life-draw animation 0 ... < glider.rle"),
]
# What is wrong in another way.
OTHERWISE: list[tuple[str, list[str]]] = [
    ("life", ["generation", "1", "2"]),
    ("life", ["generation", "1", "--glider"]),
    ("life", ["generation", "1", "-g"]),
    ("life", ["generation", "ten"]),
    ("life", ["generation", "1.5"]),
    ("life", ["object", "B3/S23", "xs4_33", "glider.rle"]),
    ("life", ["kind", "4", "glider.rle", "pulsar.rle"]),
    ("life", ["kind", "many", "glider.rle"]),
    ("life", ["object", "B3/S23", "xs4_33", "1", "glider.rle"]),
    ("life", ["explain", "no-end", "glider.rle"]),
    ("life", ["serve", "--db", "f", "--port", "1", "--connections", "1", "glider.rle"]),
    ("life", ["glider.rle"]),
    ("life", []),
    ("life", ["kind", "--help"]),
    ("life-draw", ["glider.rle"]),
    ("life-draw", ["text", "--glider"]),
]


HINTS = [("unexpected argument", *case) for case in NAMED] + [("invalid value", *case) for case in IN_PLACE_OF_A_NUMBER]


@pytest.mark.parametrize("error, called, words, wanted", HINTS, ids=[" ".join([case[1], *case[2]]) for case in HINTS])
def test_file_is_named(error: str, called: str, words: list[str], wanted: str) -> None:
    status, printed, errors = said(called, *words)
    check(
        f"a file is named, {words}: {errors!r}",
        (status, printed) == (2, "")
        and errors.startswith(f"error: {error} '")
        and errors.endswith(f"For more information, try '--help'.\n{FRONT}{wanted}\n"),
    )


@pytest.mark.parametrize("called, words", OTHERWISE, ids=[" ".join([called, *words]) for called, words in OTHERWISE])
def test_no_file_is_named(called: str, words: list[str]) -> None:
    status, printed, errors = said(called, *words)
    check(f"no file is named, {words}: {errors!r}", (status, printed) == (2, "") and FRONT not in errors)


@pytest.mark.parametrize("name", ["glider.rle", "two gliders.rle", "ann's $HOME.rle"])
def test_shell_takes_the_line(program: str, tmp_path: os.PathLike[str], name: str) -> None:
    os.symlink(program, os.path.join(tmp_path, "life"))
    with open(os.path.join(tmp_path, name), "wb") as file:
        file.write(GLIDER)
    line = said("life", "kind", "4", name)[2].splitlines()[-1].removeprefix(FRONT)
    done = subprocess.run(
        ["sh", "-c", f"PATH=.:$PATH; {line}"], cwd=tmp_path, capture_output=True, text=True, timeout=60
    )
    same(f"a shell takes {line}", (done.returncode, done.stdout), (0, "ship 4 1 1 xq4_153\n"))
