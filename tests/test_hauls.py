"""The tables of `life-haul`, compared with hauls computed in Python.

200 soups of three roots, and some of each symmetry, are compared with tests/haul_reference.py, which uses the program
`life` only for the codes of shapes. Soups are compared with hashlib and with sha256sum, as `life` prints them.
Refusals, usage errors, failing streams and a terminal are tested. A haul of four times the soups takes no more memory.
The commands of docs/HAULS.md print what is written there. tests/test_sharing.py has the scripts that split hauls and
add them.
"""
import contextlib
import os
import pty
import re
import shutil
import signal
import subprocess
import time
from collections.abc import Iterable
from pathlib import Path

import pytest

import haul_reference as reference
import life
from clients import check, same
from haul_runs import GREATEST_FIRST, LIFE, PROGRAM, ROOTS, TOP, Said, run, run_haul, table

pytestmark = [pytest.mark.long, pytest.mark.usefixtures("haul_programs")]


# ---- tables

# First soup, count, generation, limit of the period and rule.
HAULS = [
    (ROOTS[0], 0, 70, 500, 60, "B3/S23"),
    (ROOTS[0], 70, 10, 2048, 60, "B3/S23"),
    (ROOTS[0], 123456, 10, 100, 1, "B36/S23"),
    (ROOTS[1], 0, 20, 0, 4, "B3/S23"),
    (ROOTS[1], 999, 20, 300, 2048, "B3678/S34678"),
    (ROOTS[1], 5, 10, 30, 2, "B2/S"),
    (ROOTS[2], GREATEST_FIRST - 6, 20, 1, 2, "B3/S23"),
    (ROOTS[2], 1, 20, 700, 3, "B36/S23"),
    (ROOTS[2], 40, 10, 12, 5, "B1357/S1357"),
    (ROOTS[2], 60, 10, 64, 8, "B3/S012345678"),
]
# The same with a symmetry. A table of C1 does not name it.
SYMMETRIC = [
    (ROOTS[0], 0, 5, 100, 60, "B3/S23", "C1"),
    (ROOTS[0], 481, 6, 300, 60, "B3/S23", "8x32"),
    (ROOTS[0], 0, 6, 200, 4, "B36/S23", "4x64"),
    (ROOTS[1], 7, 5, 150, 60, "B3/S23", "2x128"),
    (ROOTS[2], GREATEST_FIRST - 2, 5, 100, 2, "B3/S23", "1x256"),
    (ROOTS[0], 0, 6, 300, 60, "B3/S23", "D2_+1"),
    (ROOTS[1], 20, 6, 300, 60, "B3/S23", "D2_+2"),
]
BY_HAND = """\
# root tst
# rule B3/S23
# generation 60
# limit 4
code,count,first
xp2_7,1,0
xq4_153,2,0
xs4_33,3,1
xs6_696,3,0
unresolved,5,0
clusters,14,
soups,2,0
"""


def same_table(name: str, found: str, wanted: str) -> None:
    """Checks that two tables are equal. If they are not, it shows the first line that differs."""
    lines = zip(found.splitlines() + ["the end"], wanted.splitlines() + ["the end"])
    other = [f"'{one}' in place of '{another}'" for one, another in lines if one != another]
    check(f"{name}: {(other or ['another table'])[0]}", found == wanted)


def test_table_by_hand() -> None:
    """A table that was written by hand."""
    same("200 soups", sum(count for _, _, count, *_ in HAULS), 200)
    same_table("a table by hand", table("tst", 0, 2, 60, 4), BY_HAND)


@pytest.mark.parametrize("haul", [(*haul, "C1") for haul in HAULS] + SYMMETRIC)
def test_table(haul: tuple[str, int, int, int, int, str, str]) -> None:
    """The table of the program is that of the reference. The tables of two ranges add up to the table of both."""
    root, first, count, n, limit, rule, symmetry = haul
    of = (n, limit, rule, symmetry)
    found = table(root, first, count, *of)
    counted = reference.haul(reference.Names(LIFE, rule, limit), root, first, count, n, symmetry)
    wanted = reference.table_text(counted, root, first, count, *of)
    same_table(f"the table of {root} {first} {count} {of}", found, wanted)
    middle = first + count // 3
    ranges = table(root, first, middle - first, *of), table(root, middle, first + count - middle, *of)
    total = reference.table_text(reference.add(map(reference.read_table, ranges)), root, first, count, *of)
    same_table(f"the ranges of {root} {first} {count} {of}", found, total)


def peak(count: int) -> int:
    """The most kilobytes that a haul of this many soups has at once. At generation 8 most clusters have no code, so
    their shapes differ."""
    with open(os.devnull, "wb") as nothing, subprocess.Popen(
        ["life-haul", ROOTS[0], "0", str(count), "8", "1"], executable=PROGRAM, stdout=nothing, stderr=nothing
    ) as child:
        _, status, used = os.wait4(child.pid, 0)
        child.returncode = os.waitstatus_to_exitcode(status)
    same(f"a haul of {count} soups", child.returncode, 0)
    return int(used.ru_maxrss)


def test_memory() -> None:
    """The memory of a haul does not grow with its soups: shapes are forgotten after each 4,096."""
    few, many = peak(4096), peak(4 * 4096)
    check(f"four times the soups take {many} kB, and a quarter of them {few} kB", 0 < many < 1.5 * few)


def test_arguments() -> None:
    """The same haul by other arguments, and another haul."""
    wanted = table("tst", 0, 5, 40, 4)
    same_table("the symmetry of a table without one", table("tst", 0, 5, 40, 4, symmetry="C1"), wanted)
    other = table("tst", 0, 5, 40, 4, "B36/S23").replace("# rule B36/S23\n", "# rule B3/S23\n")
    check("another rule has another table", wanted != other)
    for arguments in (
        ["tst", "0", "5", "40", "4"],
        ["--rule", "23/3", "tst", "0", "5", "40", "4"],
        ["tst", "+0", "05", "--rule=b3s23", "40", "4"],
    ):
        same(f"arguments {arguments}", run_haul(*arguments), (0, wanted, ""))


# ---- soups

# Root, number and rule.
SOUPS = [
    (ROOTS[0], 481, "B3/S23"),
    (ROOTS[0], 0, "B36/S23"),
    (ROOTS[1], 17, "B3678/S34678"),
    (ROOTS[2], GREATEST_FIRST + 999_999, "B/S"),
    ("soup", 1, "B3/S23"),
]
# A soup by the tools of a Linux system, as a pattern file: $1 is its root, $2 its number, and $3 its rule.
SOUP_TOOLS = r"""
echo "x = 16, y = 16, rule = $3"
printf %s "$1$2" | sha256sum | cut -c 1-64 | tr a-f A-F | basenc --base16 --decode |
  basenc --base2msbf --wrap=16 | tr 01 bo | paste -s -d '$' | sed 's/$/!/'
"""


def pattern_file(cells: Iterable[life.Cell], rule: str) -> str:
    """A pattern file of these cells under this rule."""
    return life.file_text((None, None, (), life.read_rule(rule.encode()), frozenset(cells))).decode()


def as_printed(pattern: str) -> str:
    """The pattern file that LIFE prints for a pattern file."""
    return subprocess.run(
        ["life", "generation", "0"],
        executable=LIFE,
        input=pattern,
        capture_output=True,
        text=True,
        check=True,
        timeout=60,
    ).stdout


@pytest.mark.parametrize("soup", SOUPS)
def test_soup(soup: tuple[str, int, str]) -> None:
    """A soup is printed as `life` prints its cells, which hashlib has, and sha256sum."""
    root, number, rule = soup
    wanted = as_printed(pattern_file(reference.soup(root, number), rule))
    same(f"soup {root} {number} {rule}", run_haul("soup", root, str(number), "--rule", rule), (0, wanted, ""))
    made = run("bash", "-euo", "pipefail", "-c", SOUP_TOOLS, "bash", root, str(number), rule)
    same(f"soup {root} {number} {rule} by sha256sum", (made[0], as_printed(made[1])), (0, wanted))


@pytest.mark.parametrize("symmetry", reference.WIDTHS)
def test_soup_of(symmetry: str) -> None:
    """A soup of each symmetry."""
    wanted = as_printed(pattern_file(reference.soup(ROOTS[1], 17, symmetry), "B36/S23"))
    found = run_haul("soup", ROOTS[1], "17", "--rule", "B36/S23", "--symmetry", symmetry)
    same(f"a soup of {symmetry}", found, (0, wanted, ""))


def test_arguments_of_soups() -> None:
    """The same soup by other arguments, and hauls whose roots are words of the program."""
    printed = run_haul("soup", "ann-2026", "481", "--rule", "B3/S23")
    for arguments in (
        ["soup", "ann-2026", "481"],
        ["soup", "--rule=23/3", "ann-2026", "+481"],
        ["soup", "--", "ann-2026", "0481"],
    ):
        same(f"arguments {arguments}", run_haul(*arguments), printed)
    haul = table("soup-2", 0, 5, 40, 4).replace("# root soup-2\n", "")
    other = run_haul("--", "soup", "0", "5", "40", "4")
    check(
        f"a haul of the root soup: {other}",
        other[0] == 0 and other[1].startswith("# root soup\n") and other[2] == "" and haul not in other[1],
    )
    check("a haul of the root help", run_haul("help", "0", "5", "40", "4")[1].startswith("# root help\n"))


# ---- refusals

OUT_OF_LIMIT = [
    ["", "0", "1", "0", "1"],
    ["r" * 65, "0", "1", "0", "1"],
    ["a b", "0", "1", "0", "1"],
    ["\t", "0", "1", "0", "1"],
    ["ä", "0", "1", "0", "1"],
    ["\x7f", "0", "1", "0", "1"],
    ["a", str(GREATEST_FIRST + 1), "1", "0", "1"],
    ["a", str(2**64 - 1), "1", "0", "1"],
    ["a", "0", "0", "0", "1"],
    ["a", "0", "1000001", "0", "1"],
    ["a", "0", "1", "2049", "1"],
    ["a", "0", "1", str(2**32), "1"],
    ["a", "0", "1", "0", "0"],
    ["a", "0", "1", "0", "2049"],
    ["a", "0", "1", "0", str(2**32 + 1)],
    # The numbers are judged before the rule.
    ["a", "0", "1", "0", "0", "--rule", "B0/S"],
    ["soup", "", "0"],
    ["soup", "r" * 65, "0"],
    ["soup", "a b", "0"],
    ["soup", "ä", "0"],
    ["soup", "a", str(GREATEST_FIRST + 1_000_000)],
    ["soup", "a", str(2**64 - 1)],
    ["soup", "a b", "0", "--rule", "B0/S"],
]
BAD_RULES = ["", "B0/S", "Life", "B9/S", "B3/S23:T100,100", "23/3/3"]
NO_SYMMETRY = "error: invalid value for '--symmetry <NAME>': it is none of C1, 8x32, 4x64, 2x128, 1x256, D2_+1, D2_+2"
USAGE_ERRORS: list[tuple[list[str | bytes], str]] = [
    ([], "error: the following required arguments were not provided:"),
    (["a", "0", "1", "0"], "error: the following required arguments were not provided:"),
    (["a", "0", "1", "0", "1", "1"], "error: unexpected argument '1' found"),
    (["a", "x", "1", "0", "1"], "error: invalid value 'x' for '<FIRST>': invalid digit found in string"),
    (["a", "0", "1.5", "0", "1"], "error: invalid value '1.5' for '<COUNT>': invalid digit found in string"),
    (
        ["a", "0", "1", str(2**64), "1"],
        f"error: invalid value '{2**64}' for '<N>': number too large to fit in target type",
    ),
    (["a", "0", "1", "0", "-1"], "error: unexpected argument '-1' found"),
    (["a", "0", "1", "0", "1", "--rules", "23/3"], "error: unexpected argument '--rules' found"),
    (["a", "0", "1", "0", "1", "--rule"], "error: a value is required for '--rule <RULE>' but none was supplied"),
    ([b"\xff", "0", "1", "0", "1"], "error: invalid UTF-8 was found in one or more arguments"),
    (["--help"], "Counts the objects in random soups"),
    (["soup"], "error: the following required arguments were not provided:"),
    (["soup", "a"], "error: the following required arguments were not provided:"),
    (["soup", "a", "x"], "error: invalid value 'x' for '<NUMBER>': invalid digit found in string"),
    (["soup", "a", "1", "2"], "error: unexpected argument '2' found"),
    (["soup", "0", "1", "0", "1"], "error: unexpected argument '0' found"),
    (["a", "soup", "b", "1"], "error: the subcommand 'soup' cannot be used with arguments before it"),
    (["--rule", "B3/S23", "soup", "b", "1"], "error: the subcommand 'soup' cannot be used with arguments before it"),
    (["--symmetry", "8x32", "soup", "b", "1"], "error: the subcommand 'soup' cannot be used with arguments before it"),
    (
        ["a", "0", "1", "0", "1", "--symmetry"],
        "error: a value is required for '--symmetry <NAME>' but none was supplied",
    ),
    # The symmetry is an argument like any other: it is judged before the rule and the limits.
    (["soup", "a b", "0", "--rule", "B0/S", "--symmetry", "16x16"], NO_SYMMETRY),
    (["soup", "--help"], "Prints a soup as a pattern file"),
]
USAGE_ERRORS += [
    (["a", "0", "1", "0", "1", "--symmetry", name], NO_SYMMETRY)
    for name in ("", "32x8", "c1", "D2_+3", "D2_+1 ", "C2_1")
]


@pytest.mark.parametrize("arguments", OUT_OF_LIMIT)
def test_out_of_limit(arguments: list[str]) -> None:
    """Numbers and roots that are refused."""
    same(f"out of limit {arguments}", run_haul(*arguments), (1, "", "refused: out-of-limit\n"))


@pytest.mark.parametrize("rule", BAD_RULES)
def test_bad_rule(rule: str) -> None:
    """Rules that are refused, of hauls and of soups."""
    wanted = (1, "", "refused: bad-rule\n")
    same(f"rule '{rule}'", run_haul("a", "0", "1", "0", "1", "--rule", rule), wanted)
    same(f"rule '{rule}' of a soup", run_haul("soup", "a", "0", "--rule", rule), wanted)


@pytest.mark.parametrize("arguments, wanted", USAGE_ERRORS)
def test_usage_error(arguments: list[str | bytes], wanted: str) -> None:
    """Arguments of another form: the first line that the program prints about them, and the status 2."""
    status, output, errors = run_haul(*arguments)
    same(f"usage {arguments}", (status, output, errors.split("\n")[0]), (2, "", wanted))


TWO_SOUPS = "tst 0 2 60 4"


@pytest.mark.parametrize(
    "name, shell, wanted",
    [
        ("input closed", f"{TWO_SOUPS} <&-", (0, BY_HAND, "")),
        ("output full", f"{TWO_SOUPS} > /dev/full", (1, "", "")),
        ("output full for a soup", "soup tst 0 > /dev/full", (1, "", "")),
        ("output closed", f"{TWO_SOUPS} >&-", (1, "", "")),
        ("error closed", "tst 0 0 60 4 2>&-", (1, "", "")),
    ],
)
def test_streams(name: str, shell: str, wanted: Said) -> None:
    """Standard input is not read. If standard output fails, the status is 1 and nothing is printed."""
    same(name, run("bash", "-c", f'exec -a life-haul "$0" {shell}', PROGRAM), wanted)


def test_closed_pipe() -> None:
    """Output into a pipe without a reader."""
    reading, writing = os.pipe()
    os.close(reading)
    ended = subprocess.run(
        ["life-haul", *TWO_SOUPS.split()],
        executable=PROGRAM,
        stdout=writing,
        stderr=subprocess.PIPE,
        timeout=60,
        check=False,
    )
    os.close(writing)
    check(f"{ended}", ended.returncode in (1, -signal.SIGPIPE) and ended.stderr == b"")


# ---- a terminal

CLEAR = "\r\x1b[K"


def on_terminal(*arguments: str) -> Said:
    """The status of the program, its standard output, and what it writes on standard error if this is a terminal."""
    master, terminal = pty.openpty()
    with subprocess.Popen(
        ["life-haul", *arguments], executable=PROGRAM, stdout=subprocess.PIPE, stderr=terminal
    ) as running:
        os.close(terminal)
        assert running.stdout
        output, errors = running.stdout.read(), b""
        # At its end a terminal fails to be read.
        with contextlib.suppress(OSError):
            while piece := os.read(master, 4096):
                errors += piece
    os.close(master)
    return running.returncode, output.decode(), errors.decode()


def test_progress() -> None:
    """On a terminal a line says how far a haul is, at most once a second. It is gone at the end, and standard output
    stays the same."""
    began = time.monotonic()
    status, output, errors = on_terminal("ann-2026", "0", "4000", "2048", "60")
    seconds = time.monotonic() - began
    same("the table beside a line of progress", (status, output), (0, table("ann-2026", 0, 4000, 2048, 60)))
    # Without a last line that is removed, nothing was shown: then the haul took less than a second.
    *shown, last = errors.split(CLEAR)[1:] or [""]
    check(f"a line of progress is removed: {errors!r}", errors.startswith(CLEAR) and last == "")
    check(f"one line of progress a second: {len(shown)} in {seconds} s", 1 <= len(shown) <= seconds)
    found = [re.fullmatch(r"(\d+) of 4000 soups, (\d+) a second, (\d+) seconds left", line) for line in shown]
    check(f"the lines of progress: {shown}", all(found))
    numbers = [(int(line[1]), int(line[2]), int(line[3])) for line in found if line]
    done = [number for number, _, _ in numbers] + [4000]
    check(f"soups that are done: {numbers}", all(0 < one < other for one, other in zip(done, done[1:])))
    # A line has the soups per second and the seconds left, both as whole numbers. Several times may fit: take the first
    # that is not before the time of the line before.
    spent = 1
    for soups, speed, left in numbers:
        spent = next(
            (s for s in range(spent, 10_000) if soups // s == speed and (4000 - soups) * s // soups == left), 10_000
        )
    check(f"soups a second and seconds left: {numbers}, {seconds} s", spent <= seconds)


def test_terminal_without_progress() -> None:
    """On a terminal nothing is said about a haul of less than a second, and a refusal is as usual."""
    same("a haul of less than a second", on_terminal(*TWO_SOUPS.split()), (0, BY_HAND, ""))
    same("a refusal", on_terminal("tst", "0", "0", "60", "4"), (1, "", "refused: out-of-limit\r\n"))


# ---- docs/HAULS.md


def examples(text: str) -> list[list[str]]:
    """The commands of a document and what each prints, in lines that begin with four spaces. A backslash at its end
    continues a command."""
    found: list[list[str]] = []
    for line in re.findall(r"^    (.*)$", text, re.M):
        if line.startswith("$ "):
            found.append([line[2:], ""])
        elif found[-1][0].endswith("\\"):
            found[-1][0] += "\n" + line
        else:
            found[-1][1] += line + "\n"
    return found


def can_run(command: str) -> bool:
    """Whether the programs that a command needs are installed."""
    programs = [("add-hauls", "sqlite3"), ("haul/parallel", "sqlite3"), ("haul/parallel", "parallel")]
    return all(shutil.which(program) for script, program in programs if script in command)


def test_examples(tmp_path: Path) -> None:
    """The commands of the page, run one after the other in one folder, print on their two streams what is written
    there."""
    for name, path in (
        ("life", LIFE),
        ("life-haul", PROGRAM),
        ("examples", os.path.join(TOP, "examples")),
        ("deploy", os.path.join(TOP, "deploy")),
    ):
        os.symlink(path, os.path.join(tmp_path, name))
    with open(os.path.join(TOP, "docs", "HAULS.md"), encoding="utf-8") as page:
        found = examples(page.read())
    check(f"the page has {len(found)} examples", len(found) >= 10)
    for command, wanted in found:
        if can_run(command):
            ended = subprocess.run(
                ["bash", "-c", command],
                cwd=tmp_path,
                stdout=subprocess.PIPE,
                stderr=subprocess.STDOUT,
                timeout=300,
                check=False,
            )
            same(f"docs/HAULS.md: {command}", ended.stdout.decode(), wanted)
