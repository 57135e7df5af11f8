"""The scripts that split hauls and add them.

Tables of ranges are added by examples/scripts/add-hauls, which refuses what is not a table of the same haul.
deploy/haul/parallel counts 20,000 soups: a worker is killed, a run is killed, and a run is ended by a signal. The same
command resumes the haul each time.
"""
import contextlib
import os
import signal
import subprocess
import time
from pathlib import Path

import pytest

from clients import check, same
from haul_runs import GREATEST_FIRST, PROGRAM, ROOTS, TOP, run, table
from scripts import needs

pytestmark = [pytest.mark.long, pytest.mark.usefixtures("haul_programs")]
ADD = os.path.join(TOP, "examples", "scripts", "add-hauls")
PARALLEL = os.path.join(TOP, "deploy", "haul", "parallel")


# ---- add-hauls

# Graphic characters that a shell, awk or sqlite3 may parse.
ROOT = r"""a,"b'\t$HOME~"""
HEADING = f"# root {ROOT}\n# rule B3/S23\n# generation 100\n# limit 60\ncode,count,first\n"
WHOLE = HEADING + "xp2_7,2,9\nxs4_33,10,7\nunresolved,3,14\nclusters,15,\nsoups,10,5\n"
NONE = HEADING + "unresolved,0,\nclusters,0,\nsoups,1,4\n"
AFTER = (
    HEADING
    + """\
xp2_7,1,9007199255740991
xs31_0ca178b96z69d1d96,1,15
xs4_33,900719925474098,20
unresolved,0,
clusters,900719925474100,
soups,9007199255740977,15
"""
)
BOTH = (
    HEADING
    + """\
xp2_7,3,9
xs31_0ca178b96z69d1d96,1,15
xs4_33,900719925474108,7
unresolved,3,14
clusters,900719925474115,
soups,9007199255740987,5
"""
)
# Of which symmetry tables are.
OF_8X32 = "# limit 60\n# symmetry 8x32\n"
OF_D2 = "# limit 60\n# symmetry D2_+2\n"
SUMS = [
    ("one table", [WHOLE], WHOLE),
    ("a table without clusters", [NONE], NONE),
    ("a table without clusters and another", [WHOLE, NONE], WHOLE.replace("soups,10,5", "soups,11,4")),
    ("two tables", [WHOLE, AFTER], BOTH),
    ("the same in another order", [AFTER, WHOLE], BOTH),
    (
        "two tables of a symmetry",
        [AFTER.replace("# limit 60\n", OF_D2), WHOLE.replace("# limit 60\n", OF_D2)],
        BOTH.replace("# limit 60\n", OF_D2),
    ),
    ("three tables", [AFTER, NONE, WHOLE], BOTH.replace("soups,9007199255740987,5", "soups,9007199255740988,4")),
]
# Files that are not whole tables, and what is wrong.
NOT_TABLES = {
    "an empty file": ("", "line 1"),
    "a census": ("code,count\nxs4_33,1\nunresolved,0\n", "line 1"),
    "no heading": (WHOLE[WHOLE.index("code,") :], "line 1"),
    "no root": (WHOLE.replace(ROOT, ""), "line 1"),
    "a root with a space": (WHOLE.replace("# root a", "# root a b"), "line 1"),
    "no rule": (WHOLE.replace("# rule B3/S23\n", ""), "line 2"),
    "a rule in another form": (WHOLE.replace("B3/S23", "23/3"), "line 2"),
    "a rule with digits out of order": (WHOLE.replace("B3/S23", "B3/S32"), "line 2"),
    "a generation with a leading 0": (WHOLE.replace("generation 100", "generation 0100"), "line 3"),
    "no limit": (WHOLE.replace("# limit 60", "# limit "), "line 4"),
    "another line in the heading": (WHOLE.replace("# limit 60\n", "# limit 60\n# first 5\n"), "line 5"),
    "an unknown symmetry": (WHOLE.replace("# limit 60\n", "# limit 60\n# symmetry 32x8\n"), "line 5"),
    "the symmetry C1, which is not named": (WHOLE.replace("# limit 60\n", "# limit 60\n# symmetry C1\n"), "line 5"),
    "two symmetries": (WHOLE.replace("# limit 60\n", OF_8X32 + "# symmetry 8x32\n"), "line 6"),
    "a symmetry and no line of names": (WHOLE.replace("# limit 60\ncode,count,first\n", OF_8X32), "line 6"),
    "no line of names": (WHOLE.replace("code,count,first\n", ""), "line 5"),
    "line ends as CR LF": (WHOLE.replace("\n", "\r\n"), "line 1"),
    "cut after a row": (WHOLE[: WHOLE.index("unresolved")], "line 8"),
    "cut after the clusters without a code": (WHOLE[: WHOLE.index("clusters")], "line 9"),
    "cut after the clusters": (WHOLE[: WHOLE.index("soups")], "line 10"),
    "cut within a row": (WHOLE[: WHOLE.index(",7\n")], "line 7"),
    "cut within the last number": (WHOLE.removesuffix("5\n"), "line 10"),
    "cut before the last line feed": (WHOLE.removesuffix("\n"), "the last line has no end"),
    "two tables": (WHOLE + WHOLE, "line 11"),
    "an empty line at the end": (WHOLE + "\n", "line 11"),
    "a code twice": (WHOLE.replace("xs4_33", "xp2_7"), "line 7"),
    "rows out of order": (WHOLE.replace("xp2_7", "xs5_253"), "line 7"),
    "a row after the clusters without a code": (WHOLE.replace("clusters", "xs5_253,1,9\nclusters"), "line 9"),
    "a name in place of a code": (WHOLE.replace("xp2_7", "block"), "line 6"),
    "a code in quotes": (WHOLE.replace("xp2_7", '"xp2_7"'), "line 6"),
    "no first soup": (WHOLE.replace("10,7", "10,"), "line 7"),
    "another column": (WHOLE.replace("10,7", "10,7,1"), "line 7"),
    "a count of 0": (WHOLE.replace("10,7", "0,7"), "line 7"),
    "a count with a leading 0": (WHOLE.replace("10,7", "010,7"), "line 7"),
    "a negative count": (WHOLE.replace("10,7", "-10,7"), "line 7"),
    "a space": (WHOLE.replace("10,7", " 10,7"), "line 7"),
    "a NUL": (WHOLE.replace("10,7", "10\0,7"), "line 7"),
    "a number of 17 digits": (WHOLE.replace("10,7", "1" * 17 + ",7"), "line 7"),
    "0 unresolved with a first soup": (WHOLE.replace("3,14", "0,14"), "line 8"),
    "unresolved without a first soup": (WHOLE.replace("3,14", "3,"), "line 8"),
    "clusters with a first soup": (WHOLE.replace("clusters,15,", "clusters,15,5"), "line 9"),
    "clusters without a number": (WHOLE.replace("clusters,15,", "clusters,,"), "line 9"),
    "no soups": (WHOLE.replace("soups,10", "soups,0"), "line 10"),
    "soups without the first": (WHOLE.replace("soups,10,5", "soups,10,"), "line 10"),
}
# Tables that are whole, but wrong, or not of the haul of WHOLE, and what is said of them.
NOT_ADDED = {
    "another root": (
        AFTER.replace("# root a", "# root A"),
        f'a different haul from {{}}: "# root A{ROOT[1:]}" in place of "# root {ROOT}"',
    ),
    "another rule": (
        AFTER.replace("B3/S23", "B36/S23"),
        'a different haul from {}: "# rule B36/S23" in place of "# rule B3/S23"',
    ),
    "another generation": (
        AFTER.replace("generation 100", "generation 99"),
        'a different haul from {}: "# generation 99" in place of "# generation 100"',
    ),
    "another limit": (
        AFTER.replace("limit 60", "limit 6"),
        'a different haul from {}: "# limit 6" in place of "# limit 60"',
    ),
    "another symmetry": (
        AFTER.replace("# limit 60\n", OF_8X32),
        'a different haul from {}: "# symmetry 8x32" in place of "# symmetry C1"',
    ),
    "clusters that are one too few": (
        AFTER.replace("474100", "474099"),
        "its counts add up to 900719925474100 and not to its 900719925474099 clusters",
    ),
    "clusters without those that have no code": (
        AFTER.replace("unresolved,0,", "unresolved,1,15"),
        "its counts add up to 900719925474101 and not to its 900719925474100 clusters",
    ),
    "a first soup before the first": (AFTER.replace("1,15", "1,14"), "soup 14 of its counts is none of its soups"),
    "a first soup after the last": (
        AFTER.replace("740991", "740992"),
        "soup 9007199255740992 of its counts is none of its soups",
    ),
    "a gap of one soup": (AFTER.replace("977,15", "976,16").replace("1,15", "1,16"), "soup 15 before it is missing"),
    "a gap of two soups": (
        AFTER.replace("977,15", "975,17").replace("1,15", "1,17"),
        "soups 15 to 16 before it are missing",
    ),
    "an overlap of one soup": (AFTER.replace("977,15", "978,14"), "soup 14 is in another table too"),
}


def written(folder: Path, name: str, text: str) -> str:
    """The path of a new file."""
    path = os.path.join(folder, name)
    with open(path, "w", encoding="utf-8", newline="") as file:
        file.write(text)
    return path


@pytest.mark.parametrize("name, tables, wanted", SUMS, ids=[name for name, *_ in SUMS])
def test_sum(name: str, tables: list[str], wanted: str, tmp_path: Path) -> None:
    """Tables of ranges of one haul add up, in any order."""
    needs("sqlite3")
    files = [written(tmp_path, f'the {number}. "table\'s".csv', text) for number, text in enumerate(tables)]
    same(f"the sum of {name}", run(ADD, *files), (0, wanted, ""))


def test_sums_of_files(tmp_path: Path) -> None:
    """Tables from pipes; sqlite3 with settings of one's own; the same table twice; files that are not there; a full
    disk."""
    needs("sqlite3")
    whole, other = written(tmp_path, "whole.csv", WHOLE), written(tmp_path, "other.csv", AFTER)
    same("tables from pipes", run("bash", "-c", '"$0" <(cat "$1") <(cat "$2")', ADD, whole, other), (0, BOTH, ""))
    written(tmp_path, ".sqliterc", ".mode column\n.headers on\n.nullvalue none\n")
    same("settings in ~/.sqliterc", run(ADD, whole, env=os.environ | {"HOME": str(tmp_path)}), (0, WHOLE, ""))
    same("a table twice", run(ADD, whole, whole), (1, "", f"add-hauls: {whole}: soup 5 is in another table too\n"))
    for file in (os.path.join(tmp_path, "nowhere.csv"), str(tmp_path)):
        same(f"not a file: {file}", run(ADD, whole, file), (1, "", f"add-hauls: {file}: cannot be read\n"))
    same("no arguments", run(ADD), (2, "", "add-hauls: Usage: add-hauls A.csv B.csv ..\n"))
    status, output, _ = run("bash", "-c", '"$0" "$1" > /dev/full', ADD, whole)
    same("a sum that cannot be written", (status, output), (1, ""))


@pytest.mark.parametrize("name", NOT_TABLES)
def test_not_a_table(name: str, tmp_path: Path) -> None:
    """A file that is not a complete table is not added, and the line is said."""
    needs("sqlite3")
    text, wrong = NOT_TABLES[name]
    whole, other = written(tmp_path, "whole.csv", WHOLE), written(tmp_path, "other.csv", AFTER)
    file = written(tmp_path, "not-a-table.csv", text)
    wanted = f"add-hauls: {file}: not a complete table of a haul: {wrong}\n"
    same(f"not a table: {name}", run(ADD, whole, file, other), (1, "", wanted))


@pytest.mark.parametrize("name", NOT_ADDED)
def test_not_added(name: str, tmp_path: Path) -> None:
    """A table that is wrong, or of another haul, is not added."""
    needs("sqlite3")
    text, wrong = NOT_ADDED[name]
    whole, file = written(tmp_path, "whole.csv", WHOLE), written(tmp_path, "not-added.csv", text)
    same(f"not added: {name}", run(ADD, whole, file), (1, "", f"add-hauls: {file}: {wrong.format(whole)}\n"))


def test_symmetries_not_added(tmp_path: Path) -> None:
    """Tables of two symmetries are not added."""
    needs("sqlite3")
    whole = written(tmp_path, "whole.csv", WHOLE)
    wide, mirrored = (
        written(tmp_path, f"{name}.csv", AFTER.replace("# limit 60\n", of))
        for name, of in (("wide", OF_8X32), ("mirrored", OF_D2))
    )
    for one, other, said in ((wide, whole, ("C1", "8x32")), (wide, mirrored, ("D2_+2", "8x32"))):
        wrong = f'a different haul from {one}: "# symmetry {said[0]}" in place of "# symmetry {said[1]}"'
        same(f"not added: {other} to {one}", run(ADD, one, other), (1, "", f"add-hauls: {other}: {wrong}\n"))


def test_sum_of_ranges(tmp_path: Path) -> None:
    """Tables of the program add up to its table of all."""
    needs("sqlite3")
    ranges = [
        written(tmp_path, f"{first}.csv", table("tst", first, count, 100, 4))
        for first, count in ((40, 60), (0, 1), (1, 39))
    ]
    same("the sum of ranges", run(ADD, *ranges), (0, table("tst", 0, 100, 100, 4), ""))


def test_shellcheck() -> None:
    needs("shellcheck")
    same("shellcheck of add-hauls", run("shellcheck", ADD), (0, "", ""))


# ---- deploy/haul/parallel

# A piece of 3,000 soups takes a while, so that a worker is found to be killed, on a busy machine too.
SHARED = ("ann-2026", 1000, 60000, 600, 2)
PIECES = 20


def descendants(pid: int) -> set[int]:
    """The processes that a process started, directly or not."""
    parents = {}
    for name in filter(str.isdigit, os.listdir("/proc")):
        with contextlib.suppress(FileNotFoundError, ProcessLookupError), open(
            f"/proc/{name}/stat", encoding="utf-8", errors="replace"
        ) as stat:
            parents[int(name)] = int(stat.read().rpartition(")")[2].split()[1])
    found = {pid}
    while more := {child for child, parent in parents.items() if parent in found} - found:
        found |= more
    return found - {pid}


def is_worker(pid: int) -> bool:
    """Whether a process runs the program."""
    with contextlib.suppress(FileNotFoundError, ProcessLookupError), open(f"/proc/{pid}/cmdline", "rb") as line:
        return os.fsencode(PROGRAM) in line.read().split(b"\0")[:2]
    return False


def kill_worker(running: "subprocess.Popen[bytes]") -> bool:
    """Kills one worker of a run. Whether there was one."""
    while running.poll() is None:
        for pid in filter(is_worker, descendants(running.pid)):
            with contextlib.suppress(ProcessLookupError):
                os.kill(pid, signal.SIGKILL)
                return True
    return False


def logged(folder: str) -> list[tuple[int, bool]]:
    """The jobs in the log of GNU Parallel: the number of each, and whether it succeeded."""
    try:
        with open(os.path.join(folder, "joblog"), encoding="utf-8") as log:
            rows = [line.split("\t") for line in log.readlines()[1:]]
    except FileNotFoundError:
        return []
    return [(int(row[0]), row[6:8] == ["0", "0"]) for row in rows if len(row) == 9]


def await_jobs(running: "subprocess.Popen[bytes]", folder: str, count: int) -> None:
    """Waits until this many jobs are logged, or the run has ended."""
    while running.poll() is None and len(logged(folder)) < count:
        time.sleep(0.01)


def kill_run(command: list[str], folder: str) -> None:
    """Kills a worker of a run, and then the run."""
    with subprocess.Popen(command, stdout=subprocess.PIPE, stderr=subprocess.PIPE, start_new_session=True) as running:
        await_jobs(running, folder, 3)
        check("a worker is killed", kill_worker(running))
        await_jobs(running, folder, 8)
        check("the run continues without it", running.poll() is None)
        # The run is a session of its own, so the group has no other process.
        os.killpg(running.pid, signal.SIGKILL)
        output, _ = running.communicate()
    same("a run that is killed", (running.returncode, output), (-signal.SIGKILL, b""))
    same("the killed worker's job failed", [good for _, good in logged(folder)].count(False), 1)


def end_run(command: list[str], folder: str) -> None:
    """Resumes a haul, and ends the run by a signal."""
    with subprocess.Popen(command, stdout=subprocess.PIPE, stderr=subprocess.PIPE) as running:
        await_jobs(running, folder, 11)
        running.terminate()
        output, errors = running.communicate()
    last = errors.decode().splitlines()[-1:]
    wanted = 1, b"", ["haul/parallel: not all pieces are counted; run the same command again"]
    same("a run that is ended", (running.returncode, output, last), wanted)
    check(f"pieces are left: {logged(folder)}", 10 <= len(logged(folder)) < PIECES)


def test_parallel(tmp_path: Path) -> None:
    """After a killed worker, a killed run and one that is ended, the same command resumes the haul and counts nothing
    twice."""
    needs("parallel", "sqlite3")
    folder = os.path.join(tmp_path, "shared")
    command = [
        PARALLEL,
        *map(str, SHARED),
        "--folder",
        folder,
        "--size",
        str(SHARED[2] // PIECES),
        "--jobs",
        "2",
        "--program",
        PROGRAM,
    ]
    kill_run(command, folder)
    end_run(command, folder)
    wanted = table(*SHARED)
    same("the resumed haul is that of one run", run(*command), (0, wanted, ""))
    counted = sorted(number for number, good in logged(folder) if good)
    same("each piece is counted once", counted, list(range(1, PIECES + 1)))
    same("the same command once more", run(*command), (0, wanted, ""))
    same("no piece is counted then", len(logged(folder)), PIECES + 1)


def test_folders(tmp_path: Path) -> None:
    """Arguments that a shell would parse; the folder of something else; a table that is lost."""
    needs("parallel", "sqlite3")
    folder = os.path.join(tmp_path, "a folder's {1} $HOME")
    haul = [ROOTS[1], "3", "20", "5", "2"]
    options = ["--folder", folder, "--size", "7", "--program", PROGRAM]
    wanted = table(ROOTS[1], 3, 20, 5, 2)
    same("arguments that a shell would parse", run(PARALLEL, *haul, *options), (0, wanted, ""))
    mirrored = ["--symmetry", "D2_+1", "--folder", os.path.join(tmp_path, "mirrored"), *options[2:]]
    of_symmetry = table(ROOTS[1], 3, 20, 5, 2, symmetry="D2_+1")
    same("pieces of a symmetry", run(PARALLEL, *haul, *mirrored), (0, of_symmetry, ""))
    another = f"haul/parallel: {folder}: this folder belongs to another haul (its arguments are in haul.json)\n"
    for arguments in (
        [*haul[:4], "3", *options],
        [*haul, *options, "--size", "8"],
        [*haul, *options, "--rule", "B36/S23"],
        [*haul, *options, "--symmetry", "8x32"],
    ):
        same(f"another haul {arguments}", run(PARALLEL, *arguments), (1, "", another))
    others = f"haul/parallel: {TOP}: the folder has other files\n"
    found = run(PARALLEL, *haul, "--folder", TOP, "--program", PROGRAM)
    same("a folder with other files", found, (1, "", others))
    os.remove(os.path.join(folder, "pieces", "10.csv"))
    found = run(PARALLEL, *haul, *options)
    same("a lost table", found, (1, "", "add-hauls: 10.csv: cannot be read\n"))
    os.remove(os.path.join(folder, "joblog"))
    same("a lost table, without the log", run(PARALLEL, *haul, *options), (0, wanted, ""))


def test_refused_folders(tmp_path: Path) -> None:
    """What the program refuses is refused alike. For this and for a usage error no folder is made."""
    needs("parallel")
    haul = ["a", "0", "20", "5", "2"]
    options = ["--folder", os.path.join(tmp_path, "new"), "--program", PROGRAM]
    for arguments, line in [
        (["a b", *haul[1:]], "out-of-limit"),
        (["a", "0", "0", "5", "2"], "out-of-limit"),
        ([*haul[:3], "2049", "2"], "out-of-limit"),
        (["a", str(GREATEST_FIRST - 9), "20", "5", "2", "--size", "10"], "out-of-limit"),
        ([*haul, "--rule", "B0/S"], "bad-rule"),
    ]:
        same(f"a refused haul {arguments}", run(PARALLEL, *arguments, *options), (1, "", f"refused: {line}\n"))
    for arguments in (
        haul[:4],
        [*haul, "1"],
        ["a", "-1", *haul[2:]],
        [*haul, "--size", "0"],
        [*haul, "--size", "1000001"],
        [*haul, "--jobs", "x"],
        ["a", "0", "1000001", "5", "2", "--size", "100"],
    ):
        status, output, errors = run(PARALLEL, *arguments, *options)
        usage = "usage: parallel "
        same(f"usage of parallel {arguments}", (status, output, errors[: len(usage)]), (2, "", usage))
    nowhere = os.path.join(tmp_path, "nowhere")
    found = run(PARALLEL, *haul, *options[:3], nowhere)
    same("no program", found, (1, "", f"haul/parallel: {nowhere}: No such file or directory\n"))
    same("no folder is made", os.listdir(tmp_path), [])
