"""A club's archive and its administrator: copies according to the settings, which of them are kept, and the checks of
the service. systemd is a stand-in here, which starts and kills the real program. tests/test_exchanges.py and
tests/test_kills.py have the restores, and tests/test_interrupted.py the signals in copies and configurations.
"""
import getpass
import os
import shutil
import signal
import sqlite3
import stat
import subprocess
import sys
import time

import pytest

import clients
from clients import Server, check, deposit, exchanged, same
from fake_systemd import (
    DEPLOY,
    MEMBERS,
    STAMPED,
    Answer,
    Club,
    add,
    content,
    file_of,
    fill,
    is_error,
    other_disk,
    shown,
    small_disk,
    until,
    write,
    write_wrong_row,
)

pytestmark = [pytest.mark.full, pytest.mark.usefixtures("program")]


# ---- copies


def test_growing(folder: str) -> None:
    """Each copy has a name of its own, is an archive, and is said in the metrics."""
    club = Club(folder, "growing")
    fill(club.archive, MEMBERS[:2])
    begun = time.time()
    status, out, err = club.copy()
    names = club.files()
    stamped = STAMPED.fullmatch(names[0]) if names else None
    check("the first copy", (status, err) == (0, "") and len(names) == 1 and stamped is not None)
    assert stamped is not None
    copy = os.path.join(club.copies, names[0])
    same("it is said", out, f"{copy}: 2 deposits, 0 censuses\n")
    moment = time.strptime(stamped[1] + "UTC", "%Y-%m-%dT%H%M%Z")
    check("its name is its time, in UTC", -61 < time.mktime(moment) - time.mktime(time.gmtime(begun)) < 61)
    metrics = os.path.join(club.values["METRICS_FOLDER"], "life.prom")
    found = dict(line.rsplit(" ", 1) for line in content(metrics).decode().splitlines() if not line.startswith("#"))
    check("the metrics have its time", begun - 1 <= int(found["life_copy_time_seconds"]) <= time.time() + 1)
    good = found['life_copy_rows{table="deposits"}'] == "2" and int(found["life_copy_bytes"]) == os.path.getsize(copy)
    check("the metrics have its rows and its size", good and stat.S_IMODE(os.stat(metrics).st_mode) == 0o644)
    os.rename(copy, earlier := os.path.join(club.copies, "club-2020-01-01T0000.db"))
    add(club.archive, MEMBERS[2:3], 1)
    check("a second copy", club.copy()[0] == 0 and len(club.files()) == 2)
    newest = os.path.join(club.copies, club.files()[-1])
    check("it has what came since", b"By cid" in shown(newest, 3))
    check("the earlier one is there", b"By bob" in shown(earlier, 2) and b"404" in shown(earlier, 3))
    check(
        "whoever looked at the copies left logs, which are passed over",
        os.path.exists(newest + "-wal") and club.copy()[0] == 0,
    )


def test_worse(folder: str) -> None:
    """An archive with less in it, or with another beginning, adds no copy and takes none away."""
    club = Club(folder, "worse", KEEP_QUARTERS=1, KEEP_DAYS=1, KEEP_MONTHS=1)
    fill(club.archive, MEMBERS, 2)
    same("a good copy", club.copy()[0], 0)
    os.rename(os.path.join(club.copies, club.files()[0]), os.path.join(club.copies, "club-2020-01-01T0000.db"))
    before = {name: content(os.path.join(club.copies, name)) for name in club.files()}
    for name, members, censuses, parts in [
        ("a new archive", MEMBERS[:0], 0, ["0 deposits", "fewer deposits", "fewer censuses"]),
        ("fewer deposits", MEMBERS[:4], 2, ["fewer deposits"]),
        ("fewer censuses", MEMBERS, 1, ["fewer censuses"]),
        ("another beginning", ["zoe", *MEMBERS[1:], "fay"], 2, ["another deposit 1"]),
        ("another deposit in the middle", [*MEMBERS[:2], "zoe", *MEMBERS[3:]], 2, ["another deposit 3"]),
        ("another last deposit", [*MEMBERS[:4], "zoe", "fay"], 2, ["another deposit 5"]),
    ]:
        fill(club.archive, members, censuses)
        check(f"{name}: no copy", is_error("life-copy", club.copy(), "club-2020-01-01T0000.db", *parts))
        same(f"{name}: the copies", {name: content(os.path.join(club.copies, name)) for name in club.files()}, before)
    os.remove(club.archive)
    check(
        "a missing archive: no copy",
        is_error("life-copy", club.copy(), "club.db", "No such file") and not os.path.exists(club.archive),
    )
    same(
        "a missing archive: the copies",
        {name: content(os.path.join(club.copies, name)) for name in club.files()},
        before,
    )


# Writes to a file all the time, as a program does while large files are deposited, with the lock that it has.
WRITER = """
import fcntl, sys, time
with open(sys.argv[1], "r+b", buffering=0) as file:
    fcntl.lockf(file, fcntl.LOCK_EX, 512, 1 << 30)
    print("locked", flush=True)
    turn = 0
    while True:
        turn += 1
        file.seek(turn % 60 << 20)
        file.write(turn.to_bytes(8, "big"))
        time.sleep(0.001)
"""
COPIER = """
import sys, time
sys.path.insert(0, sys.argv[1])
from life_operate import archive
if sys.argv[4] == "forever":
    archive.copied = lambda *_: time.sleep(600)
    archive.STOPPED_TRIES = range(1)
try:
    archive.copied_in_time(*sys.argv[2:4])
except archive.Refused as fault:
    sys.exit(str(fault))
"""


def state_of(process: int) -> str:
    """The state of a process, as /proc has it: T if it is stopped."""
    with open(f"/proc/{process}/stat", encoding="ascii") as file:
        return file.read().rpartition(") ")[2][0]


def test_busy_file(folder: str) -> None:
    """A file that changes all the time is copied while its program is stopped, which then continues; so it does if the
    copy is killed."""
    path, new = os.path.join(folder, "busy.db"), os.path.join(folder, "busy-copy.db")
    with open(path, "wb") as file:
        file.write(os.urandom(60 << 20))
    said = f"{path} changes faster than it can be copied: requests wait while it is read\n"
    words = [sys.executable, "-c", COPIER, DEPLOY, path, new]
    with subprocess.Popen([sys.executable, "-c", WRITER, path], stdout=subprocess.PIPE, text=True) as writer:
        assert writer.stdout is not None
        writer.stdout.readline()
        done = subprocess.run([*words, "once"], capture_output=True, text=True, timeout=120, check=False)
        same("a copy", (done.returncode, set(done.stdout.splitlines(True)), done.stderr), (0, {said}, ""))
        check("the program continues", state_of(writer.pid) != "T")
        with subprocess.Popen([*words, "forever"], stdout=subprocess.PIPE, text=True) as copier:
            assert copier.stdout is not None
            same("a copy that takes long", copier.stdout.readline(), said)
            check("the program is stopped", until(lambda: state_of(writer.pid) == "T", 5))
            copier.kill()
        check("it continues after a kill of the copy", until(lambda: state_of(writer.pid) != "T", 20))
        writer.kill()
    with open(new, "rb") as copy, open(path, "rb") as file:
        turns = [int.from_bytes(copy.read(1 << 20)[:8], "big") for _ in range(60)]
    check("the copy is of one moment", sorted(turns) == list(range(min(turns), min(turns) + 60)))


def test_touched(folder: str) -> None:
    """A copy that somebody has deposited into, or that is damaged, does not end the copies, and is not removed."""
    club = Club(folder, "touched", KEEP_QUARTERS=1, KEEP_DAYS=1, KEEP_MONTHS=1)
    fill(club.archive, MEMBERS[:3])
    club.copy()
    older, newer = (os.path.join(club.copies, f"club-2020-01-0{day}T0000.db") for day in (1, 2))
    os.rename(os.path.join(club.copies, club.files()[0]), older)
    shutil.copy(older, newer)
    with Server(newer, 10) as server:
        exchanged(server.port, [deposit("zoe", "t1", file_of("zoe"))])
    status, _, err = club.copy()
    same("a copy beside one that was written to", (status, err), (0, ""))
    check(
        "the one that was written to stays, the old one does not",
        os.path.exists(newer) and os.path.exists(newer + "-wal") and not os.path.exists(older),
    )
    os.remove(newer + "-wal")
    damaged = os.path.join(club.copies, "club-2999-01-01T0000.db")
    write(damaged, "no database" * 1000)
    os.remove(newer)
    check("a damaged copy is reported", is_error("life-copy", club.copy(), damaged, "is good with 3 deposits"))
    # The copy of another minute has taken the place of the one before.
    same("the copy is made", len(set(club.files()) - {os.path.basename(damaged)}), 1)
    fill(club.archive, MEMBERS[:1])
    check("the guard is then the newest that can be read", is_error("life-copy", club.copy(), "fewer deposits"))


def test_looked_at_by_the_program(folder: str) -> None:
    """A copy that the program does not open, or shows differently, does not count."""
    club = Club(folder, "looked")
    fill(club.archive, MEMBERS[:2])
    other = os.path.join(club.room, "other.db")
    fill(other, ["zoe", "zoe2"])
    program = club.values["PROGRAM"]
    liar = os.path.join(club.room, "bin", "liar")
    write(liar, f'#!/bin/bash\nshift 3\nexec "{program}" serve --db "{other}" "$@"\n', 0o755)
    for name, there, part in (
        ("a program that opens nothing", "/bin/false", "can't be opened by the program"),
        ("a program that shows another file", liar, "something different"),
    ):
        club.set(PROGRAM=there)
        check(f"{name}: no copy", is_error("life-copy", club.copy(), part) and club.files() == [])
    club.set(PROGRAM=program)
    check("the right program: a copy", club.copy()[0] == 0 and len(club.files()) == 1)


def test_wrong_row(folder: str) -> None:
    """A copy with a row that no archive writes does not count, though the program opens it and shows its newest
    deposit."""
    club = Club(folder, "wrong")
    write_wrong_row(club.archive)
    row_1 = "is not sound: deposit 1: its row is wrong or missing"
    check("a wrong row: no copy", is_error("life-copy", club.copy(), row_1) and club.files() == [])
    mended = sqlite3.connect(club.archive)
    mended.execute("UPDATE deposits SET population = 5")
    mended.commit()
    mended.close()
    check("the row is mended: a copy", club.copy()[0] == 0 and len(club.files()) == 1)


def test_room_on_the_disk(folder: str) -> None:
    """No copy is begun on a disk that has too little room for it."""
    club = Club(folder, "small")
    fill(club.archive, MEMBERS)
    size = os.path.getsize(club.archive)
    answer = club.copy(prefix=small_disk(2 * size))
    check(
        "a disk with room for two copies alone",
        is_error("life-copy", answer, club.copies, "has room for") and club.files() == [],
    )
    check("a disk with room", club.copy(prefix=small_disk(4 * size))[0] == 0 and len(club.files()) == 1)


def test_which_stay(folder: str) -> None:
    """Of the last three quarters of an hour, days and months with copies the last copy of each stays, and files of
    other names."""
    club = Club(folder, "stay", KEEP_QUARTERS=3, KEEP_DAYS=3, KEEP_MONTHS=3)
    fill(club.archive, MEMBERS[:1])
    club.copy()
    first = os.path.join(club.copies, club.files()[0])
    stay = ["2020-01-31T2345", "2020-02-10T0014", "2020-02-11T1201", "2020-02-11T1216"]
    go = ["2020-01-05T1000", "2020-02-10T0000", "2020-02-10T0010", "2020-02-11T1200", "2019-12-31T2359"]
    others = ["club-notes.txt", "club-2020-01-05.db", "other-2020-01-05T1000.db", "club-2020-01-05T1000.db.old"]
    for name in [*(f"club-{stamp}.db" for stamp in stay + go), *others]:
        shutil.copy(first, os.path.join(club.copies, name))
    write(os.path.join(club.copies, "club-2020-01-05T1000.db-wal"), "x" * 41)
    same("a copy among many", club.copy()[0], 0)
    left = [name for name in club.files() if not name.startswith("club-2") or name[5:9] < "2021"]
    same(f"what stays: {left}", left, sorted([*(f"club-{stamp}.db" for stamp in stay), *others]))


def test_second_place_that_fails(folder: str) -> None:
    """If the copy can't go to the second place, the copy here is good and the failure is reported."""
    if not shutil.which("rsync"):
        pytest.skip("rsync is not installed, so a second place is left out")
    os.mkdir(on_the_disk := os.path.join(folder, "elsewhere"))
    club = Club(folder, "second", SECOND_PLACE=on_the_disk)
    add(club.archive, MEMBERS[:1])
    check(
        "a second place on the same disk is reported",
        is_error("life-copy", club.copy(), "is good, but", f"{on_the_disk} is on the same disk")
        and os.listdir(on_the_disk) == [],
    )
    check("the copy here is good", b"By ann" in shown(club.newest(), 1))
    write(os.path.join(folder, "file"), "no folder")
    club.set(SECOND_PLACE=os.path.join(folder, "file"))
    check(
        "a second place that fails is reported",
        is_error("life-copy", club.copy(), "is good, but", "file") and len(club.files()) >= 1,
    )


def test_metrics_that_fail(folder: str) -> None:
    """If the metrics can't be written, the copy is good and goes to the second place, and the failure is reported."""
    place = other_disk(folder) if shutil.which("rsync") else None
    club = Club(folder, "unmeasured", SECOND_PLACE=place or "", METRICS_FOLDER=os.path.join(folder, "no-metrics"))
    add(club.archive, MEMBERS[:1])
    try:
        said = ("is good with 1 deposit, 0 censuses, but ", "/no-metrics/life.prom.new: No such file or directory")
        check("it is reported", is_error("life-copy", club.copy(), *said))
        check("the copy is there", b"By ann" in shown(club.newest(), 1))
        same("it is at the second place", len(os.listdir(place)) if place else 1, 1)
    finally:
        shutil.rmtree(place or "", ignore_errors=True)


def test_second_place(folder: str) -> None:
    """The newest copy is at the second place too, under the name of its day."""
    if not shutil.which("rsync"):
        pytest.skip("rsync is not installed, so a second place is left out")
    if not (place := other_disk(folder)):
        pytest.skip("there is one disk alone here, so no copy goes to a second one")
    club = Club(folder, "two-places", SECOND_PLACE=place)
    try:
        for members in (MEMBERS[:1], MEMBERS[1:2]):
            add(club.archive, members)
            same("a copy with a second place", club.copy()[0], 0)
            newest = os.path.basename(club.newest())
            same("it is there under its day", os.listdir(place), [newest[: len("club-2026-11-26")] + ".db"])
            same("it is the same", content(os.path.join(place, os.listdir(place)[0])), content(club.newest()))
    finally:
        shutil.rmtree(place)


def test_times_to_come(folder: str) -> None:
    """Copies with a time in the future, from a clock that was wrong, push out no other copy, are listed, and still have
    to be in a new copy."""
    club = Club(folder, "future", KEEP_QUARTERS=1, KEEP_DAYS=2, KEEP_MONTHS=1)
    fill(club.archive, MEMBERS[:2])
    club.copy()
    first = club.newest()
    come = [f"club-2999-0{month}-0{day}T0000.db" for month in (1, 2) for day in (1, 2)]
    past = ["club-2020-02-10T0000.db", "club-2020-02-10T1000.db"]
    for name in come + past:
        shutil.copy(first, os.path.join(club.copies, name))
    add(club.archive, MEMBERS[2:3])
    status, out, err = club.copy()
    check(
        f"a copy beside those with a time in the future: {err}",
        (status, err) == (0, "")
        and all(f"{club.copies}/{name} has a time in the future and is ignored" in out for name in come),
    )
    check(
        f"they push nothing out: {club.files()}",
        set(come) < set(club.files()) and past[1] in club.files() and past[0] not in club.files(),
    )
    fill(club.archive, MEMBERS[:1])
    for name in [name for name in club.files() if name not in come]:
        os.remove(os.path.join(club.copies, name))
    check("they are no less than a new copy", is_error("life-copy", club.copy(), "fewer deposits"))


# ---- the start


def test_looks(folder: str) -> None:
    """What the service looks at before its start, and how it waits for its port."""
    club = Club(folder, "looks")
    as_nobody = ["setpriv", "--reuid=65534", "--regid=65534", "--clear-groups"] if os.geteuid() == 0 else []

    def looked(path: str) -> Answer:
        return club.script("life-check", path, prefix=as_nobody, settings=False)

    os.chmod(folder, 0o755)
    os.chmod(os.path.dirname(club.archive), 0o777)
    same("a missing folder", looked("/nowhere/club.db"), (1, "", "life: /nowhere is not there: is its disk mounted?\n"))
    check("a missing archive", looked(club.archive)[0] == 1 and "life-restore" in looked(club.archive)[2])
    add(club.archive, [])
    os.chmod(club.archive, 0o666)
    os.chmod(club.archive + "-wal", 0o666)
    same("an archive of its own", looked(club.archive), (0, "", ""))
    for path in (club.archive + "-wal", club.archive):
        os.chmod(path, 0o400 if as_nobody else 0o000)
        check(
            f"{os.path.basename(path)} of somebody else",
            looked(club.archive)[0] == 1
            and f"{path} can't be used" in looked(club.archive)[2]
            and getpass.getuser() in looked(club.archive)[2],
        )
        os.chmod(path, 0o666)
    os.chmod(os.path.dirname(club.archive), 0o555)
    check("a folder that is not writable", looked(club.archive)[0] == 1 and "not writable" in looked(club.archive)[2])
    os.chmod(os.path.dirname(club.archive), 0o777)
    watched = os.path.join(club.room, "watched")
    answer = club.script("life-watch", str(clients.free_port()), "5", "touch", watched, settings=False)
    check("a port at which nobody listens is not watched", answer == (0, "", "") and not os.path.exists(watched))
    with Server(club.archive, 10) as server:
        same(
            "a port that is there",
            club.script("life-await", str(server.port), str(server.process.pid), settings=False),
            (0, "", ""),
        )
        begun = time.monotonic()
        waiting = subprocess.Popen(
            [os.path.join(DEPLOY, "life-await"), str(clients.free_port()), str(server.process.pid)]
        )
        time.sleep(1)
        check("a port that is not there yet", waiting.poll() is None)
        server.process.send_signal(signal.SIGKILL)
        server.process.wait()
        check("the process is gone", waiting.wait(20) == 1 and time.monotonic() - begun < 20)
