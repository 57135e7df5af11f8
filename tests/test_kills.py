"""Restores that meet a signal, a kill, another restore or a port that is taken: the archive is whole and served, and
the next command finishes or undoes what was interrupted.
"""
import fcntl
import os
import random
import shutil
import signal
import time

import pytest

from clients import check, same
from fake_systemd import (
    FIVE,
    MEMBERS,
    THREE,
    Answer,
    Club,
    ClubOfFive,
    add,
    cached,
    content,
    is_error,
    is_running,
    until,
    write,
)
from ledger import Ledger, rows_of

pytestmark = [pytest.mark.full, pytest.mark.usefixtures("program")]


# ---- two at once, signals, kills


def test_two_at_once(folder: str) -> None:
    """Of two restores at the same time one does its work, and the other one says that."""
    club = ClubOfFive(folder, "two")
    both = [club.begun("life-restore", "--older", club.older) for _ in range(2)]
    ended = [(process.communicate(timeout=120)[0], process.returncode) for process in both]
    statuses = sorted(status for _, status in ended)
    # On a machine that is slow enough they come one after the other.
    good = statuses == [0, 0] or (
        statuses == [0, 1] and any("another command is exchanging the archive" in out for out, _ in ended)
    )
    check(f"one of two restores: {ended}", good and club.serves(THREE) and club.left_over() == [])
    lock = os.open(club.folder, os.O_RDONLY)
    fcntl.flock(lock, fcntl.LOCK_EX)
    check(
        "none while another one is at it",
        is_error("life-restore", club.restore("--older", club.oldest), "another command is exchanging the archive"),
    )
    os.close(lock)
    club.systemctl("stop")


# After which line of a restore a signal comes; nothing is its begin.
MOMENTS = ["", "the copy ", "life.service is stopped", "nginx's cache was emptied", "life.service runs with"]
SIGNALS = (signal.SIGINT, signal.SIGTERM, signal.SIGHUP, signal.SIGKILL)
# How often each signal comes.
CASES, SEED = 13, 20261128


def signalled(club: ClubOfFive, number: signal.Signals, line: str, wait: float, to_worker: bool) -> tuple[int, str]:
    """A restore that gets a signal so long after it says a line, or whose worker gets it. Its status and what it
    said."""
    process = club.begun("life-restore", "--older", club.older)
    said = ""
    assert process.stdout is not None
    while line and line not in said and (more := process.stdout.readline()):
        said += more
    time.sleep(wait)
    children = (
        content(f"/proc/{process.pid}/task/{process.pid}/children").split()
        if to_worker and process.poll() is None
        else []
    )
    if children:
        os.kill(int(children[0]), number)
    else:
        process.send_signal(number)
    said += process.communicate(timeout=120)[0]
    return process.returncode, said


@pytest.mark.parametrize("number", SIGNALS, ids=[number.name for number in SIGNALS])
def test_signals(folder: str, number: signal.Signals) -> None:
    """Signals at moments by a seed in a restore. After each the archive is whole, as it was or as the copy is, and
    served; after a kill this is so after the next command."""
    chance, started = random.Random(SEED + number), time.monotonic()
    ends: dict[int, int] = {}
    club = ClubOfFive(folder, number.name)
    club.copy()
    same("a restore without a signal", club.restore("--older", club.older)[0], 0)
    club.systemctl("stop")
    usual = time.monotonic() - started
    for case in range(CASES):
        line = MOMENTS[case % len(MOMENTS)]
        club = ClubOfFive(folder, f"{number.name}-{case}")
        club.copy()
        newest = os.path.basename(club.newest())
        cached(club)
        wait = chance.random() ** 3 * (0.1 if line else usual / 4)
        status, said = signalled(club, number, line, wait, to_worker=number == signal.SIGKILL and case % 2 == 1)
        name = f"case {case}, {number.name} after {line!r}: status {status}: {said!r}"
        ends[status] = ends.get(status, 0) + 1
        if status == -signal.SIGKILL or "killed by signal 9" in said:
            name, status = killed(club, name), -signal.SIGKILL
        judge(club, name, newest, status)
        club.systemctl("stop")
        shutil.rmtree(club.room)
    print(f"seed {SEED}: statuses after {number.name}: {ends}")


def killed(club: Club, name: str) -> str:
    """What is there after a kill: a whole file or none, and what the next command makes of it."""
    there = rows_of(club.archive) if os.path.exists(club.archive) else "away"
    check(f"{name}: whole or away", there in (FIVE, THREE, "away"))
    interrupted = os.path.exists(club.journal)
    check(f"{name}: away only with a journal", there != "away" or interrupted)
    status, said, err = club.restore()
    good = (
        (status == 0 and "was interrupted, and is" in said)
        if interrupted
        else (status == 1 and "no restore was interrupted" in err)
    )
    check(f"{name}: the next command: {status} {said} {err}", good)
    return f"{name}; then {said}"


def judge(club: Club, name: str, newest: str, status: int) -> None:
    """Whether all is as it was, or as the copy is, and served; nothing that was acknowledged is in no place."""
    there = rows_of(club.archive)
    check(f"{name}: the archive is whole", there in (FIVE, THREE))
    check(f"{name}: it is served", there is not None and club.serves(there))
    if there == FIVE:
        check(f"{name}: all is as it was", club.asides() == [] and newest in club.files() and status != 0)
    else:
        aside = club.asides()
        check(
            f"{name}: the old archive is kept: {aside}",
            len(aside) == 1 and rows_of(os.path.join(aside[0], "club.db")) == FIVE,
        )
        check(
            f"{name}: the copy that knows more is kept apart",
            newest in os.listdir(os.path.join(club.copies, os.path.basename(aside[0]))) and newest not in club.files(),
        )
        same(f"{name}: the cache is empty", os.listdir(os.path.join(club.web, "cache")), [])
    # A kill leaves rooms, which go later.
    left = [
        left
        for left in club.left_over()
        if status != -signal.SIGKILL or not left.startswith((".life-exchange-", ".old-"))
    ]
    same(f"{name}: nothing is left over: {left}", left, [])


@pytest.mark.parametrize("command", ["life-restore", "life-new-archive"])
@pytest.mark.parametrize("word, said, wanted", [("stop", "undone", FIVE), ("start", "finished", THREE)])
def test_kills(folder: str, word: str, said: str, wanted: Ledger, command: str) -> None:
    """A restore is killed at its stop, and at its start. The next command, whichever it is, undoes the one and finishes
    the other."""
    club = ClubOfFive(folder, f"killed-at-{word}-{command}")
    club.copy()
    cached(club)
    script = content(path := os.path.join(club.room, "bin", "systemctl")).decode()
    write(
        path,
        script.replace("case $1 in", f'[ "$1" != {word} ] || {{ kill -9 $PPID; exit 1; }}\ncase $1 in', 1),
        0o755,
    )
    process = club.begun("life-restore", "--older", club.older)
    status = process.wait(60)
    write(path, script, 0o755)
    check(f"killed at the {word}: {status}", status == -signal.SIGKILL and os.path.exists(club.journal))
    status, out, err = club.script(command)
    check(
        f"{command} after it: {status} {out} {err}",
        f"life-restore {club.older}' was interrupted, and is {said}" in out
        and club.serves(wanted)
        and not os.path.exists(club.journal),
    )
    check(
        "a new archive beside it is refused",
        command == "life-restore" or is_error(command, (status, out, err), "exists and was not changed"),
    )
    check(
        f"the copies are {said}",
        len([name for name in club.files() if name.endswith(".db")]) == (3 if said == "undone" else 2)
        and (club.asides() == []) == (said == "undone"),
    )
    club.systemctl("stop")


def test_terminal_gone(folder: str) -> None:
    """A terminal that is closed takes what is printed with it, and no more."""
    club = ClubOfFive(folder, "terminal")
    process = club.begun("life-restore", "--older", club.older)
    assert process.stdout is not None
    process.stdout.readline()
    process.stdout.close()
    status = process.wait(120)
    check(f"a restore whose terminal is gone: {status}", club.serves(THREE) and club.left_over() == [])
    club.systemctl("stop")


# ---- rooms, ports


def test_rooms(folder: str) -> None:
    """A command that is ended by a signal removes its room, and ends the program that it tries; rooms that a kill has
    left go after a day."""
    club = ClubOfFive(folder, "rooms")
    for place, names in ((club.folder, (".life-exchange-old", ".life-new-old")), (club.copies, (".life-copy-old",))):
        for name in names:
            os.mkdir(os.path.join(place, name))
            write(os.path.join(place, name, "new.db"), "what is left")
            os.utime(os.path.join(place, name), (time.time() - 90000, time.time() - 90000))
        os.mkdir(os.path.join(place, names[0] + "-young"))
    os.rename(club.program, club.program + ".real")
    write(club.program, f'#!/bin/bash\necho $$ > "{club.room}/trial"\nexec sleep 600\n', 0o755)
    before = content(club.archive)
    for name, words, sent in (
        ("life-copy", (), signal.SIGTERM),
        ("life-copy", (), signal.SIGHUP),
        ("life-restore", ("--older", club.older), signal.SIGTERM),
        ("life-restore", ("--older", club.older), signal.SIGINT),
    ):
        process = club.begun(name, *words)
        until(lambda: os.path.exists(os.path.join(club.room, "trial")))
        process.send_signal(sent)
        said = process.communicate(timeout=60)[0]
        wanted = -sent if name == "life-copy" else 128 + sent
        same(f"{name} after {sent.name}: {process.returncode} {said}", process.returncode, wanted)
        trial = content(os.path.join(club.room, "trial")).decode().strip()
        check(f"{name}: the program that it tried is gone", until(lambda: not is_running(trial)))
        os.remove(os.path.join(club.room, "trial"))
    os.rename(club.program + ".real", club.program)
    same(
        f"young rooms are left: {club.left_over()}",
        sorted(club.left_over()),
        [".life-copy-old-young", ".life-exchange-old-young"],
    )
    check(
        "nothing was stopped or changed",
        club.steps() == ["start"] and content(club.archive) == before and club.serves(FIVE),
    )
    club.systemctl("stop")


# A program to whose port somebody else connects first, a number of times.
TAKEN = """#!/usr/bin/python3
import os, socket, sys
count = "{room}/taken"
turns = int(open(count).read())
if turns == 0:
    os.execv("{program}.real", ["life", *sys.argv[1:]])
open(count, "w").write(str(turns - 1))
port = socket.create_server(("127.0.0.1", int(sys.argv[sys.argv.index("--port") + 1])))
print("listening", flush=True)
port.accept()[0].close()
"""


def test_taken_ports(folder: str) -> None:
    """If something else uses up the one connection of a trial, the trial is made once more."""
    club = ClubOfFive(folder, "taken")
    os.rename(club.program, club.program + ".real")
    write(club.program, TAKEN.format(room=club.room, program=club.program), 0o755)
    for turns, good in ((1, True), (2, False)):
        write(os.path.join(club.room, "taken"), str(turns))
        status, _, err = club.copy()
        check(
            f"a trial whose port is taken {turns} times: {status} {err}",
            (status == 0) == good and ("no answer at port" in err) != good,
        )
    club.begin_by(f'exec "{club.program}.real" serve --db "{club.archive}" --port {club.port} --connections 1000')
    write(os.path.join(club.room, "taken"), "1")
    check("the same in a restore", club.restore("--older", club.older)[0] == 0 and club.serves(THREE))
    club.systemctl("stop")


def test_named(folder: str) -> None:
    """What an interrupted exchange has left is named where the service looks before it starts."""
    club = Club(folder, "named")
    add(club.archive, MEMBERS[:1])
    write(club.journal, "{}")

    def looked() -> Answer:
        return club.script("life-check", club.archive, settings=False)

    status, _, err = looked()
    check(
        f"an archive beside a journal: {err}",
        status == 0 and f"(see {club.journal}): life-restore without a copy" in err,
    )
    lock = os.open(club.folder, os.O_RDONLY)
    fcntl.flock(lock, fcntl.LOCK_EX)
    same("not while a command is at it", looked(), (0, "", ""))
    os.close(lock)
    os.rename(club.archive, os.path.join(club.room, "away.db"))
    check(
        "no archive beside a journal", looked()[0] == 1 and "is not there: an exchange was interrupted" in looked()[2]
    )
    check(
        "a journal that can't be read is said",
        is_error("life-restore", club.restore(os.path.join(club.room, "away.db")), club.journal, "can't be read"),
    )
    os.remove(club.journal)
    os.mkdir(os.path.join(club.folder, "before-restore-2020-01-01T000000"))
    status, _, err = looked()
    check(
        f"the error lists the files beside a missing archive: {err}",
        status == 1 and "its folder has" in err and "before-restore-2020-01-01T000000" in err and "club.db-wal" in err,
    )
