"""Copies and configurations that get a signal, at steps by a seed. A step is what a script is about to do with a file,
a lock, a socket or a program, so the same steps come on a slow machine and on a fast one.
"""
import os
import random
import shutil
import signal
import subprocess
import sys
import time
from collections.abc import Callable, Iterator, Mapping

import pytest

from clients import check, same
from fake_systemd import DEPLOY, FIVE, STEPPED, Club, ClubOfFive, content, is_running, other_disk, until, write
from ledger import rows_of

pytestmark = pytest.mark.full

CASES, SEED = 50, 20261129
SIGNALS = (signal.SIGTERM, signal.SIGKILL, signal.SIGINT, signal.SIGHUP)


class Steps:
    """A command that gets signals: its words, the folders below which opening a file is a step, and what is done before
    each run."""

    def __init__(
        self,
        room: str,
        below: list[str],
        words: list[str],
        environment: Mapping[str, str] | None = None,
        before: Callable[[], None] = lambda: None,
    ) -> None:
        self.counts, self.below, self.words, self.environment, self.before = (
            os.path.join(room, "steps"),
            ":".join(below),
            words,
            environment,
            before,
        )

    def run(self, step: int = 0, number: int = 0) -> tuple[int, str]:
        """Runs the command with a signal at a step; its status, and what it said."""
        self.before()
        words = [sys.executable, "-c", STEPPED, self.counts, str(step), str(int(number)), self.below, *self.words]
        done = subprocess.run(
            words,
            stdin=subprocess.DEVNULL,
            stdout=subprocess.PIPE,
            stderr=subprocess.STDOUT,
            text=True,
            timeout=120,
            env=self.environment,
        )
        return done.returncode, done.stdout

    def count(self) -> int:
        """How many steps it has without a signal."""
        status, said = self.run()
        same(f"{self.words} without a signal: {status} {said}", status, 0)
        return int(content(self.counts))


def cases(commands: dict[str, Steps]) -> Iterator[tuple[str, str, signal.Signals]]:
    """Commands, steps and signals by the seed: each signal comes to each command."""
    chance = random.Random(SEED)
    counts, ended = {name: command.count() for name, command in commands.items()}, 0
    for case in range(CASES):
        name = list(commands)[case // len(SIGNALS) % len(commands)]
        step, number = chance.randint(1, counts[name]), SIGNALS[case % len(SIGNALS)]
        status, said = commands[name].run(step, number)
        line = f"case {case}, {name}, {number.name} at step {step} of {counts[name]}: status {status}: {said!r}"
        # A step more or less is possible: the signal may then not come.
        check(f"{line}: it ends by the signal, or does its work", status in (0, -number))
        ended += status == -number
        yield line, name, number
    check(f"{ended} of {CASES} were ended by their signal", ended > CASES // 2)
    print(f"seed {SEED}: {ended} of {CASES} were ended by their signal, at {counts} steps")


# ---- copies


def left_in(*folders: str) -> list[str]:
    """What a copy should not leave: rooms, and files that were begun."""
    return [
        os.path.join(folder, name)
        for folder in folders
        for name in os.listdir(folder)
        if name.startswith(".") or name.endswith(".new")
    ]


def test_signals_in_copies(program: str, folder: str) -> None:
    """Signals in the three forms of a copy. After each the archive is served, each copy is whole, nothing lies about,
    and the next copy comes. What a kill leaves goes a day later."""
    club = ClubOfFive(folder, "copied")
    elsewhere, second = os.path.join(club.room, "elsewhere"), other_disk(folder) if shutil.which("rsync") else None
    os.mkdir(elsewhere)
    if second:
        club.set(SECOND_PLACE=second)
    folders = [club.copies, elsewhere, club.values["METRICS_FOLDER"], *([second] if second else [])]
    forms: dict[str, list[str]] = {
        "a club's copy": [],
        "a copy before an upgrade": ["--before", "0.9.9"],
        "a copy of a file": [club.archive, os.path.join(elsewhere, "copy.db")],
    }
    commands = {
        name: Steps(club.room, [*folders, club.folder, club.room], club.words("life-copy", *words), club.environment())
        for name, words in forms.items()
    }
    try:
        club.copy()
        for line, name, number in cases(commands):
            check(f"{line}: the archive is served", club.serves(FIVE))
            whole = [
                os.path.join(place, name)
                for place in (club.copies, elsewhere)
                for name in os.listdir(place)
                if name.endswith(".db") and "2020" not in name
            ]
            check(f"{line}: each copy is whole: {whole}", all(rows_of(path) == FIVE for path in whole))
            after_a_copy(club, line, folders, number, [] if name == "a copy before an upgrade" else forms[name])
            for old in [name for name in os.listdir(club.copies) if name.startswith("before-")]:
                os.remove(os.path.join(club.copies, old))
    finally:
        if second:
            shutil.rmtree(second)
    club.systemctl("stop")


def after_a_copy(club: Club, line: str, folders: list[str], number: signal.Signals, words: list[str]) -> None:
    """Nothing lies about, but for what a kill has left, which the next copy of that form removes once it is a day
    old."""
    left = left_in(*folders)
    check(f"{line}: nothing lies about: {left}", left == [] or number == signal.SIGKILL)
    for path in left:
        os.utime(path, (time.time() - 90000, time.time() - 90000))
    status, out, err = club.script("life-copy", *words)
    # What rsync had begun is in its own hands.
    left = [
        path for path in left_in(*folders) if os.path.dirname(path) == club.copies or path.endswith(".new") or words
    ]
    check(f"{line}: the next copy comes: {status} {out} {err} {left}", status == 0 and left == [])
    same(f"{line}: it has all", rows_of(words[1] if words else club.newest()), FIVE)


# An rsync that has begun a file, and removes it if it is asked to end.
RSYNC = """#!/bin/bash
echo $$ > {room}/sending
: > {place}/.begun
trap 'rm {place}/.begun; exit 20' TERM
while :; do sleep 0.1; done
"""


def test_signals_while_sending(program: str, folder: str) -> None:
    """A signal while the newest copy goes to the second place ends rsync too, which removes what it has begun."""
    club = ClubOfFive(folder, "sending")
    os.mkdir(place := os.path.join(club.room, "second"))
    write(os.path.join(club.room, "bin", "rsync"), RSYNC.format(room=club.room, place=place), 0o755)
    # A place on another machine is not looked at.
    club.set(SECOND_PLACE=f"elsewhere:{place}")
    for number in (signal.SIGTERM, signal.SIGINT, signal.SIGHUP):
        process = club.begun("life-copy")
        check("rsync has begun", until(lambda: os.path.exists(os.path.join(place, ".begun"))))
        process.send_signal(number)
        said = process.communicate(timeout=60)[0]
        sender = content(os.path.join(club.room, "sending")).decode().strip()
        check(
            f"{number.name} while a copy is sent: {process.returncode} {said}",
            process.returncode == -number and not is_running(sender) and os.listdir(place) == [],
        )
        check(
            "the copy here is whole, and nothing lies about",
            rows_of(club.newest()) == FIVE and left_in(club.copies, club.values["METRICS_FOLDER"]) == [],
        )
    club.systemctl("stop")


# ---- configurations

FIRST = "READS=9r/s\nWATCH_SECONDS=77\nBACKUP_TIMES=*:0/20\n"
SECOND = "READS=8r/s\nWATCH_SECONDS=78\nBACKUP_TIMES=*:0/10\nMETRICS_PORT=8404\n"


def files_below(root: str) -> dict[str, bytes]:
    """All files below a folder but for the settings, and their contents."""
    found = {}
    for where, _, names in os.walk(root):
        found.update(
            {os.path.join(where, name): content(os.path.join(where, name)) for name in names if name != "settings"}
        )
    return found


def test_signals_in_configurations(folder: str) -> None:
    """Signals while changed settings are brought to their places. After each every file is the old one or the new one,
    nothing lies about, and the next life-configure does the rest. Some files somebody has changed by hand: those stay,
    or are replaced as a whole.
    """
    root = os.path.join(folder, "configured")
    settings, site = os.path.join(root, "etc/life/settings"), os.path.join(root, "etc/nginx/sites-available/life")
    os.makedirs(os.path.dirname(settings))
    words = [os.path.join(DEPLOY, "life-configure"), "--files-only", "--root", root]
    made = {}
    for text in (FIRST, SECOND):
        write(settings, text)
        subprocess.run(words, capture_output=True, timeout=60, check=True)
        made[text] = files_below(root)
    check(
        "the two settings differ in several files",
        sum(made[FIRST][path] != made[SECOND].get(path) for path in made[FIRST]) >= 3,
    )
    texts = [FIRST, SECOND]

    def change() -> None:
        texts.reverse()
        write(settings, texts[0])
        write(site, content(site).decode().replace("server {", "server {\n    deny 203.0.113.7; # ours", 1))

    commands = {
        "life-configure": Steps(folder, [root], words, before=change),
        "life-configure --replace": Steps(folder, [root], [*words, "--replace"], before=change),
    }
    for line, _, number in cases(commands):
        there = files_below(root)
        halves = [
            path
            for path, text in there.items()
            if text not in (made[FIRST].get(path), made[SECOND].get(path))
            and not is_beside(path)
            and b"# ours" not in text
        ]
        left = [path for path in there if path.endswith((".dpkg-new", ".dpkg-tmp"))]
        check(
            f"{line}: each file is whole: {halves}", halves == [] and set(made[FIRST]) & set(made[SECOND]) <= set(there)
        )
        check(f"{line}: nothing lies about: {left}", left == [] or number == signal.SIGKILL)
        done = subprocess.run([*words, "--replace"], capture_output=True, text=True, timeout=60)
        now = {path: text for path, text in files_below(root).items() if not path.endswith((".dpkg-dist", ".dpkg-old"))}
        check(f"{line}: the next one does the rest: {done.stderr}", done.returncode == 0 and now == made[texts[0]])


def is_beside(path: str) -> bool:
    return path.endswith((".dpkg-dist", ".dpkg-old", ".dpkg-new", ".dpkg-tmp"))


# ---- programs


# A command that gets a signal while a program of its is being started, and says which processes it leaves.
STARTING = """
import os, pathlib, signal, sys, time
sys.path.insert(0, sys.argv[1])
from life_operate import signals

def begin_late():
    os.kill(os.getppid(), signal.SIGTERM)
    time.sleep(0.3)
    begin_program()

own = signals.Signals()
begin_program, signals.begin_program = signals.begin_program, begin_late
try:
    with signals.started(["sleep", "600"]) as process:
        process.wait()
except signals.Interrupted as end:
    print(end, pathlib.Path(f"/proc/self/task/{os.getpid()}/children").read_text().split())
"""


def test_signal_while_starting() -> None:
    """A signal that comes while a program is being started ends the program, too."""
    done = subprocess.run(
        [sys.executable, "-c", STARTING, DEPLOY], stdin=subprocess.DEVNULL, capture_output=True, text=True, timeout=60
    )
    same("a program that was being started", (done.stdout, done.stderr), ("ended by SIGTERM []\n", ""))
