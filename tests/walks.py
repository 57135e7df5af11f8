"""A walk of an administrator over a club: a seed draws commands, mistakes and accidents. After each step, no
acknowledged deposit is lost unless a command has said so, and what a command says is what is served and what is on the
disk. After the walk everything works again. systemd is the stand-in of fake_systemd.py.
"""
import os
import random
import shutil
import signal
import subprocess
import time
from collections.abc import Callable
from typing import NamedTuple

import ledger
from clients import deposit, exchanged
from fake_systemd import DEPLOY, Answer, Club, content, deposit_of, file_of, small_disk, write
from ledger import Ledger, rows_of
from reference import deposit_body

SIGNALS = (signal.SIGINT, signal.SIGTERM, signal.SIGHUP, signal.SIGKILL)
# The most deposits of a walk: each is read again after each step.
MOST_DEPOSITS = 30
# How long after its start a command gets a signal, at the most, in seconds.
LONGEST_WAIT = 0.8
# How long a command may take, in seconds, on a machine that does other things too.
WITHIN = 600


class Broken(Exception):
    """A promise that does not hold, as a sentence."""


class Step(NamedTuple):
    """A step of a walk: its name, and the seed of what it draws, so that it is the same in a shorter walk."""

    name: str
    seed: int


def require(holds: object, said: object) -> None:
    if not holds:
        raise Broken(str(said))


def word_for(copy: Ledger, others: list[Ledger]) -> str:
    """The word with which life-restore accepts a copy, given the archive and the copies that it compares it with."""
    if any(copy[number] != other[number] for other in others for number in copy.keys() & other.keys()):
        return "--other"
    return "--older" if any(len(other) > len(copy) for other in others) else ""


class Walk:
    """A club, and what an administrator who has read each line knows about it."""

    def __init__(self, folder: str, name: str) -> None:
        self.club = Club(folder, name)
        self.club.begin_by(
            f'"{DEPLOY}/life-check" "{self.club.archive}" || exit 1\n'
            f'exec "{self.club.program}" serve --db "{self.club.archive}" --port {self.club.port} --connections 100000'
        )
        # What the archive has; whether its file can be used; what each copy and each pair that was moved away has.
        self.truth: Ledger = {}
        self.is_usable = False
        self.copies: dict[str, Ledger] = {}
        self.pairs: dict[str, Ledger] = {}
        self.chance = random.Random(0)
        self.given = 0
        self.new_archive()

    # ---- what is so

    @property
    def is_running(self) -> bool:
        path = os.path.join(self.club.room, "pid")
        return os.path.exists(path) and os.path.exists(f"/proc/{content(path).decode().strip()}/exe")

    def found(self) -> Ledger | None:
        """What is served; if nothing is, what the file and its log have."""
        if not self.is_running:
            return rows_of(self.club.archive)
        wrong = ledger.faults(self.truth, self.club.ask, tokens=False)
        return self.truth if not wrong else rows_of(self.club.archive)

    def look(self) -> None:
        """The promises that hold after each step."""
        if self.is_usable:
            found = self.found()
            require(found == self.truth, f"the archive has {sorted(found or {})}, and not {sorted(self.truth)}")
        for path, wanted in self.copies.items():
            require(os.path.exists(path), f"{path} is gone")
        require(self.club.left_over() == [], f"left over: {self.club.left_over()}")

    def others(self) -> list[Ledger]:
        return [*self.copies.values(), *([self.truth] if self.is_usable else [])]

    def forget_moved(self) -> None:
        """Copies that a command has moved away are where it said."""
        self.copies = {path: held for path, held in self.copies.items() if os.path.exists(path)}

    # ---- steps

    def deposit(self) -> None:
        if not self.is_running or len(self.truth) >= MOST_DEPOSITS:
            return
        self.given += 1
        member = f"m{self.given}"
        reply = exchanged(self.club.port, [deposit(member, "t1", file_of(member))])
        number = len(self.truth) + 1
        require(reply.endswith(deposit_body(number)), f"a deposit is answered {reply[-80:]!r}")
        self.truth = {**self.truth, number: deposit_of(member)}

    def stop(self) -> None:
        self.club.systemctl("stop")

    def start(self) -> None:
        self.club.systemctl("reset-failed")
        started = self.started()
        require(started == self.is_usable, f"started: {started}, usable: {self.is_usable}")

    def started(self) -> bool:
        try:
            self.club.systemctl("start")
        except subprocess.CalledProcessError:
            return False
        return True

    def copy(self, *prefix: str) -> None:
        status, out, err = self.club.copy(prefix)
        self.copied(status, out, err)

    def copied(self, status: int, out: str, err: str) -> None:
        """What a copy says is so: a new copy with all of the archive, or one line, and the copies as they were."""
        if self.is_usable:
            require(status == 0, f"life-copy: {status} {out}{err}")
            path = self.club.newest()
            require(f"{path}: {len(self.truth)} deposit" in out, f"life-copy said {out!r}")
            require(rows_of(path) == self.truth, f"{path} has not what the archive has")
            self.copies[path] = self.truth
            self.forget_moved()
        else:
            require(status == 1 and err.count("\n") == 1, f"life-copy of what can't be used: {status} {out}{err}")

    def copies_by_any_umask(self) -> None:
        self.copy("sh", "-c", f'umask {self.chance.choice(("000", "077", "777"))}; exec "$@"', "sh")

    def copies_to_a_full_disk(self) -> None:
        before = self.club.files()
        status, _, err = self.club.copy(small_disk(10_000))
        require(status == 1 and err, f"a copy to a full disk: {status} {err!r}")
        require(self.club.files() == before, f"copies were {before}, and are {self.club.files()}")

    def time_passes(self) -> None:
        """The newest copy gets an earlier time, so that the next one is another."""
        if not self.copies:
            return
        path = self.club.newest()
        others = [other for other in self.copies if other != path]
        day = len(others) + 1
        name = f"club-2020-{1 + day // 28:02}-{1 + day % 28:02}T{self.chance.randrange(24):02}{day % 60:02}.db"
        new = os.path.join(self.club.copies, name)
        if os.path.exists(new) or any(os.path.basename(other) > name for other in others):
            return
        os.rename(path, new)
        self.copies[new] = self.copies.pop(path)

    def restore(self, *words: str) -> Answer:
        return self.club.restore(*words)

    def puts_back(self, path: str, held: Ledger) -> None:
        """A copy is put back. If something would be lost, it is refused first, with the word that accepts it."""
        word = word_for(held, self.others())
        if word:
            status, out, err = self.restore(path)
            require(status == 1 and word in err, f"life-restore {path}: {status} {out}{err}, and not {word}")
            self.look()
        before, was_usable = self.truth, self.is_usable
        status, out, err = self.restore(*([word] if word else []), path)
        require(status == 0, f"life-restore {word} {path}: {status} {out}{err}")
        lost = [number for number in before if held.get(number) != before[number]]
        says = "given again" in out or "different archive" in out
        require(not (was_usable and lost) or says, f"{lost} are gone, and no line says so: {out}")
        self.restored(held, before if was_usable else None)

    def restored(self, held: Ledger, before: Ledger | None) -> None:
        self.truth, self.is_usable = held, True
        require(self.is_running, "nothing runs after a restore")
        aside = self.club.asides()
        if before is not None and aside:
            newest = max(aside, key=os.path.getmtime)
            pair = os.path.join(newest, "club.db")
            if os.path.exists(pair) and rows_of(pair) == before:
                self.pairs[pair] = before
        self.forget_moved()

    def restores_the_newest(self) -> None:
        if self.copies:
            path = max(self.copies)
            self.puts_back(path, self.copies[path])

    def restores_any(self) -> None:
        if self.copies:
            path = self.chance.choice(sorted(self.copies))
            self.puts_back(path, self.copies[path])

    def goes_back(self) -> None:
        """What a restore moved away is put back."""
        if self.pairs:
            path = self.chance.choice(sorted(self.pairs))
            self.puts_back(path, self.pairs[path])

    def restores_no_copy(self) -> None:
        wrong = os.path.join(self.club.room, "wrong.db")
        write(wrong, self.chance.choice(("", "no archive\n" * 1000)))
        for path in (wrong, f"{wrong}.none", self.club.copies):
            status, _, err = self.restore(path)
            require(status == 1 and err.count("\n") == 1, f"life-restore {path}: {status} {err!r}")

    def new_archive(self) -> None:
        words = ["--although-there-are-copies"] if self.chance.random() < 0.3 else []
        before = os.path.lexists(self.club.archive) or os.path.lexists(self.club.archive + "-wal")
        there = before or bool(self.copies or self.club.asides()) and not words
        if before and words and self.is_usable:
            words = []
        status, out, err = self.club.script("life-new-archive", *words)
        require(status == (1 if there else 0), f"life-new-archive {words}: {status} {out}{err}")
        if status == 0:
            self.truth, self.is_usable = {}, True
            self.forget_moved()

    # ---- mistakes and accidents

    def kills(self) -> None:
        """The program is killed: what was acknowledged is there after the next start."""
        if self.is_running:
            self.club.systemctl("stop")

    def removes_the_file(self) -> None:
        self.club.systemctl("stop")
        for ending in ("", "-wal"):
            if os.path.exists(self.club.archive + ending):
                os.remove(self.club.archive + ending)
        self.is_usable = False

    def writes_over_the_file(self) -> None:
        self.club.systemctl("stop")
        write(self.club.archive, "no archive\n" * 1000, 0o600)
        if os.path.exists(self.club.archive + "-wal"):
            os.remove(self.club.archive + "-wal")
        self.is_usable = False

    def moves_the_file_away_and_back(self) -> None:
        """As a disk that is not mounted for a while: nothing new is created meanwhile."""
        if not self.is_usable:
            return
        self.club.systemctl("stop")
        held = os.path.join(self.club.room, "held")
        os.makedirs(held, exist_ok=True)
        endings = [ending for ending in ("", "-wal") if os.path.exists(self.club.archive + ending)]
        for ending in endings:
            os.rename(self.club.archive + ending, os.path.join(held, f"club.db{ending}"))
        self.is_usable = False
        self.start()
        self.copy()
        for ending in endings:
            os.rename(os.path.join(held, f"club.db{ending}"), self.club.archive + ending)
        self.is_usable = True

    def changes_settings(self) -> None:
        self.club.set(KEEP_QUARTERS=self.chance.randrange(1, 9), KEEP_DAYS=self.chance.randrange(1, 8))

    def interrupted(self, name: str, *words: str) -> None:
        """A command gets a signal at some moment."""
        process = self.club.begun(name, *words)
        time.sleep(self.chance.random() * LONGEST_WAIT)
        process.send_signal(self.chance.choice(SIGNALS))
        process.communicate(timeout=WITHIN)
        # A killed command leaves its private folder, which the next one removes once it is old.
        for folder in (self.club.folder, self.club.copies):
            for entry in os.scandir(folder):
                if entry.name.startswith(".") and entry.is_dir():
                    os.utime(entry.path, (0, 0))

    def interrupts_a_copy(self) -> None:
        if self.is_usable:
            self.interrupted("life-copy")
            self.copy()

    def interrupts_a_restore(self) -> None:
        """The next command finishes or undoes a restore, and then the archive is one of the two."""
        if not self.copies or not self.is_usable:
            return
        path = self.chance.choice(sorted(self.copies))
        held, before = self.copies[path], self.truth
        word = word_for(held, self.others())
        self.interrupted("life-restore", *([word] if word else []), path)
        status, out, err = self.restore()
        require(status == 0 or "no restore was interrupted" in err, f"life-restore: {status} {out}{err}")
        self.club.systemctl("reset-failed")
        self.started()
        now = rows_of(self.club.archive)
        require(now in (held, before), f"after an interrupted restore the archive has {sorted(now or {})}")
        self.restored(held if now == held else before, before if now == held else None)

    def does_two_at_once(self) -> None:
        if not self.is_usable:
            return
        both = [self.club.begun("life-copy") for _ in range(2)]
        said = [process.communicate(timeout=WITHIN)[0] for process in both]
        require(any(process.returncode == 0 for process in both), f"two copies at once: {said}")
        self.copies[self.club.newest()] = self.truth
        self.forget_moved()

    # ---- the walk

    def do(self, step: Step) -> None:
        self.chance = random.Random(step.seed)
        STEPS[step.name](self)
        self.look()

    def end(self) -> None:
        """Everything works again."""
        if not self.is_usable and self.copies:
            self.restores_the_newest()
        elif not self.is_usable:
            for ending in ("", "-wal"):
                if os.path.exists(self.club.archive + ending):
                    os.remove(self.club.archive + ending)
            shutil.rmtree(self.club.copies)
            os.makedirs(self.club.copies)
            self.chance = random.Random(1)
            status, out, err = self.club.script("life-new-archive", "--although-there-are-copies")
            require(status == 0, f"life-new-archive: {status} {out}{err}")
            self.truth, self.is_usable = {}, True
        self.start()
        self.look()
        wrong = ledger.faults(self.truth, self.club.ask)
        require(wrong == [], f"at the end: {wrong}")
        if len(self.truth) < MOST_DEPOSITS:
            self.deposit()
        self.copy()
        self.club.systemctl("stop")


# How often each step is drawn, among all.
WEIGHTS: dict[Callable[[Walk], None], int] = {
    Walk.deposit: 24,
    Walk.copy: 10,
    Walk.time_passes: 10,
    Walk.start: 14,
    Walk.stop: 3,
    Walk.kills: 4,
    Walk.restores_the_newest: 4,
    Walk.restores_any: 4,
    Walk.goes_back: 3,
    Walk.restores_no_copy: 2,
    Walk.new_archive: 3,
    Walk.removes_the_file: 2,
    Walk.writes_over_the_file: 2,
    Walk.moves_the_file_away_and_back: 2,
    Walk.copies_by_any_umask: 2,
    Walk.copies_to_a_full_disk: 2,
    Walk.changes_settings: 2,
    Walk.interrupts_a_copy: 3,
    Walk.interrupts_a_restore: 4,
    Walk.does_two_at_once: 2,
}
STEPS = {step.__name__: step for step in WEIGHTS}
WEIGHT_OF = {step.__name__: weight for step, weight in WEIGHTS.items()}


def drawn(seed: int, count: int, weights: dict[str, int]) -> list[Step]:
    """The steps of a walk, each as often as it weighs."""
    chance = random.Random(seed)
    return [Step(name, chance.randrange(1 << 30)) for name in chance.choices([*weights], [*weights.values()], k=count)]


def fault_of(folder: str, name: str, steps: list[Step]) -> tuple[int, str] | None:
    """The number of the step after which a promise does not hold, with why; nothing if all hold to the end."""
    walk = Walk(folder, name)
    try:
        for number, step in enumerate(steps):
            try:
                walk.do(step)
            except (Broken, subprocess.TimeoutExpired) as broken:
                return number, str(broken)
        try:
            walk.end()
        except (Broken, subprocess.TimeoutExpired) as broken:
            return len(steps) - 1, f"at the end: {broken}"
        return None
    finally:
        walk.club.systemctl("stop")
        shutil.rmtree(walk.club.room)


def shortened(folder: str, steps: list[Step], tries: int) -> list[Step]:
    """A shorter walk that breaks a promise too: steps are left out, larger parts first, as long as it does."""
    size, attempt = len(steps) // 2, 0
    while size and attempt < tries:
        at = 0
        while at < len(steps) and attempt < tries:
            attempt += 1
            shorter = steps[:at] + steps[at + size :]
            if fault_of(folder, f"shorter-{attempt}", shorter):
                steps = shorter
            else:
                at += size
        size //= 2
    return steps
