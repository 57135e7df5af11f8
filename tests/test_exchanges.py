"""How the file of a club's archive gives its place to another one: restores and new archives, what they refuse, and
what undoes them. tests/test_kills.py has restores that are interrupted.
"""
import contextlib
import getpass
import os
import shutil
import signal
import sqlite3
import stat
from collections.abc import Callable

import pytest

import archives
from clients import GLIDER_TEXT, Server, check, deposit, exchanged, run, same
from fake_systemd import (
    FIVE,
    MEMBERS,
    THREE,
    Club,
    ClubOfFive,
    add,
    cached,
    content,
    deposit_of,
    file_of,
    is_error,
    small_disk,
    write,
    write_wrong_row,
)
from ledger import rows_of
from reference import deposit_body

pytestmark = [pytest.mark.full, pytest.mark.usefixtures("program")]


# ---- a copy that is put back


def test_drill(folder: str) -> None:
    """An older copy, put back on purpose while the service runs and leaves a log behind: all is as the copy has it.
    Then copies continue, and the way back that is named leads back."""
    club = ClubOfFive(folder, "drill")
    club.copy()
    newest = club.newest()
    check("the service leaves a log with commits", os.path.getsize(club.archive + "-wal") > 1000)
    cached(club)
    before = content(club.older)
    status, out, err = club.restore("--older", club.older)
    same(f"a restore: {out}{err}", (status, err), (0, ""))
    same(
        f"it stops and starts the service: {club.called()}",
        club.called()[-4:],
        ["is-active life.service", "stop life.service", "reset-failed life.service", "start life.service"],
    )
    aside = club.asides()
    check(
        f"the old files are kept: {aside}",
        len(aside) == 1
        and sorted(os.listdir(aside[0])) == ["club.db", "club.db-wal"]
        and rows_of(os.path.join(aside[0], "club.db")) == FIVE,
    )
    copies_aside = os.path.join(club.copies, os.path.basename(aside[0]))
    check(
        f"copies that know more are moved away: {club.files()}",
        os.listdir(copies_aside) == [os.path.basename(newest)] and os.path.basename(newest) not in club.files(),
    )
    for part in (
        "3 deposits",
        "5 deposits",
        "deposits 4 to 5",
        aside[0],
        "/deposits/3",
        f"to go back: life-restore {aside[0]}/club.db",
        copies_aside,
        os.path.basename(newest),
    ):
        check(f"it says {part!r}: {out}", part in out)
    check("the service shows what the copy has", club.serves(THREE))
    check("the cache is empty", os.listdir(club.web) == ["cache"] and os.listdir(os.path.join(club.web, "cache")) == [])
    state = os.stat(club.archive)
    same("the archive has its owner and mode", (state.st_uid, stat.S_IMODE(state.st_mode)), (os.getuid(), 0o600))
    check("the copy is as it was", content(club.older) == before and not os.path.exists(club.older + "-wal"))
    same(f"nothing is left over: {club.left_over()}", club.left_over(), [])
    check("copies continue", club.copy()[0] == 0 and rows_of(club.newest()) == THREE)
    back(club, os.path.join(aside[0], "club.db"))


def back(club: Club, pair: str) -> None:
    """The pair that a restore moved away is put back as it is: it has all that the archive has."""
    status, out, err = club.restore(pair)
    check(f"the way back: {out}{err}", (status, err) == (0, "") and club.serves(FIVE) and rows_of(pair) == FIVE)
    check(
        "numbers continue from there", deposit_body(6) in exchanged(club.port, [deposit("fay", "t1", file_of("fay"))])
    )
    check("copies continue from there", club.copy()[0] == 0 and len(rows_of(club.newest()) or {}) == 6)
    club.systemctl("stop")


def test_asked_for(folder: str) -> None:
    """What would be lost is refused before anything stops, with what it is, and the word that asks for it."""
    club = ClubOfFive(folder, "asked")
    club.copy()
    other = Club(folder, "other")
    add(other.archive, ["eve", "dan"])
    other.copy()
    for name, copy, parts in (
        ("an older copy", club.older, ["lacks deposits 4 to 5 of", club.archive, "--older"]),
        ("the oldest copy", club.oldest, ["lacks deposits 3 to 5 of", "and of 2 copies", "--older"]),
        (
            "another club's copy",
            other.newest(),
            ["a different archive from", "the first deposit by 'eve'", "another deposit 1", "--other"],
        ),
    ):
        check(f"{name} is refused", is_error("life-restore", club.restore(copy), *parts))
    check(
        "another club's copy as an older one",
        is_error("life-restore", club.restore("--older", other.newest()), "a different archive", "--other"),
    )
    check(
        "nothing was stopped",
        club.steps() == ["start"] and club.serves(FIVE) and club.asides() == [] and club.left_over() == [],
    )
    os.remove(club.newest())
    same("both words", club.restore("--older", "--other", club.older)[0], 2)
    same("a word without a copy", club.restore("--older")[0], 2)
    status, out, err = club.restore("--other", other.newest())
    said = "is a different archive from" in out and "the same numbers name other deposits" in out
    check(
        f"another club's copy, asked for: {out}{err}",
        (status, err) == (0, "") and said and club.serves({1: deposit_of("eve"), 2: deposit_of("dan")}),
    )
    check(
        "the club's copies are moved away, and copies are made",
        len([name for name in club.files() if name.endswith(".db")]) == 0 and club.copy()[0] == 0,
    )
    club.systemctl("stop")


def test_edited(folder: str) -> None:
    """A copy in which the text of one deposit was taken out is another archive. Asked for, it is put back, and copies
    are made of it."""
    club = ClubOfFive(folder, "edited")
    club.copy()
    edited = os.path.join(folder, "edited.db")
    with contextlib.closing(sqlite3.connect(club.newest())) as copy:
        rows = copy.execute("SELECT * FROM deposits").fetchall()
    with contextlib.closing(archives.new_archive(edited)) as new:
        new.executemany(f"INSERT INTO deposits VALUES ({', '.join('?' * len(rows[0]))})", rows)
        new.execute("UPDATE deposits SET rle = ? WHERE id = 3", (GLIDER_TEXT,))
        new.commit()
    check(
        "it is refused",
        is_error("life-restore", club.restore(edited), "a different archive from", "another deposit 3", "--other"),
    )
    same("asked for", club.restore("--other", edited)[0], 0)
    same("the deposit without its text", club.ask([("GET", "/deposits/3", {}, b"")])[0], (200, GLIDER_TEXT))
    same("a copy of it", club.copy()[0], 0)
    club.systemctl("stop")


def test_newer_copy(folder: str) -> None:
    """A copy with all that is there, or more, needs no word; nor does a damaged archive whose newest copy it is."""
    club = ClubOfFive(folder, "newer")
    club.copy()
    check("a copy of what is there", club.restore(club.newest())[0] == 0 and club.serves(FIVE))
    club.systemctl("stop")
    whole = content(club.newest())
    write(club.archive, "no archive" * 1000)
    if os.path.exists(club.archive + "-wal"):
        os.remove(club.archive + "-wal")
    check(
        "an older copy for a damaged archive",
        is_error("life-restore", club.restore(club.older), f"lacks deposits 4 to 5 of {club.newest()}"),
    )
    status, out, _ = club.restore(club.newest())
    check(
        f"the newest copy for a damaged archive: {out}",
        status == 0 and "it can't be read" in out and club.serves(FIVE) and content(club.newest()) == whole,
    )
    club.systemctl("stop")


def test_unsound(folder: str) -> None:
    """A copy with a row that no archive writes is put back only if that is asked for, and its other rows are served
    then."""
    club = Club(folder, "unsound")
    write_wrong_row(club.archive)
    shutil.copyfile(club.archive, copy := os.path.join(folder, "unsound.db"))
    wrong = f"{copy} is not sound: deposit 1: its row is wrong or missing"
    check("a wrong row", is_error("life-restore", club.restore(copy), wrong, "an older copy", "--unsound"))
    same("nothing was stopped", club.steps(), [])
    same("the word without a copy", club.restore("--unsound")[0], 2)
    status, out, err = club.restore("--unsound", copy)
    check(f"a wrong row that is asked for: {out}{err}", status == 0 and wrong in out)
    replies = club.ask([("GET", f"/deposits/{number}", {}, b"") for number in (1, 2)])
    same("the other rows are served", [status for status, _ in replies], [503, 200])
    club.systemctl("stop")


def remove(club: ClubOfFive) -> None:
    os.remove(club.archive)


def overwrite(club: ClubOfFive) -> None:
    with open(club.archive, "r+b") as file:
        file.write(bytes(20000))


@pytest.mark.parametrize("harm", [remove, overwrite])
def test_gone_while_served(folder: str, harm: Callable[[ClubOfFive], None]) -> None:
    """The archive's file is removed, or something is written over it, while it is served. The newest copy with the log
    that is there has everything that was acknowledged, and a restore says so before numbers are given again."""
    name = harm.__name__
    club = ClubOfFive(folder, name)
    club.copy()
    newest = club.newest()
    club.deposits("una", "vic")
    harm(club)
    club.deposits("wim")
    answer = club.restore(newest)
    check(
        f"{name}: the copy alone is refused",
        is_error(
            "life-restore",
            answer,
            "lacks deposits 6 to 8",
            "with the existing log has",
            f"life-restore --with-log {newest}",
            "--older",
        ),
    )
    same(f"{name}: the service was not stopped", club.steps(), ["start"])
    status, out, err = club.restore("--with-log", newest)
    check(f"{name}: the copy with the log: {out}{err}", (status, err) == (0, "") and club.serves(club.ledger))
    check(
        f"{name}: the service continues",
        deposit_body(9) in exchanged(club.port, [deposit("fay", "t1", file_of("fay"))]) and club.copy()[0] == 0,
    )
    check(
        f"{name}: not where the archive can be read",
        is_error("life-restore", club.restore("--with-log", club.newest()), "can be read"),
    )
    club.systemctl("stop")


def test_copied_over(folder: str) -> None:
    """An older copy is written over the file, by `cp`, while it is served and while it is not: with the log that stays
    beside it the archive has everything, and a copy that has less is refused."""
    club = ClubOfFive(folder, "copied-over")
    club.copy()
    club.deposits("una")
    shutil.copyfile(club.older, club.archive)
    club.deposits("vic")
    check("a copy with less", is_error("life-restore", club.restore(club.newest()), "lacks deposits 6 to 7", "--older"))
    club.systemctl("stop")
    shutil.copyfile(club.oldest, club.archive)
    club.systemctl("start")
    check("all is served", club.serves(club.ledger))
    club.systemctl("stop")


def test_lost(folder: str) -> None:
    """The archive is gone, and no log has more: the newest copy takes its place."""
    club = ClubOfFive(folder, "lost")
    club.copy()
    club.systemctl("stop")
    for ending in ("", "-wal"):
        os.remove(club.archive + ending)
    status, out, err = club.restore(club.newest())
    check(
        f"a restore of a lost archive: {out}{err}",
        (status, err) == (0, "") and club.serves(FIVE) and club.asides() == [],
    )
    check(
        "no log to take",
        is_error("life-restore", club.restore("--with-log", club.newest()), "club.db-wal is missing or empty"),
    )
    club.systemctl("stop")


def test_not_restored(folder: str) -> None:
    """An invalid copy, or one that was written to, is refused before the service is stopped; so is a restore without
    what it needs."""
    club = Club(folder, "not-restored")
    add(club.archive, MEMBERS[:2])
    club.copy()
    copy, written, damaged = club.newest(), os.path.join(club.room, "written.db"), os.path.join(club.room, "damaged.db")
    shutil.copy(copy, written)
    with Server(written, 10) as server:
        exchanged(server.port, [deposit("zoe", "t1", file_of("zoe"))])
    whole = content(copy)
    with open(damaged, "wb") as file:
        file.write(whole[:4096] + bytes(len(whole) - 4096))
    others = {
        "text.db": b"text\n",
        "empty.db": b"",
        "half.db": whole[:6000],
        "bit.db": whole[:9000] + bytes([whole[9000] ^ 1]) + whole[9001:],
    }
    for name, data in others.items():
        with open(os.path.join(club.room, name), "wb") as file:
            file.write(data)
    sqlite3.connect(os.path.join(club.room, "other.db")).execute("CREATE TABLE t (n)").connection.close()
    before = content(club.archive)
    for name, part in (
        *((os.path.join(club.room, name), "") for name in (*others, "other.db")),
        (os.path.join(club.room, "missing.db"), "is not a file"),
        (club.room, "is not a file"),
        (club.archive, "the archive itself"),
        (written, "written to"),
        (damaged, "as an archive"),
    ):
        check(f"no restore of {name}", is_error("life-restore", club.restore(name), part))
    club.set(LIFE_USER="nobody-of-this-name")
    check(
        "no restore for a user that does not exist",
        is_error("life-restore", club.restore(copy), "no user nobody-of-this-name"),
    )
    club.set(LIFE_USER=getpass.getuser())
    os.rename(os.path.join(club.web, "cache"), os.path.join(club.room, "precious"))
    os.symlink(os.path.join(club.room, "precious"), os.path.join(club.web, "cache"))
    write(os.path.join(club.room, "precious", "kept"), "kept")
    check(
        "no restore through a link in place of the cache",
        is_error("life-restore", club.restore(copy), "cache is a link")
        and os.listdir(os.path.join(club.room, "precious")) == ["kept"],
    )
    os.remove(os.path.join(club.web, "cache"))
    answer = club.script("life-restore", copy, prefix=small_disk(2 * os.path.getsize(club.archive)))
    check("no restore on a disk without room", is_error("life-restore", answer, "has room for"))
    check("nothing to finish", is_error("life-restore", club.restore(), "no restore was interrupted"))
    check(
        f"the service was not stopped: {club.called()}",
        club.called() == [] and content(club.archive) == before and club.left_over() == [] and club.asides() == [],
    )


def test_undone(folder: str) -> None:
    """What fails once the service is stopped leaves the archive as it was, and served."""
    club = ClubOfFive(folder, "undone")
    club.systemctl("stop")
    with Server(club.archive, 10):
        # The stand-in starts nothing here: another program has the archive.
        begin = content(os.path.join(club.room, "bin", "begin")).decode().partition("\n")[2].strip()
        club.begin_by("echo listening; sleep 60")
        club.systemctl("start")
        answer = club.restore("--older", club.older)
        check(
            "no restore while another program has the archive",
            is_error("life-restore", answer, "has it open") and "is as it was; life.service runs again" in answer[1],
        )
        check(
            "the service was stopped and started",
            club.steps()[-2:] == ["stop", "start"]
            and rows_of(club.archive) == FIVE
            and club.asides() == []
            and club.left_over() == [],
        )
        club.systemctl("stop")
    club.begin_by(begin)
    club.systemctl("start")
    # A name that can't be moved away: it is the folder's own, once the service is stopped.
    stops = content(os.path.join(club.room, "bin", "systemctl")).decode()
    write(
        os.path.join(club.room, "bin", "systemctl"),
        stops.replace(
            'rm -f "$room/pid" ;;', f'rm -f "$room/pid"; rm -rf "{club.web}/cache"; : > "{club.web}/cache" ;;'
        ),
        0o755,
    )
    answer = club.restore("--older", club.older)
    check(
        f"no restore if the cache can't be emptied: {answer}",
        is_error("life-restore", answer, "cache is a link or not a folder"),
    )
    check(
        "all is as it was, and served",
        club.serves(FIVE) and club.asides() == [] and club.left_over() == [] and club.steps()[-2:] == ["stop", "start"],
    )
    club.systemctl("stop")


def test_while_stopped(folder: str) -> None:
    """Deposits that come between the look and the stop are seen: without a word for it they are not given up."""
    club = ClubOfFive(folder, "between")
    club.copy()
    stops = content(os.path.join(club.room, "bin", "systemctl")).decode()
    late = f"{club.program} deposit --db {club.archive} late t1 < {club.room}/late.rle > {club.room}/late.out"
    write(os.path.join(club.room, "late.rle"), file_of("late").decode())
    write(
        os.path.join(club.room, "bin", "systemctl"),
        stops.replace('rm -f "$room/pid" ;;', f'rm -f "$room/pid"; {late} ;;'),
        0o755,
    )
    answer = club.restore(club.newest())
    check(
        "a deposit that came meanwhile is not lost",
        is_error("life-restore", answer, "lacks deposit 6 of", "--older")
        and club.serves({**FIVE, 6: deposit_of("late")}),
    )
    check("nothing is left over", club.asides() == [] and club.left_over() == [])
    club.systemctl("stop")


def test_after_a_failure(folder: str) -> None:
    """systemd has given up on an archive that is gone: a restore starts the service at once. If it can't be started,
    that is said, and where all is."""
    club = ClubOfFive(folder, "failed")
    club.copy()
    club.systemctl("stop")
    for ending in ("", "-wal"):
        os.remove(club.archive + ending)
    write(os.path.join(club.room, "failed"), "")
    status, out, err = club.restore(club.newest())
    check(f"a restore after a failure: {out}{err}", (status, err) == (0, "") and club.serves(FIVE))
    club.begin_by("echo 'refused: no-port' >&2; exit 1")
    status, out, err = club.restore("--older", club.older)
    check(
        f"a service that does not start: {out}{err}",
        status == 1 and "was put back, but systemctl start life.service failed" in err and err.count("\n") == 1,
    )
    check(
        "where all is, is said",
        "to go back: life-restore" in out
        and rows_of(club.archive) == THREE
        and rows_of(os.path.join(club.asides()[0], "club.db")) == FIVE
        and club.left_over() == [],
    )


# ---- a new archive


def test_new_archives(folder: str) -> None:
    """life-new-archive makes an archive once, and leaves what is there."""
    club = Club(folder, "new")
    answer = club.script("life-new-archive")
    check(
        f"a new archive: {answer}",
        answer[0] == 0 and answer[2] == "" and f"{club.archive} is a new archive" in answer[1],
    )
    check(
        "it is one file",
        os.listdir(club.folder) == ["club.db"] and stat.S_IMODE(os.stat(club.archive).st_mode) == 0o600,
    )
    same(
        "its first deposit is number 1",
        run("deposit", "--db", club.archive, "ann", "t1", data=file_of("ann")),
        (0, b"deposit 1\n", b""),
    )
    before = content(club.archive)
    check(
        "not a second time",
        is_error("life-new-archive", club.script("life-new-archive"), "exists and was not changed")
        and content(club.archive) == before,
    )
    club.copy()
    os.remove(club.archive)
    check(
        "not beside a log",
        is_error("life-new-archive", club.script("life-new-archive"), "club.db-wal exists")
        and not os.path.exists(club.archive),
    )
    os.remove(club.archive + "-wal")
    os.mkdir(aside := os.path.join(club.folder, "before-restore-2020-01-01T000000"))
    cached(club)
    check(
        "not beside copies",
        is_error(
            "life-new-archive",
            club.script("life-new-archive"),
            club.newest(),
            "and 1 more",
            "--although-there-are-copies",
        ),
    )
    newest = club.newest()
    os.rename(newest, hidden := os.path.join(club.room, "hidden.db"))
    check(
        "not beside what a restore moved away",
        is_error("life-new-archive", club.script("life-new-archive"), aside, "--although-there-are-copies"),
    )
    os.rename(hidden, newest)
    answer = club.script("life-new-archive", "--although-there-are-copies")
    check(
        f"beside copies, if asked for: {answer}",
        answer[0] == 0 and os.path.basename(newest) in answer[1] and rows_of(club.archive) == {},
    )
    check(
        "the copies are moved away, the cache is empty, and copies continue",
        os.listdir(os.path.join(club.web, "cache")) == [] and club.copy()[0] == 0 and club.left_over() == [],
    )
    club = Club(folder, "new-fails")
    club.set(PROGRAM="/bin/false")
    check(
        "not by a program that opens nothing",
        is_error("life-new-archive", club.script("life-new-archive")) and os.listdir(club.folder) == [],
    )
    club.set(LIFE_USER="nobody-of-this-name")
    check(
        "not for a user that does not exist", is_error("life-new-archive", club.script("life-new-archive"), "no user")
    )


# ---- other users' folders


def state_of(path: str) -> tuple[object, ...]:
    """All that tells whether a file or folder was touched."""
    state = os.lstat(path)
    below = sorted(os.listdir(path)) if os.path.isdir(path) else content(path)
    return state.st_ino, state.st_uid, state.st_gid, state.st_mode, state.st_size, state.st_mtime_ns, below


def test_planted(folder: str) -> None:
    """Links that the archive's user and nginx's user have planted lead a command of root nowhere: what it does in their
    folders, it does as they."""
    if os.geteuid() != 0:
        pytest.skip("this is not root, so no links are planted for it")
    os.chmod(folder, 0o755)
    club = ClubOfFive(folder, "planted", user="nobody", web="www-data")
    nobody = os.stat(club.folder).st_uid
    victims = [os.path.join(club.room, name) for name in ("victim", "victims", "none")]
    write(victims[0], "of root", 0o600)
    os.mkdir(victims[1])
    write(os.path.join(victims[1], "kept"), "kept", 0o600)
    before = [state_of(victim) for victim in victims[:2]]
    plant(club, victims)
    status, out, err = club.copy()
    check(f"a copy by root: {out}{err}", status == 0 and os.stat(club.newest()).st_uid == nobody)
    status, out, err = club.restore("--older", club.older)
    check(
        f"a restore by root: {out}{err}", status == 0 and club.serves(THREE) and os.stat(club.archive).st_uid == nobody
    )
    same(
        "the program was run by the archive's user alone",
        set(content(os.path.join(club.folder, "users")).split()),
        {str(nobody).encode()},
    )
    os.symlink(victims[0], stolen := os.path.join(club.copies, "club-2020-01-03T0000.db"))
    answer = club.restore("--other", stolen)
    check(
        "no copy by way of a link to what only root reads", is_error("life-restore", answer, "club-2020-01-03T0000.db")
    )
    os.remove(stolen)
    os.symlink(victims[0], stolen)
    club.script("life-copy", club.archive, stolen, settings=False)
    os.mkdir(shared := os.path.join(club.room, "shared"))
    os.chmod(shared, 0o1777)
    os.symlink(victims[2], os.path.join(shared, "copy.db"))
    answer = club.script("life-copy", club.archive, os.path.join(shared, "copy.db"), settings=False)
    check("no copy by root where anybody may plant a link", is_error("life-copy", answer, "others can write to"))
    shutil.rmtree(os.path.join(club.web, "cache"))
    os.symlink(victims[1], os.path.join(club.web, "cache"))
    check(
        "no restore through a link in place of the cache",
        is_error("life-restore", club.restore("--older", club.oldest), "cache is a link"),
    )
    os.remove(os.path.join(club.web, "cache"))
    os.mkdir(private := os.path.join(club.room, "private"), 0o700)
    shutil.copy(club.older, secret := os.path.join(private, "copy.db"))
    os.chmod(secret, 0o600)
    status, out, err = club.restore(secret)
    check(f"a copy that only root reads, by its plain name: {out}{err}", status == 0 and club.serves(THREE))
    planted_for_a_new_one(club, victims[2])
    after = [state_of(victim) for victim in victims[:2]]
    check(f"what the links lead to is as it was: {before} {after}", before == after and not os.path.lexists(victims[2]))


def test_roots_own_copy(folder: str) -> None:
    """Root's copy of another user's archive in a folder of root's own: the archive's user reads, and root takes the
    bytes. What that user can't read is in no copy."""
    if os.geteuid() != 0:
        pytest.skip("this is not root, so root makes no copy of its own")
    os.chmod(folder, 0o755)
    club = ClubOfFive(folder, "own", user="nobody", web="www-data")
    os.mkdir(private := os.path.join(club.room, "private"), 0o700)
    copy, victim = os.path.join(private, "copy.db"), os.path.join(private, "victim.db")
    for turn in ("first", "second"):
        answer = club.script("life-copy", club.archive, copy, settings=False)
        state = os.stat(copy)
        check(
            f"the {turn} copy of root: {answer}",
            answer == (0, f"{copy}: 5 deposits, 0 censuses\n", "")
            and rows_of(copy) == FIVE
            and (state.st_uid, stat.S_IMODE(state.st_mode)) == (0, 0o600),
        )
    shutil.copy(copy, victim)
    os.chmod(victim, 0o600)
    os.symlink(victim, stolen := os.path.join(club.folder, "stolen.db"))
    answer = club.script("life-copy", stolen, os.path.join(private, "stolen.db"), settings=False)
    check(
        "no copy of what the archive's user can't read",
        is_error("life-copy", answer, "Permission denied") and not os.path.exists(os.path.join(private, "stolen.db")),
    )
    answer = club.script("life-copy", club.older, copy, settings=False)
    check("no copy with less in it", is_error("life-copy", answer, "fewer deposits") and rows_of(copy) == FIVE)
    with Server(copy, 10):
        check(
            "no copy over one that is open",
            is_error("life-copy", club.script("life-copy", club.archive, copy, settings=False), "has it open"),
        )
    check(
        f"nothing is left over: {os.listdir(private)}",
        set(os.listdir(private)) == {"copy.db", "copy.db-wal", "victim.db"} and club.left_over() == [],
    )
    process = club.begun("life-copy", club.archive, copy, settings=False)
    process.send_signal(signal.SIGTERM)
    check(
        "a signal ends it",
        process.wait(60) in (-signal.SIGTERM, 0)
        and rows_of(copy) == FIVE
        and club.left_over() == []
        and not [name for name in os.listdir(private) if name.startswith(".")],
    )
    club.systemctl("stop")


def planted_for_a_new_one(club: Club, victim: str) -> None:
    """A link in place of an archive that is to be made."""
    club.systemctl("stop")
    shutil.rmtree(club.folder)
    os.mkdir(club.folder)
    shutil.chown(club.folder, "nobody")
    os.symlink(victim, club.archive)
    club.script("life-new-archive", "--although-there-are-copies")
    os.remove(club.archive)
    answer = club.script("life-new-archive", "--although-there-are-copies")
    check(
        f"a new archive by root: {answer}",
        answer[0] == 0 and os.stat(club.archive).st_uid == os.stat(club.folder).st_uid,
    )


def plant(club: Club, victims: list[str]) -> None:
    """Links at names that a command may write, as the users do to whom the folders belong; and a program that notes who
    runs it."""
    file, folder, none = victims
    for below, name, to in (
        ("archive", "club.db.new", file),
        ("archive", "club.db.exchange.new", file),
        ("archive", "trial.db", none),
        ("metrics", "life.prom.new", file),
        ("copies", "life.prom.new", none),
        ("web", ".old-planted", folder),
        ("web/cache", "planted", folder),
    ):
        os.symlink(to, os.path.join(club.room, below, name))
    cached(club)
    shutil.chown(os.path.join(club.web, "cache", "a"), "www-data")
    os.rename(club.program, club.program + ".real")
    write(club.program, f'#!/bin/bash\nid -u >> "{club.folder}/users"\nexec "{club.program}.real" "$@"\n', 0o755)
