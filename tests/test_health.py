"""Whether an administrator learns about problems: alarms that begin and end once, the checks of life-age, settings that
are named with their line, and files that somebody has changed by hand. systemd is a stand-in here; tests/test_boot.py
has a real one.
"""
import contextlib
import fcntl
import getpass
import os
import pathlib
import pwd
import re
import shutil
import socket
import stat
import subprocess
import sys
import time
from collections.abc import Iterator
from pathlib import Path

import pytest

import fake_systemd
from archives import ADD_DEPOSIT, new_archive
from clients import BLOCKS, GLIDER, GLIDER_TEXT, HERE, Server, check, deposit, exchanged, same
from fake_systemd import HASH
from loaded import AGAIN, Loaded, content, write

pytestmark = pytest.mark.full

DEPLOY = os.path.join(HERE, "..", "deploy")
UNIT = "life-backup.service"


def script(name: str, *words: str, **environment: str) -> tuple[int, str, str]:
    """The status and the two streams of a script of deploy/."""
    done = subprocess.run(
        [os.path.join(DEPLOY, name), *words],
        capture_output=True,
        text=True,
        timeout=120,
        env=os.environ | environment,
        check=False,
    )
    return done.returncode, done.stdout, done.stderr


# ---- alarms


class Desk:
    """Stand-ins for the journal, systemctl and sendmail, each of which writes what it is given into a file."""

    def __init__(self, folder: str) -> None:
        self.room, self.alarms = folder, os.path.join(folder, "alarms")
        self.binaries = os.path.join(folder, "bin")
        self.stand_in("journalctl", f'cat "{folder}/last" 2> /dev/null')
        self.stand_in("systemctl", f'cat "{folder}/shown" 2> /dev/null')
        for name in ("systemd-cat", "logger", "sendmail"):
            self.stand_in(name, f'{{ echo "$*"; cat; }} >> "{folder}/{name}.said"')

    def stand_in(self, name: str, body: str) -> None:
        write(os.path.join(self.binaries, name), f"#!/bin/bash\n{body}\n", 0o755)

    def alarm(self, *words: str) -> list[str]:
        """What an alarm said: to the journal, as a line of the unit, and by mail."""
        for name in ("systemd-cat", "logger", "sendmail"):
            write(os.path.join(self.room, f"{name}.said"), "")
        environment = {
            "PATH": f"{self.binaries}:{os.environ['PATH']}",
            "SENDMAIL": os.path.join(self.binaries, "sendmail"),
            "LIFE_ALARMS": self.alarms,
        }
        same(
            f"life-alarm {' '.join(words)}",
            script("life-alarm", *words, UNIT, "ops@club.example", **environment),
            (0, "", ""),
        )
        return [content(os.path.join(self.room, f"{name}.said")) for name in ("systemd-cat", "logger", "sendmail")]


def test_alarms(folder: str) -> None:
    """An alarm is in the journal at priority crit, and by mail if there is a sendmail. The same reason sends one alarm,
    until it is over."""
    desk = Desk(os.path.join(folder, "alarms"))
    write(os.path.join(desk.room, "last"), "life-copy: club.db is not there\n")
    write(os.path.join(desk.room, "shown"), "Result=exit-code\nExecMainStatus=1\nExecMainCode=1\n")
    journal, line, mail = desk.alarm()
    reason = "reason: life-copy: club.db is not there"
    check("the journal has it as critical", "--priority=crit" in journal and f"{UNIT} failed\n{reason}\n" in journal)
    check(
        "it is a line of the unit",
        line.startswith("--journald\n")
        and f"OBJECT_SYSTEMD_UNIT={UNIT}\n" in line
        and line.endswith(f"MESSAGE={reason}\n"),
    )
    check(
        "it is mail",
        "To: ops@club.example\n" in mail
        and re.search(rf"(?m)^Subject: life on \S+: {UNIT} failed$\n\n{reason}$", mail) is not None,
    )
    journal, line, mail = desk.alarm()
    check(
        "the same reason is no second mail, and no second alarm",
        mail == "" and "--priority=err" in journal and "crit" not in journal and reason in line,
    )
    write(os.path.join(desk.room, "last"), "life-copy: /var/backups/life has room for 31,457,280 bytes\n")
    check("another reason is one", "has room for 31,457,280" in desk.alarm()[2])
    write(os.path.join(desk.room, "last"), "life-copy: /var/backups/life has room for 12,288 bytes\n")
    same("another number is no new alarm", desk.alarm()[2], "")
    told = os.path.join(desk.alarms, UNIT)
    write(told, re.sub("(?m)^[0-9]+", str(int(time.time()) - 86401), content(told)))
    check("a reason that has not come for a day is one", "has room for 12,288" in desk.alarm()[2])
    same("once", desk.alarm()[2], "")
    journal, _, mail = desk.alarm("--ended")
    check(
        "its end is an alarm",
        f"{UNIT} has recovered" in mail and "--priority=crit" in journal and f"{UNIT} has recovered" in journal,
    )
    same("once", desk.alarm("--ended"), ["", "", ""])
    check("after that it is a new alarm", "has room for 12,288" in desk.alarm()[2])
    write(os.path.join(desk.room, "shown"), "Result=signal\nExecMainStatus=9\nExecMainCode=2\n")
    check("a signal is named", "reason: killed by signal 9\n" in desk.alarm()[2])
    desk.stand_in("sendmail", "cat > /dev/null; exit 75")
    write(os.path.join(desk.room, "shown"), "Result=timeout\n")
    journal = desk.alarm()[0]
    check(
        "a sendmail that fails is said, and the alarm is in the journal",
        "could not send mail" in journal and "reason: timeout" in journal,
    )
    status, _, err = script("life-alarm", UNIT, "--no-such")
    check("wrong arguments", status == 2 and err.startswith("usage: life-alarm"))


# ---- what life-age looks at


class Place:
    """An archive, its copies, and the files by which systemd says what runs and what is enabled."""

    def __init__(self, folder: str) -> None:
        self.root, self.state = os.path.join(folder, "root"), os.path.join(folder, "state")
        self.archive, self.copies = os.path.join(folder, "archive", "club.db"), os.path.join(folder, "copies")
        for path in (os.path.dirname(self.archive), self.copies, self.state):
            os.makedirs(path)

    def age(self, limit: str = "2h", port: int | None = None) -> tuple[int, str]:
        words = ["--port", str(port)] if port else []
        status, out, err = script(
            "life-age", "--state", self.state, *words, "--root", self.root, self.archive, self.copies, limit
        )
        return status, out + err

    def group(self, unit: str) -> str:
        return os.path.join(self.root, "sys/fs/cgroup/system.slice", unit)

    def enable(self, unit: str) -> None:
        write(os.path.join(self.root, "etc/systemd/system/multi-user.target.wants", unit), "")

    def copied(self, seconds: int = 0) -> str:
        """A copy that is some seconds old. Only its name counts."""
        name = time.strftime("club-%Y-%m-%dT%H%M.db", time.gmtime(time.time() - seconds))
        write(os.path.join(self.copies, name), "")
        return os.path.join(self.copies, name)


def test_ages(folder: str) -> None:
    """A newest copy that is too old is a failure for as long as it is so. A copy with a time in the future does not
    count."""
    place = Place(os.path.join(folder, "ages"))
    same("a new folder without a copy", place.age()[0], 0)
    os.utime(place.copies, (time.time() - 8000, time.time() - 8000))
    same(
        "an old folder without a copy",
        place.age(),
        (1, f"life-age: no good copy for 2h: there is no copy in {place.copies}\n"),
    )
    old = place.copied(7300)
    same("a copy of two hours ago", place.age(), (1, f"life-age: no good copy for 2h: the newest copy is {old}\n"))
    same("it stays a failure", place.age()[0], 1)
    same("for three hours it is young", place.age("3h"), (0, f"life-age: the newest copy is {old}\n"))
    tomorrow = place.copied(-86400)
    same("a copy with tomorrow's time does not count", place.age()[0], 1)
    os.remove(tomorrow)
    new = place.copied()
    same("a new copy", place.age(), (0, f"life-age: the newest copy is {new}\n"))
    shutil.rmtree(place.copies)
    same("no folder", place.age(), (1, f"life-age: {place.copies}: No such file or directory\n"))
    status, _, err = script("life-age", place.archive)
    check("wrong arguments", status == 2 and err.startswith("usage: life-age"))


def test_served(program: str, folder: str) -> None:
    """A file that was removed, or exchanged by another one, while it is served is seen; one that is served is well."""
    place = Place(os.path.join(folder, "served"))
    place.copied()
    with Server(place.archive, 10) as server:
        exchanged(server.port, [deposit("ann", "t1", GLIDER)])
        same("without the service nothing is looked at", place.age()[0], 0)
        os.makedirs(place.group("life.service"))
        same("the file that is served", place.age()[0], 0)
        os.rename(place.archive, place.archive + ".away")
        status, said = place.age()
        check(
            f"a file that is gone: {said}",
            status == 1 and f"{place.archive}: No such file" in said and "Don't stop the service" in said,
        )
        shutil.copy(place.archive + ".away", place.archive)
        status, said = place.age()
        check(
            f"another file in its place: {said}",
            status == 1 and f"{place.archive} is not the file that life.service has open" in said,
        )
        os.replace(place.archive + ".away", place.archive)
        same("the file is back", place.age()[0], 0)


def test_away(folder: str) -> None:
    """A service that is enabled and does not run is a failure after ten minutes, and none if it is not enabled."""
    place = Place(os.path.join(folder, "away"))
    place.copied()
    same("none is enabled", place.age()[0], 0)
    place.enable("life-gateway.service")
    same("it may have been stopped on purpose", place.age()[0], 0)
    seen = os.path.join(place.state, "life-gateway.service")
    os.utime(seen, (time.time() - 601, time.time() - 601))
    same("after ten minutes", place.age(), (1, "life-age: life-gateway.service is enabled but not running\n"))
    os.makedirs(place.group("life-gateway.service"))
    same("it runs", (place.age()[0], os.path.exists(seen)), (0, False))
    os.rmdir(place.group("life-gateway.service"))
    same("the ten minutes start over", place.age()[0], 0)


def test_not_serving(folder: str) -> None:
    """A service that has a process but never listens, as while its archive is refused again and again, is a failure
    after ten minutes. What counts is its own port."""
    place = Place(os.path.join(folder, "refused"))
    place.copied()
    place.enable("life.service")
    os.makedirs(place.group("life.service"))
    write(place.archive, "")
    os.makedirs(os.path.join(place.root, "proc"))
    os.symlink("/proc/self", os.path.join(place.root, "proc", "self"))
    seen = os.path.join(place.state, "life.service")
    with open(place.archive, "rb+") as opened, socket.socket() as listener:
        # The program locks the file before it reads it: 510 bytes of SQLite's, by which only the other process sees it.
        fcntl.lockf(opened, fcntl.LOCK_EX, 510, (1 << 30) + 2)
        listener.bind(("127.0.0.1", 0))
        port = listener.getsockname()[1]
        same("it may just be starting", place.age(port=port)[0], 0)
        os.utime(seen, (time.time() - 599, time.time() - 599))
        same(
            "at the check ten minutes later",
            place.age(port=port),
            (1, f"life-age: life.service runs, but does not serve: no program listens at port {port}\n"),
        )
        listener.listen()
        same("it serves", (place.age(port=port)[0], os.path.exists(seen)), (0, False))
        listener.close()
        same("the ten minutes start over", place.age(port=port)[0], 0)


@pytest.mark.parametrize("table, values", [("deposits", "'B3/S23', 5, x''"), ("censuses", "1, 0, 4, 0, 0")])
def test_nearly_full(folder: str, table: str, values: str) -> None:
    """Nine tenths of the rows that an archive may have are a failure, by the greatest number in the newest copy."""
    place = Place(os.path.join(folder, f"full-{table}"))
    capacity = re.search("(?m)^CAPACITY,([0-9]+),", content(os.path.join(HERE, "..", "docs", "limits.csv")))
    assert capacity
    most = int(capacity[1])
    enough = most * 9 // 10
    with contextlib.closing(new_archive(place.copied())) as database:
        database.execute(f"INSERT INTO {table} VALUES ({enough - 1}, 'ann', 't1', {values})")
        database.commit()
        same("nearly nine tenths", place.age()[0], 0)
        database.execute(f"UPDATE {table} SET id = {enough}")
        database.commit()
        wanted = f"life-age: {place.archive} is nearly full: it has {enough:,} of at most {most:,} {table}\n"
        same("nine tenths", place.age(), (1, wanted))


@pytest.mark.parametrize("memory, good", [("293M", False), ("1K", False), ("294M", True), ("1G", True), ("1T", True)])
def test_too_little_memory(folder: str, memory: str, good: bool) -> None:
    """An archive that LIFE_MEMORY is too little to open is a failure, before the next start is: a million deposits take
    280 MB, and a tenth more is wanted, 308,000,000 bytes."""
    place = Place(os.path.join(folder, f"memory-{memory}"))
    with contextlib.closing(new_archive(place.copied())) as database:
        database.execute(ADD_DEPOSIT, [1000000, "ann", "t1", "B3/S23", 5, b""])
        database.commit()
    words = ["--memory", memory, "--root", place.root, place.archive, place.copies, "2h"]
    said = f"LIFE_MEMORY={memory} is too little to open {place.archive}: 1,000,000 deposits take 294M\n"
    same(f"with {memory}", script("life-age", *words)[2].endswith(f"; {said}"), not good)


def test_certificate(folder: str) -> None:
    """A certificate that expires within two weeks, or can't be read, is a failure. In a chain the server's is first."""
    if not shutil.which("openssl"):
        pytest.skip("openssl is not installed")
    made = {days: os.path.join(folder, f"{days}-days.pem") for days in (13, 15)}
    for days, path in made.items():
        words = "openssl req -x509 -newkey rsa:2048 -nodes -subj /CN=x -keyout /dev/null"
        subprocess.run([*words.split(), "-days", str(days), "-out", path], capture_output=True, check=True, timeout=60)
    same("of 15 days", script("life-age", "--certificate", made[15]), (0, f"life-age: {made[15]} is valid\n", ""))
    status, _, err = script("life-age", "--certificate", made[13])
    check(f"of 13 days: {err}", status == 1 and err.startswith(f"life-age: {made[13]} expires on "))
    chain = os.path.join(folder, "chain.pem")
    for first, second, wanted in ((15, 13, 0), (13, 15, 1)):
        write(chain, content(made[first]) + content(made[second]))
        same(f"of {first} days, by one of {second}", script("life-age", "--certificate", chain)[0], wanted)
    os.remove(chain)
    gone = (1, "", f"life-age: {chain} can't be read as a certificate\n")
    same("none", script("life-age", "--certificate", chain), gone)


def test_room(folder: str) -> None:
    """Little room on the archive's disk is a failure. The disk is one in memory, which only root can mount."""
    if os.geteuid() != 0:
        pytest.skip("this is not root, so no small disk is mounted")
    place = Place(os.path.join(folder, "room"))
    place.copied()
    disk = os.path.dirname(place.archive)
    mounted = subprocess.run(
        ["mount", "-t", "tmpfs", "-o", "size=8m", "disk", disk], capture_output=True, text=True, check=False
    )
    if mounted.returncode:
        pytest.skip(f"{mounted.stderr.strip()}: so no small disk is mounted")
    try:
        same("a small disk", place.age(), (1, f"life-age: {disk} has only 8 MiB left\n"))
    finally:
        subprocess.run(["umount", disk], check=True)
    same("a large disk", place.age()[0], 0)


@pytest.mark.parametrize(
    "options, owner, said",
    [
        ("size=8m", "nobody", "{} has only 8 MiB left"),
        ("size=80m,nr_inodes=100", "nobody", "{} has room for only 99 files"),
        ("size=80m", "root", "nobody can't write to {}"),
        ("size=80m,ro", "nobody", "nobody can't write to {}"),
        ("size=80m", "nobody", ""),
    ],
    ids=["bytes", "files", "owner", "read-only", "well"],
)
def test_writer(folder: str, options: str, owner: str, said: str) -> None:
    """A folder to which nginx writes needs room for bytes and files, and nginx has to be able to write there."""
    disk = os.path.join(folder, "written")
    os.makedirs(disk, exist_ok=True)
    os.chmod(folder, 0o755)
    words = ["mount", "-t", "tmpfs", "-o", f"{options},mode=755,uid={pwd.getpwnam(owner).pw_uid}", "disk", disk]
    if os.geteuid() != 0 or subprocess.run(words, capture_output=True, check=False).returncode:
        pytest.skip("no small disk is mounted")
    try:
        wanted = (1, "", f"life-age: {said.format(disk)}\n") if said else (0, "life-age: nobody can write\n", "")
        same(f"a disk with {options}", script("life-age", "--writer", "nobody", disk, f"{disk}/none"), wanted)
    finally:
        subprocess.run(["umount", disk], check=True)


@pytest.mark.parametrize(
    "words",
    [
        ["life-check"],
        ["life-await", "1"],
        ["life-watch", "1"],
        ["life-index", "one"],
        ["life-copy", "one"],
        ["life-restore", "--older"],
        ["life-configure", "--no-such"],
        ["life-new-archive", "one"],
        ["configure"],
    ],
    ids=" ".join,
)
def test_usages(words: list[str]) -> None:
    """Wrong arguments are a usage error: a line about them, and status 2."""
    status, out, err = script(*words)
    check(f"wrong arguments of {words[0]}: {err}", (status, out) == (2, "") and "usage: " in err)


# ---- what life-sound looks at


def sound(place: Place, program: str) -> tuple[int, str]:
    status, out, err = script("life-sound", program, place.archive, place.copies)
    return status, out + err


def test_sound(program: str, folder: str) -> None:
    """The newest copy is read row by row, and stays as it is. A wrong row, a file that is not a database, and a missing
    copy are failures."""
    place = Place(os.path.join(folder, "sound"))
    same("no copy", sound(place, program), (1, f"life-sound: there is no copy in {place.copies}\n"))
    with Server(place.archive, 2) as server:
        exchanged(server.port, [deposit("ann", "t1", GLIDER), deposit("bob", "t2", BLOCKS)])
    copy = place.copied(60)
    os.remove(copy)
    same("a copy is made", script("life-copy", place.archive, copy)[0], 0)
    future = place.copied(-7200)
    write(future, "from a clock that was wrong")
    before = files(place.copies)
    same("a sound copy", sound(place, program), (0, f"life-sound: {copy}: sound: 2 deposits, 0 censuses\n"))
    same("it is as it was, and nothing is beside it", files(place.copies), before)
    wrong_copy(place.copied(7200))
    same("only the newest one is read", sound(place, program)[0], 0)
    newest = wrong_copy(place.copied())
    row = "deposit 1: its row is wrong or missing"
    same("a wrong row", sound(place, program), (1, f"life-sound: {newest} is not sound: {row}\n"))
    write(newest, "x" * 8192)
    same("no database", sound(place, program), (1, f"life-sound: {newest} can't be checked: refused: unavailable\n"))
    gone = (1, f"life-sound: {newest}.none: No such file or directory\n")
    same("no program", sound(place, f"{newest}.none"), gone)
    status, _, err = script("life-sound", program)
    check("wrong arguments", status == 2 and err.startswith("usage: life-sound"))


def files(folder: str) -> dict[str, bytes]:
    """The files of a folder with their bytes."""
    return {path.name: path.read_bytes() for path in pathlib.Path(folder).iterdir()}


def wrong_copy(new: str) -> str:
    """A copy as sqlite3 may write it, with a wrong population."""
    with contextlib.closing(new_archive(new)) as database:
        database.execute(ADD_DEPOSIT, [1, "ann", "t1", "B3/S23", 6, GLIDER_TEXT])
        database.commit()
    return new


# ---- settings and files


def test_spellings(program: str, folder: str) -> None:
    """The settings file in twelve spellings: the copy is of the archive that is named."""
    room = os.path.join(folder, "spellings")
    archive, copies = os.path.join(room, "archive", "club.db"), os.path.join(room, "copies")
    for path in (os.path.dirname(archive), copies):
        os.makedirs(path)
    with Server(archive, 1) as server:
        exchanged(server.port, [deposit("ann", "t1", GLIDER)])
        server.ended()
    others = (
        f"PROGRAM={program}\nARCHIVE_FOLDER={os.path.dirname(archive)}\nBACKUP_FOLDER={copies}\n"
        f"LIFE_USER={getpass.getuser()}\nMETRICS_FOLDER=\n"
    )
    for number, spelling in enumerate(fake_systemd.SPELLINGS):
        path = os.path.join(room, f"settings{number}")
        with open(path, "wb") as file:
            file.write((others + spelling.format(f"ARCHIVE={archive}")).encode("latin-1"))
        status, out, err = script("life-copy", "--settings", path)
        check(f"spelling {spelling!r}: {err}", status == 0 and out.endswith(": 1 deposit, 0 censuses\n"))


@pytest.mark.parametrize("line", ["READS 60", "NO_SUCH=1", "ARCHIVE='/srv/club.db'"])
def test_broken_line(folder: str, line: str) -> None:
    """An invalid line of the settings is named, with its number."""
    path = os.path.join(folder, "broken")
    write(path, f"# a comment\n{line}\n")
    status, _, err = script("life-copy", "--settings", path)
    check(f"a broken line is named: {err}", status == 1 and f"{path}, line 2: " in err and line.split("=")[0] in err)


class Root:
    """A root folder with settings, for life-configure."""

    def __init__(self, folder: str) -> None:
        self.folder = folder
        write(self.path("etc/life/settings"), "READS=9r/s\nWATCH_SECONDS=77\n")

    def path(self, name: str) -> str:
        return os.path.join(self.folder, name)

    def configured(self, *words: str) -> tuple[int, str, str]:
        return script("life-configure", "--files-only", "--root", self.folder, *words)


def test_withdrawn_list(folder: str) -> None:
    """life-configure writes the list of withdrawn deposits into the site. A line without a number is named."""
    root = Root(os.path.join(folder, "withdrawing"))
    listed = root.path("etc/life/withdrawn")
    write(root.path("etc/life/settings"), f"WITHDRAWN={listed}\n")
    site = root.path("etc/nginx/sites-available/life")
    for text, wanted in (("", ""), ("# Ours.\n7 a reason\n\n0012\n", "7 1; 12 1;"), ("12\n", "12 1;")):
        write(listed, text)
        same(f"life-configure with the list {text!r}", root.configured()[0], 0)
        found = re.search(r"map \$life_numbered \$life_withdrawn { default \"\"; (.*) }", content(site))
        same("the numbers in the site", found and found[1], wanted)
    before = content(site)
    write(listed, "12\nseven\n")
    status, _, err = root.configured()
    check(
        f"a line without a number: {err}",
        status == 1 and f"{listed}, line 2: not the number of a deposit" in err and content(site) == before,
    )


@pytest.mark.parametrize(
    "lines, said",
    [
        (f"# Ours.\nann:{HASH}\r\n\nbob-2:{{PLAIN}}of-bob:a comment\ncid:abJnggxhB/yWI\n", ""),
        (f"Ann:{HASH}\n", "line 1: the program refuses the name 'Ann': it has to be 1 to 32 of a to z, 0 to 9 and -"),
        (f"ann:{HASH}\n\ntwo words:{HASH}\n", "line 3: the program refuses the name 'two words'"),
        (f"\ufeffann:{HASH}\n", "line 1: the program refuses the name '\\ufeffann'"),
        (f"{'a' * 33}:{HASH}\n", "line 1: the program refuses the name 'aaa"),
        ("ann:of-ann\n", "line 1: nginx does not know the form of the hash of ann"),
        ("ann\n", "line 1: nginx does not know the form of the hash of ann"),
        ("A:\nB:\nC:\nD:\n", "; and 1 more"),
        ("# None.\n", "it has no members, so no one can deposit"),
    ],
    ids=["well", "capital", "blank", "mark", "long", "text", "name", "many", "empty"],
)
def test_members(tmp_path: Path, lines: str, said: str) -> None:
    """Lines of the file of members that let nobody deposit are said, and all else is done."""
    os.makedirs(tmp_path / "etc" / "life")
    os.chmod(tmp_path, 0o700)
    (tmp_path / "members").write_bytes(lines.encode())
    (tmp_path / "etc" / "life" / "settings").write_text(f"TLS=yes\nMEMBERS_FILE={tmp_path}/members\n")
    words = [os.path.join(DEPLOY, "life-configure"), "--files-only", "--root", str(tmp_path)]
    done = subprocess.run(words, capture_output=True, text=True, timeout=60, check=False)
    others = [line for line in done.stderr.splitlines() if "can't read it" not in line]
    same("it is done", (done.returncode, done.stdout.startswith("changed: ")), (0, True))
    check(f"what is said: {others}", len(others) == bool(said) and all(said in line for line in others))


def test_old_names(folder: str) -> None:
    """Settings under the names of release 1.1.0 are those under the new ones, and a line says so."""
    root = Root(os.path.join(folder, "old-names"))
    path = root.path("etc/life/settings")
    write(path, "DEAR_READS=7r/s\nDEAR_READS_AT_ONCE=33\nDEAR_CONNECTIONS=9\n")
    status, out, err = root.configured()
    names = ("READS", "READS_AT_ONCE", "CONNECTIONS")
    said = ", ".join(f"DEAR_{name} is SLOW_{name} now" for name in names)
    same("what is said", (status, err), (0, f"life-configure: {path}: {said}; the old name works, too\n"))
    site = content(root.path("etc/nginx/sites-available/life"))
    for part in ("life_client_slow:8m     rate=7r/s;", "life_client_slow burst=33 ", "life_client_slow_at_once 9;"):
        check(f"the site has {part}", part in site)


def test_changed_by_hand(folder: str) -> None:
    """A file that somebody has changed stays, and what the settings make of it is beside it, until --replace is asked
    for."""
    root = Root(os.path.join(folder, "configured"))
    site, unit = root.path("etc/nginx/sites-available/life"), root.path("etc/systemd/system/life-watch.service")
    status, out, err = root.configured()
    check(
        f"files are written: {err}",
        status == 0 and "life-site.conf" in out and "life-watch.service" in out and " 77\n" in content(unit),
    )
    same("a second time nothing changes", root.configured(), (0, "changed: nothing\n", ""))
    ours = content(site)
    for path in (site, unit):
        write(
            path,
            content(path)
            .replace("[Service]", "[Service]\n# ours")
            .replace("server {", "server {\n    deny 203.0.113.7; # ours"),
        )
    write(root.path("etc/life/settings"), "READS=8r/s\nWATCH_SECONDS=78\n")
    status, out, err = root.configured()
    check(
        f"what was changed stays: {err}",
        status == 0
        and "# ours" in content(site)
        and "# ours" in content(unit)
        and err.count("was changed by hand and stays") == 2,
    )
    check(
        "the new one is beside it", " 78\n" in content(unit + ".dpkg-dist") and "8r/s" in content(site + ".dpkg-dist")
    )
    status, out, _ = root.configured("--replace")
    check(
        "it is replaced if that is asked for",
        status == 0
        and "8r/s" in content(site)
        and "# ours" not in content(site)
        and "# ours" in content(site + ".dpkg-old")
        and ours != content(site),
    )
    write(unit, "[Service]\nExecStart=/bin/true\n")
    status, _, err = root.configured()
    check(
        "a unit of somebody else stays, without an error",
        status == 0 and content(unit) == "[Service]\nExecStart=/bin/true\n" and unit in err,
    )
    write(site, "# Made by life-configure from /etc/life/settings.\nserver { }\n")
    check("a file of release 1.0.0 is written again", root.configured()[0] == 0 and "8r/s" in content(site))
    digest = re.search(r"(?s)location = /\.life-configured .*?return 200 '([0-9a-f]{64})'", content(site))
    check("the site answers with its digest", digest is not None and digest[1] in content(site))


def modes(folder: str) -> set[tuple[int, int]]:
    """The modes and owners of all files below /etc in a folder, without the settings."""
    below = os.path.join(folder, "etc")
    found = [os.path.join(where, name) for where, _, names in os.walk(below) for name in names if name != "settings"]
    return {(stat.S_IMODE(os.stat(path).st_mode), os.stat(path).st_uid) for path in found}


@pytest.mark.parametrize("umask", ["000", "077"])
def test_umasks(folder: str, umask: str) -> None:
    """Files are for everybody to read and for root to change, whatever root's umask is."""
    root, own = Root(os.path.join(folder, f"umask-{umask}")), (0o644, os.geteuid())
    words = [os.path.join(DEPLOY, "life-configure"), "--files-only", "--root", root.folder]
    done = subprocess.run(["sh", "-c", 'umask "$0"; exec "$@"', umask, *words], capture_output=True, timeout=60)
    same("their modes and owners", (done.returncode, modes(root.folder)), (0, {own}))
    same("nothing has to be changed then", root.configured()[1], "changed: nothing\n")


# ---- locks


# Runs life-index with a short wait for the lock of its folder.
INDEXING = """
import sys
sys.path.insert(0, sys.argv[1])
from life_operate import index
index.LOCKED_WITHIN = 0.5
sys.argv = sys.argv[1:]
index.main()
"""


def test_locked_index(folder: str) -> None:
    """A lock on the folder of the index, which every user can have, holds up nobody. That of another life-index does,
    which only root and the owner of the folder can open."""
    path, copy = os.path.join(folder, "index"), os.path.join(folder, "indexed.db")
    os.makedirs(path)
    if os.geteuid() == 0:
        shutil.chown(path, "nobody")
    new_archive(copy).close()
    number = os.open(path, os.O_RDONLY)
    fcntl.flock(number, fcntl.LOCK_EX)
    words = [sys.executable, "-c", INDEXING, DEPLOY, copy, path]
    done = subprocess.run(words, capture_output=True, text=True, timeout=60, check=False)
    same(f"a lock on the folder: {done.stderr}", done.returncode, 0)
    os.close(number)
    state = os.stat(os.path.join(path, "lock"))
    same("who can open the lock", (stat.S_IMODE(state.st_mode), state.st_uid), (0o600, os.stat(path).st_uid))
    with open(os.path.join(path, "lock"), "rb") as lock:
        fcntl.flock(lock, fcntl.LOCK_EX)
        done = subprocess.run(words, capture_output=True, text=True, timeout=60, check=False)
        same("another one is said", (done.returncode, done.stderr), (1, "life-index: another life-index is at work\n"))


def test_locked_settings(folder: str) -> None:
    """life-configure waits for another one. What it locks only root can open."""
    root = Root(os.path.join(folder, "locked"))
    number = os.open(root.path("etc/life"), os.O_RDONLY)
    fcntl.flock(number, fcntl.LOCK_EX)
    begun = time.monotonic()
    same("a lock on the folder of the settings", (root.configured()[0], time.monotonic() - begun < 60), (0, True))
    os.close(number)
    lock = root.path("run/life-configure.lock")
    same("who can open the lock", stat.S_IMODE(os.stat(lock).st_mode), 0o600)
    with open(lock, "rb") as file:
        fcntl.flock(file, fcntl.LOCK_EX)
        words = [os.path.join(DEPLOY, "life-configure"), "--files-only", "--root", root.folder]
        with subprocess.Popen(words, stdout=subprocess.PIPE, text=True) as waiting:
            assert waiting.stdout is not None
            same(
                "another life-configure waits",
                waiting.stdout.readline(),
                "another life-configure is at work: waiting until it is done\n",
            )
            fcntl.flock(file, fcntl.LOCK_UN)
            same("until it is done", (waiting.wait(60), waiting.stdout.read()), (0, "changed: nothing\n"))


# ---- what nginx and HAProxy load


@pytest.fixture
def loaded(folder: str) -> Iterator[Loaded]:
    if not shutil.which("nginx", path=os.environ["PATH"] + ":/usr/sbin") or not shutil.which("openssl"):
        pytest.skip("nginx or openssl is not installed")
    place = Loaded(os.path.join(folder, "loaded"))
    yield place
    place.end()
    shutil.rmtree(place.folder)


def test_own_lines(loaded: Loaded) -> None:
    """nginx loads the club's own lines if they have changed. What it refuses is said, each time, also what it refuses
    only while it runs."""
    same("the first time", loaded.load(), (0, AGAIN, ""))
    same("nothing has changed", loaded.load(), (0, "", ""))
    same("nobody is barred", loaded.asked("127.0.0.9"), 200)
    loaded.own_line("deny 127.0.0.9;")
    same("an own line", loaded.load(), (0, AGAIN, ""))
    same("somebody is barred", (loaded.asked("127.0.0.9"), loaded.asked("127.0.0.8")), (403, 200))
    same("once", loaded.load(), (0, "", ""))
    loaded.own_line("denny 127.0.0.9;")
    for turn in ("a broken line", "a broken line that stays"):
        status, out, err = loaded.load()
        check(
            f"{turn}: {err}",
            (status, out) == (1, "")
            and err.startswith('nginx was not reloaded, since it refuses its files: unknown directive "denny" in /')
            and err.endswith("own.conf:1\n"),
        )
    with socket.socket() as other:
        other.bind(("127.0.0.1", 0))
        other.listen()
        loaded.own_line(f"deny 127.0.0.8; listen 127.0.0.1:{other.getsockname()[1]};")
        for turn in ("a port that is taken", "a port that stays taken"):
            status, out, err = loaded.load()
            check(f"{turn}: {err}", (status, out) == (1, AGAIN) and err.startswith("nginx keeps the old site"))
    same("the old lines count", (loaded.asked("127.0.0.9"), loaded.asked("127.0.0.8")), (403, 200))
    loaded.own_line("deny 127.0.0.9;")
    same("nginx still has the lines of before", loaded.load(), (0, "", ""))


def test_room_for_connections(loaded: Loaded) -> None:
    """It is said each time if nginx has room for too few connections or files."""
    loaded.load()
    scarce = "one client can keep others out: set worker_connections 8192; in /etc/nginx/nginx.conf\n"
    few = "nginx may open too few files for its connections: systemctl restart nginx.service\n"
    for connections, files, wanted in ((768, 20000, scarce), (8192, 1024, few), (8192, 20000, "")):
        loaded.write_nginx(connections, files)
        same(f"{connections} connections, {files} files", loaded.load(), (0, AGAIN, wanted))
        same("it is said again", loaded.load(), (0, "", wanted))


def test_renewed_certificate(loaded: Loaded) -> None:
    """A renewed certificate is loaded. One that does not fit its key is refused, with nginx's words."""
    loaded.load()
    first = loaded.certificate()
    loaded.certify()
    same("a renewed certificate", loaded.load(), (0, AGAIN, ""))
    second = loaded.certificate()
    check("it is given out", second != first)
    with open(os.path.join(loaded.folder, "key.pem"), encoding="ascii") as file:
        key = file.read()
    loaded.certify()
    write(os.path.join(loaded.folder, "key.pem"), key)
    status, out, err = loaded.load()
    check(f"a key that does not fit: {err}", (status, out) == (1, "") and "key values mismatch" in err)
    same("the second one is given out", loaded.certificate(), second)


def test_replaced_program(loaded: Loaded) -> None:
    """A program that another one has replaced, or that is gone from the disk, is named each time."""
    loaded.load()
    start, other = (os.path.join(loaded.folder, name) for name in ("start", "other"))
    shutil.copy("/bin/true", other)
    write(start, f"{{ path={other} ; argv[]={other} }}")
    restart = "nginx or one of its libraries was replaced: systemctl restart nginx.service\n"
    same("another program", [loaded.load(), loaded.load()], [(0, "", restart)] * 2)
    os.remove(other)
    missing = f"nginx.service runs {other}, which is missing now: install it again\n"
    same("no program", [loaded.load(), loaded.load()], [(1, "", missing)] * 2)


def test_failed_proxy(loaded: Loaded) -> None:
    """HAProxy is started with a new configuration if it has failed with the old one, and not if it was stopped;
    its unit may have changed, too."""
    loaded.load()
    unit = "life-gateway.service"
    restarted = f"systemctl daemon-reload\nsystemctl try-restart {unit}\n"
    started = f"systemctl reset-failed {unit}\nsystemctl reload-or-restart {unit}\n"
    cases: list[tuple[str, list[str], str]] = [
        ("inactive", [], ""),
        ("inactive", [unit], restarted),
        ("failed", [unit], restarted + started),
        ("active", [], ""),
    ]
    for state, changed, wanted in cases:
        write(os.path.join(loaded.folder, "haproxy.state"), state)
        same(f"HAProxy is {state}, changed: {changed}", loaded.load(*changed), (0, wanted, ""))
        os.utime(os.path.join(loaded.folder, "haproxy.cfg"), (time.time() - 9, time.time() - 9))
