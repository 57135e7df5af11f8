"""A club in a folder, for tests: its archive, copies and settings, and the commands of deploy/ over them. systemd is a
stand-in here, which starts and kills the program for real.
"""
import getpass
import http.client
import os
import pwd
import re
import shutil
import subprocess
import sys
import tempfile
import time
from collections.abc import Callable, Sequence

import archives
import clients
import ledger
from clients import GLIDER, GLIDER_TEXT, HERE, Server, check, deposit, exchanged, message, same
from ledger import Ledger

DEPLOY = os.path.join(HERE, "..", "deploy")
# The status of a script, and what it prints on its two streams.
Answer = tuple[int, str, str]
STAMPED = re.compile(r"club-(\d{4}-\d\d-\d\dT\d{4})\.db")
MEMBERS = ["ann", "bob", "cid", "dan", "eve"]
# The form of what `openssl passwd -6` prints.
HASH = "$6$salt$" + "a" * 86
# A stand-in for systemctl: it records its arguments, kills the program as a power cut would, and starts it. After a
# failure it refuses every start until the failure is reset.
SYSTEMCTL = r"""#!/bin/bash
room=$(dirname "$(dirname "$0")")
echo "$*" >> "$room/called"
runs() { [ -e "$room/pid" ] &&
  grep -Eq "^State:[[:space:]]+[^ZX[:space:]]" "/proc/$(cat "$room/pid")/status" 2> /dev/null; }
case $1 in
  is-active) if runs; then echo active; else echo inactive; exit 3; fi ;;
  reset-failed) rm -f "$room/failed" ;;
  stop) ! runs || { kill -9 "$(cat "$room/pid")"; while runs; do sleep 0.02; done; }
    rm -f "$room/pid" ;;
  start) [ ! -e "$room/failed" ] || exit 1
    ! runs || exit 0
    : > "$room/out"
    "$room/bin/begin" >> "$room/out" 2>&1 < /dev/null &
    echo $! > "$room/pid"
    until grep -q listening "$room/out"; do runs || { rm "$room/pid"; : > "$room/failed"; exit 1; }; sleep 0.05; done ;;
esac
"""


# Spellings of one setting that all scripts take for the same.
SPELLINGS = (
    "{}\n",
    "{} \n",
    "{}  \n",
    "{}\r\n",
    "# a comment\n{}\n",
    "\n\n{}\n",
    "{}",
    "ARCHIVE=/elsewhere/club.db\n{}\n",
    "READS=9r/s\n{}\n",
    "{}\n# caf\u00e9\n",
    "{}\nREADS=9r/s\r\n",
    "#ARCHIVE=/elsewhere/club.db\n{}\n",
)


def file_of(member: str) -> bytes:
    return f"#N By {member}\n".encode() + GLIDER


def content(path: str) -> bytes:
    with open(path, "rb") as file:
        return file.read()


def write(path: str, text: str, mode: int = 0o644) -> None:
    with open(path, "w", encoding="utf-8") as file:
        file.write(text)
    os.chmod(path, mode)


class Club:
    """The folders of a club, its settings, and a ledger of what was acknowledged. USER owns the archive, and WEB the
    cache."""

    def __init__(
        self, folder: str, name: str, user: str | None = None, web: str | None = None, **changes: str | int
    ) -> None:
        self.room, self.user = os.path.join(folder, name), user or getpass.getuser()
        self.ledger: Ledger = {}
        for below in ("archive", "copies", "metrics", "web/cache", "bin"):
            os.makedirs(os.path.join(self.room, below))
        self.archive, self.copies, self.port = (
            os.path.join(self.room, "archive", "club.db"),
            os.path.join(self.room, "copies"),
            clients.free_port(),
        )
        self.folder, self.web, self.journal = (
            os.path.dirname(self.archive),
            os.path.join(self.room, "web"),
            self.archive + ".exchange",
        )
        self.settings, self.program = os.path.join(self.room, "settings"), os.path.join(self.room, "bin", "life")
        shutil.copy(clients.PROGRAM, self.program)
        self.values = {
            "PROGRAM": self.program,
            "ARCHIVE": self.archive,
            "ARCHIVE_FOLDER": self.folder,
            "LIFE_USER": self.user,
            "BACKUP_FOLDER": self.copies,
            "METRICS_FOLDER": os.path.join(self.room, "metrics"),
            "LIFE_PORT": str(self.port),
            "PROXY_PORT": "9",
            "WEB_FOLDER": self.web,
        }
        self.set(**changes)
        write(os.path.join(self.room, "bin", "systemctl"), SYSTEMCTL, 0o755)
        self.begin_by(
            f'exec {self.as_user()} "{self.program}" serve --db "{self.archive}" --port {self.port} --connections 1000'
        )
        for owner, places in ((user, ("archive", "copies", "metrics")), (web, ("web", "web/cache"))):
            for each in places:
                if owner:
                    shutil.chown(os.path.join(self.room, each), owner)

    def as_user(self) -> str:
        """The prefix that runs a command as the archive's user."""
        found = pwd.getpwnam(self.user)
        return (
            ""
            if found.pw_uid == os.geteuid()
            else f"setpriv --reuid={found.pw_uid} --regid={found.pw_gid} --clear-groups"
        )

    def begin_by(self, line: str) -> None:
        """What the stand-in for systemd starts."""
        write(os.path.join(self.room, "bin", "begin"), f"#!/bin/bash\n{line}\n", 0o755)

    def set(self, **changes: str | int) -> None:
        self.values.update({name: str(value) for name, value in changes.items()})
        write(self.settings, "".join(f"{name}={value}\n" for name, value in self.values.items()))

    def environment(self) -> dict[str, str]:
        # Debian's own Python is first: other users can read it.
        return os.environ | {
            "PATH": os.path.join(self.room, "bin") + ":/usr/sbin:/usr/bin:/sbin:/bin:" + os.environ["PATH"]
        }

    def words(self, name: str, *words: str, settings: bool = True) -> list[str]:
        return [os.path.join(DEPLOY, name), *(["--settings", self.settings] if settings else []), *words]

    def begun(self, name: str, *words: str, settings: bool = True) -> subprocess.Popen[str]:
        """A script of deploy/ that runs beside the test."""
        return subprocess.Popen(
            self.words(name, *words, settings=settings),
            stdin=subprocess.DEVNULL,
            stdout=subprocess.PIPE,
            stderr=subprocess.STDOUT,
            text=True,
            env=self.environment(),
        )

    def script(self, name: str, *words: str, prefix: Sequence[str] = (), settings: bool = True) -> Answer:
        """The status and the two streams of a script of deploy/."""
        done = subprocess.run(
            [*prefix, *self.words(name, *words, settings=settings)],
            capture_output=True,
            text=True,
            timeout=120,
            env=self.environment(),
        )
        return done.returncode, done.stdout, done.stderr

    def systemctl(self, word: str) -> None:
        subprocess.run([os.path.join(self.room, "bin", "systemctl"), word], timeout=60, check=True)

    def copy(self, prefix: Sequence[str] = ()) -> Answer:
        return self.script("life-copy", prefix=prefix)

    def restore(self, *words: str) -> Answer:
        return self.script("life-restore", *words)

    def files(self) -> list[str]:
        return sorted(os.listdir(self.copies))

    def newest(self) -> str:
        """The path of the newest copy."""
        return os.path.join(self.copies, [name for name in self.files() if STAMPED.fullmatch(name)][-1])

    def aged(self, stamp: str) -> str:
        """Renames the newest copy to this time, and returns its path."""
        os.rename(self.newest(), path := os.path.join(self.copies, f"club-{stamp}.db"))
        return path

    def asides(self) -> list[str]:
        """The folders with what was moved away, in the archive's folder."""
        return [
            os.path.join(self.folder, name) for name in sorted(os.listdir(self.folder)) if name.startswith("before-")
        ]

    def left_over(self) -> list[str]:
        """What a command must not leave: a journal and private folders."""
        names = [*os.listdir(self.folder), *os.listdir(self.copies), *os.listdir(self.web)]
        return [name for name in names if name.startswith(".") or ".exchange" in name]

    def called(self) -> list[str]:
        path = os.path.join(self.room, "called")
        return content(path).decode().splitlines() if os.path.exists(path) else []

    def steps(self) -> list[str]:
        """How the service was stopped and started."""
        return [line.split()[0] for line in self.called() if line.startswith(("stop", "start"))]

    def deposits(self, *members: str) -> None:
        """Deposits through the service, and records what was acknowledged in the ledger."""
        for member in members:
            reply = exchanged(self.port, [deposit(member, "t1", file_of(member))])
            found = re.search(rb'201 Created.*"deposit":([0-9]+)', reply, re.S)
            check(f"{self.room}: a deposit of {member}: {reply[:200]!r}", found is not None)
            assert found is not None
            self.ledger[int(found[1])] = deposit_of(member)

    def ask(self, requests: list[ledger.Request]) -> list[ledger.Reply]:
        """The replies of the service to some requests, each on a connection of its own."""
        return [asked(self.port, *request) for request in requests]

    def serves(self, wanted: Ledger) -> bool:
        """Whether the service has just the deposits of a ledger."""
        found = ledger.faults(wanted, self.ask)
        if found:
            print(f"{self.room}: {found}")
        return not found


def asked(port: int, method: str, path: str, headers: dict[str, str], body: bytes) -> ledger.Reply:
    """The status and the body of a reply; nothing if none comes."""
    connection = http.client.HTTPConnection("127.0.0.1", port, timeout=60)
    try:
        connection.request(method, path, body=body, headers={**headers, "connection": "close"})
        reply = connection.getresponse()
        return reply.status, reply.read()
    except (OSError, http.client.HTTPException) as fault:
        return 0, str(fault).encode()
    finally:
        connection.close()


def deposit_of(member: str) -> ledger.Deposit:
    """What a member of these tests deposits, as an archive has it."""
    return ledger.Deposit(member, "t1", f"#N By {member}\n".encode() + GLIDER_TEXT)


def write_wrong_row(database: str) -> None:
    """Writes an archive of two deposits by sqlite3, without checksums of pages. The first has one cell more than its
    pattern."""
    kept = archives.new_archive(database)
    for number, population in ((1, 6), (2, 5)):
        kept.execute(archives.ADD_DEPOSIT, (number, "ann", f"t{number}", "B3/S23", population, GLIDER_TEXT))
    kept.commit()
    kept.close()


def fill(database: str, members: list[str], censuses: int = 0) -> None:
    """A new archive with a deposit of each member, and some censuses of the first."""
    for ending in ("", "-wal"):
        if os.path.exists(database + ending):
            os.remove(database + ending)
    add(database, members, censuses)


def add(database: str, members: list[str], censuses: int = 0) -> None:
    messages = [deposit(member, "t1", file_of(member)) for member in members]
    messages += [
        message("POST", f"/deposits/1/censuses/{number}/4", b"", "x-member: ann", f"x-token: c{number}")
        for number in range(censuses)
    ]
    with Server(database, 1) as server:
        replies = exchanged(server.port, messages or [message("GET", "/deposits/after/0")])
        server.ended()
    same(f"{database} is filled", replies.count(b"HTTP/1.1 20"), max(len(messages), 1))


def shown(database: str, number: int) -> bytes:
    """The file of a deposit, from a temporary server on the archive."""
    with Server(database, 1) as server:
        reply = exchanged(server.port, [message("GET", f"/deposits/{number}")])
        server.ended()
    return reply


def is_error(name: str, answer: Answer, *parts: str) -> bool:
    """Whether a script ended with status 1 and one line on standard error that has these parts."""
    status, _, err = answer
    good = status == 1 and err.startswith(f"{name}: ") and err.count("\n") == 1 and all(part in err for part in parts)
    if not good:
        print(f"{name} answered {answer}")
    return good


# Runs a script on a disk with this number of bytes free.
SMALL_DISK = """
import runpy, shutil, sys
free = int(sys.argv[1])
shutil.disk_usage = lambda path: shutil._ntuple_diskusage(1 << 30, (1 << 30) - free, free)
sys.argv = sys.argv[2:]
runpy.run_path(sys.argv[0], run_name="__main__")
"""


def small_disk(free: int) -> list[str]:
    """The prefix that makes a script see this number of free bytes."""
    return [sys.executable, "-c", SMALL_DISK, str(free)]


def other_disk(folder: str) -> str | None:
    """A new folder on another disk than this one, or nothing."""
    for place in ("/dev/shm", "/tmp", "/var/tmp", HERE):
        if os.path.isdir(place) and os.access(place, os.W_OK) and os.stat(place).st_dev != os.stat(folder).st_dev:
            return tempfile.mkdtemp(prefix="life-second-", dir=place)
    return None


# Runs a script that sends itself a signal at one of its steps, and counts them.
STEPPED = """
import os, runpy, sys
counts, wanted, number, below = sys.argv[1], int(sys.argv[2]), int(sys.argv[3]), tuple(sys.argv[4].split(":"))
sys.argv = sys.argv[5:]
steps, own = 0, os.getpid()
MORE = (
    "os.rename", "os.remove", "os.mkdir", "os.rmdir", "os.chdir", "os.chmod", "subprocess.Popen",
    "fcntl.flock", "fcntl.lockf", "sqlite3.connect", "socket.connect"
)
def step(event, words):
    global steps
    if os.getpid() == own and (
        event in MORE or event in ("open", "os.listdir", "os.scandir") and str(words[0]).startswith(below)
    ):
        steps += 1
        if steps == wanted:
            os.kill(own, number)
sys.addaudithook(step)
try:
    runpy.run_path(sys.argv[0], run_name="__main__")
finally:
    wanted = 0
    with open(counts, "w") as file:
        file.write(str(steps))
"""


THREE = {number: deposit_of(member) for number, member in enumerate(MEMBERS[:3], 1)}
FIVE = {**THREE, 4: deposit_of("zoe"), 5: deposit_of("yan")}


class ClubOfFive(Club):
    """A club that serves five deposits, and has copies of the first two and of the first three."""

    def __init__(self, folder: str, name: str, user: str | None = None, web: str | None = None) -> None:
        super().__init__(folder, name, user, web)
        self.make(MEMBERS[:2])
        self.copy()
        self.oldest = self.aged("2020-01-01T0000")
        self.make(MEMBERS[2:3])
        self.copy()
        self.older = self.aged("2020-01-02T0000")
        self.systemctl("start")
        self.ledger = dict(THREE)
        self.deposits("zoe", "yan")

    def make(self, members: list[str]) -> None:
        """Deposits while the service does not run."""
        add(self.archive, members)
        if self.as_user():
            for ending in ("", "-wal"):
                if os.path.exists(self.archive + ending):
                    shutil.chown(self.archive + ending, self.user)


def until(what: Callable[[], object], seconds: int = 60) -> bool:
    """Whether something comes true in time."""
    end = time.monotonic() + seconds
    while not what() and time.monotonic() < end:
        time.sleep(0.02)
    return bool(what())


def is_running(number: str) -> bool:
    """Whether there is a process of this number, and not only what is left of one."""
    try:
        return content(f"/proc/{number}/status").decode().partition("State:")[2].split()[0] not in "ZX"
    except OSError:
        return False


def cached(club: Club) -> str:
    """Puts a reply into the cache of nginx; its path."""
    os.makedirs(folder := os.path.join(club.web, "cache", "a", "0b"), exist_ok=True)
    write(path := os.path.join(folder, "page"), "an old reply")
    return path
