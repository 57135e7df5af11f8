"""A Debian of tests/machine.py with the packages of life: what is asked of it, what it says, and a ledger of what it
has acknowledged.
"""
import json
import os
import re
import shutil
import subprocess
import threading
import time
from collections.abc import Callable

import ledger
import machine
from clients import GLIDER_TEXT, HERE, check, same
from ledger import Deposit, Ledger
from reference import deposit_body

TOP = os.path.dirname(HERE)
GLIDER = GLIDER_TEXT.decode()
# A command that has ended.
Done = subprocess.CompletedProcess[str]
VERSION = "1.1.0"
LATER, LATEST = f"{VERSION}+later", f"{VERSION}+latest"
# A line of the settings, and what the package LATER has in its place.
KEPT_MONTHS, LATER_MONTHS = "KEEP_MONTHS=12\n", "KEEP_MONTHS=13\n"
# Settings of a site without and with TLS.
WITHOUT_TLS = {"TLS": "no", "LISTEN": "80", "LISTEN_ALSO": "[::]:80", "REDIRECT": "", "REDIRECT_ALSO": ""}
WITH_TLS = {"TLS": "yes", "LISTEN": "443", "LISTEN_ALSO": "[::]:443", "REDIRECT": "80", "REDIRECT_ALSO": "[::]:80"}
ARCHIVE, COPIES, SITE, SETTINGS = (
    "/var/lib/life/club.db",
    "/var/backups/life",
    "/etc/nginx/sites-available/life",
    "/etc/life/settings",
)
NEWEST = f"$(ls -d {COPIES}/club-2???-??-??T????.db | tail -n 1)"
BUSY = 60
# A sendmail, which has another name while no mail is tried: alarms then go to the journal.
SENDMAIL = "/usr/sbin/sendmail"
# Sends the requests that come on its standard input to the program's port, and prints the replies.
ASKING = """
import http.client, json, sys
replies = []
for method, path, headers, body in json.load(sys.stdin):
    connection = http.client.HTTPConnection("127.0.0.1", 8081, timeout=60)
    try:
        connection.request(method, path, body=body.encode(), headers=headers)
        reply = connection.getresponse()
        replies.append([reply.status, reply.read().decode()])
    except OSError as fault:
        replies.append([0, str(fault)])
    connection.close()
print(json.dumps(replies))
"""
# Deposits through nginx from an address of its own, until it is killed; a line for each number that comes back. What
# gets no number is sent again.
DEPOSITING = """
import http.client, json, sys, time
name, address, first, most = sys.argv[1], sys.argv[2], sys.argv[3], int(sys.argv[4])
for turn in range(most):
    token, tries = f"{first}-{turn}", 0
    text = f"#N {name} {token}\\n" + sys.argv[5]
    while True:
        connection = http.client.HTTPConnection("127.0.0.1", 80, timeout=60, source_address=(address, 0))
        try:
            connection.request("POST", "/deposits", body=text.encode(), headers={"x-member": name, "x-token": token})
            reply = connection.getresponse()
            body = reply.read()
        except OSError:
            body = b""
        connection.close()
        if body.startswith(b'{"deposit":'):
            print(json.dumps([json.loads(body)["deposit"], name, token, text]), flush=True)
            break
        time.sleep(0.2)
"""


class Packages:
    """The packages of three versions in one folder, and the first version once more in another."""

    def __init__(self, room: str) -> None:
        self.out, self.again = os.path.join(room, "out"), os.path.join(room, "again")
        self.made: list[tuple[str, Done]] = []

    def make(self, folder: str, version: str) -> str:
        """Makes the packages of a version; what is said on standard error."""
        words = [os.path.join(TOP, "deploy", "package"), folder, version]
        done = subprocess.run(words, capture_output=True, text=True, timeout=300)
        self.made.append((version, done))
        return done.stderr

    def change_settings(self, version: str) -> None:
        """Packs a package again with another value of a setting, as a later version may have it."""
        deb, tree = os.path.join(self.out, f"life_{version}_amd64.deb"), os.path.join(self.out, "unpacked")
        subprocess.run(["dpkg-deb", "--raw-extract", deb, tree], check=True, timeout=60)
        with open(f"{tree}/usr/lib/life/settings", "r+", encoding="utf-8") as file:
            text = file.read()
            assert KEPT_MONTHS in text
            file.seek(0)
            file.write(text.replace(KEPT_MONTHS, LATER_MONTHS))
        subprocess.run(["dpkg-deb", "-Znone", "--build", tree, deb], check=True, capture_output=True, timeout=60)
        shutil.rmtree(tree)


def until(what: Callable[[], object], seconds: int = BUSY) -> bool:
    """Whether something comes true in time."""
    end = time.monotonic() + seconds
    while time.monotonic() < end:
        if what():
            return True
        time.sleep(0.2)
    return bool(what())


def pattern(number: int) -> str:
    return f"#N Pattern {number}\n{GLIDER}"


class Debian(machine.Machine):
    """The machine, and what it has acknowledged and said."""

    def __init__(self, folder: str, tar: str) -> None:
        super().__init__(folder, tar)
        self.ledger: Ledger = {}
        self.outputs: list[str] = []
        self.cursor, self.alone = "", threading.Lock()

    def run(self, *words: str, data: str | None = None, timeout: int = 120) -> Done:
        done = super().run(*words, data=data, timeout=timeout)
        with self.alone:
            self.outputs.append(done.stdout + done.stderr)
        return done

    def shell(self, script: str, timeout: int = 120) -> Done:
        """Commands of root in one shell, each of which has to succeed."""
        done = self.run("bash", "-euc", script, timeout=timeout)
        same(f"{script}: {done.stderr[-300:]}", done.returncode, 0)
        return done

    # -- what is said

    def begin_to_listen(self) -> None:
        """Forgets what was said until now."""
        self.outputs.clear()
        said = self.journal("--lines=0", "--show-cursor")
        self.cursor = said.rpartition("-- cursor: ")[2].strip()

    def journal(self, *words: str) -> str:
        return super().run("journalctl", "--quiet", "--no-pager", *words).stdout

    def heard(self) -> str:
        """All that commands have printed, and the journal, since then."""
        with self.alone:
            outputs = "\n".join(self.outputs)
        return outputs + self.journal("--output=cat", *([f"--after-cursor={self.cursor}"] if self.cursor else []))

    # -- the archive

    def ask(self, requests: list[ledger.Request]) -> list[ledger.Reply]:
        """The replies of the program to some requests."""
        done = super().run(
            "python3",
            "-c",
            ASKING,
            data=json.dumps([[method, path, headers, body.decode()] for method, path, headers, body in requests]),
        )
        return (
            [(status, body.encode()) for status, body in json.loads(done.stdout)]
            if done.returncode == 0
            else [(0, done.stderr.encode())] * len(requests)
        )

    def has_all(self, wanted: Ledger | None = None, tokens: bool = True) -> bool:
        """Whether the program has what the ledger has, and no more."""
        found = ledger.faults(self.ledger if wanted is None else wanted, self.ask, tokens)
        if found:
            print(f"not as in the ledger: {found[:5]}")
        return not found

    def is_served(self) -> bool:
        """Whether the service runs, and nginx shows its newest deposit."""
        return state(self) == "active" and (
            not self.ledger
            or curl(self, f"/deposits/{len(self.ledger)}") == ("200", self.ledger[len(self.ledger)].text.decode())
        )

    def deposit(self, token: str | None = None) -> bool:
        """Deposits the next pattern through nginx; whether it got the next number. It is in the ledger then."""
        number = len(self.ledger) + 1
        answer = deposited(self, number, token)
        if answer == ("201", deposit_body(number).decode()):
            self.ledger[number] = Deposit("ann", token or f"t{number}", pattern(number).encode())
            return True
        print(f"deposit {number}: {answer}")
        return False

    def clients(self, count: int, word: str, most: int = 1000) -> list[subprocess.Popen[str]]:
        """Begins clients that deposit; each prints what was acknowledged, up to its end."""
        words = ["python3", "-c", DEPOSITING]
        return [
            subprocess.Popen(
                [*self.entering(), *words, f"member-{client}", f"127.0.1.{client + 1}", word, str(most), GLIDER],
                stdout=subprocess.PIPE,
                stderr=subprocess.DEVNULL,
                text=True,
            )
            for client in range(count)
        ]

    def acknowledged(self, running: list[subprocess.Popen[str]]) -> int:
        """Waits for the ends of such clients, puts into the ledger what they got, and says how much that was."""
        lines = [
            line for client in running for line in client.communicate(timeout=120)[0].splitlines() if line.endswith("]")
        ]
        for line in lines:
            number, *content = json.loads(line)
            check(f"number {number} is given once", number not in self.ledger)
            self.ledger[number] = Deposit(content[0], content[1], content[2].encode())
        return len(lines)


def curl(debian: Debian, path: str, *words: str, data: str | None = None) -> tuple[str, str]:
    """The status and the body of a reply through nginx."""
    done = debian.run("curl", "-s", "-m", "60", "-w", "\n%{http_code}", *words, f"http://localhost{path}", data=data)
    body, _, status = done.stdout.rpartition("\n")
    return status, body


def deposited(debian: Debian, number: int, token: str | None = None) -> tuple[str, str]:
    """What is answered for a deposit through nginx, as a member sends it."""
    words = ["-H", "x-member: ann", "-H", f"x-token: {token or f't{number}'}", "--data-binary", "@-"]
    return curl(debian, "/deposits", *words, data=pattern(number))


def change_settings(debian: Debian, **settings: str | int) -> None:
    path = debian.path(SETTINGS)
    with open(path, encoding="utf-8") as file:
        text = file.read()
    for name, value in settings.items():
        text = re.sub(rf"(?m)^{name}=.*$", f"{name}={value}", text)
    with open(path, "w", encoding="utf-8") as file:
        file.write(text)


def configured(debian: Debian, **settings: str | int) -> Done:
    """Changes settings, and has life-configure bring them to their places. What it did."""
    change_settings(debian, **settings)
    return debian.run("life-configure")


def text_of(debian: Debian, path: str) -> str:
    """The text of a file of the machine, or nothing if it is not there."""
    if not os.path.exists(debian.path(path)):
        return ""
    with open(debian.path(path), encoding="utf-8", errors="replace") as file:
        return file.read()


def state(debian: Debian, unit: str = "life.service") -> str:
    return debian.run("systemctl", "is-active", unit).stdout.strip()


def main_process(debian: Debian, unit: str = "life.service") -> str:
    return debian.run("systemctl", "show", "--property=MainPID", "--value", unit).stdout.strip()


def status_of(debian: Debian, unit: str = "life.service") -> str:
    return debian.run("systemctl", "status", "--no-pager", "--full", "--lines=30", unit).stdout


def said_of(debian: Debian, what: str) -> int:
    """How often the journal has a critical line with these words: there is no sendmail then."""
    return debian.run(
        "journalctl", "--quiet", "--no-pager", "--output=cat", "--priority=crit", "--identifier=life-alarm"
    ).stdout.count(what)


def alarms(debian: Debian, unit: str) -> int:
    return said_of(debian, f": {unit} failed")


def over(debian: Debian, unit: str) -> int:
    """How often an alarm said that a unit has recovered."""
    return said_of(debian, f": {unit} has recovered")


def copies(debian: Debian) -> list[str]:
    return sorted(
        name for name in os.listdir(debian.path(COPIES)) if re.fullmatch(r"club-\d{4}-\d\d-\d\dT\d{4}\.db", name)
    )


def packages_of(version: str) -> list[str]:
    return [f"/srv/{name}" for name in (f"life_{version}_amd64.deb", f"life-gateway_{version}_all.deb")]


def installed(debian: Debian, version: str, *words: str) -> Done:
    """Installs the packages of a version, without a terminal: a question fails."""
    command = ["apt-get", "install", "--yes", "--no-install-recommends", *words, *packages_of(version)]
    return debian.run(*command, data="", timeout=300)


def sums(path: str) -> str:
    """The SHA-256 of a file of this system."""
    return subprocess.run(["sha256sum", path], capture_output=True, text=True, check=True, timeout=60).stdout.split()[0]
