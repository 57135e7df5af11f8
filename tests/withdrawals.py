"""The part of tests/test_access.py on deploy/life-withdraw, behind deploy/try, with stand-ins for life-configure and
systemctl.
"""
import getpass
import json
import os
import random
import signal
import stat
import subprocess
import time

from archives import Entry, fill, new_archive
from clients import check, same
from gateways import DEPLOY, Gateway, Reply, asked

# Does what life-configure does, for deploy/try.
CONFIGURE = """#!/bin/bash
mapfile -t settings < "{folder}/settings"
"{deploy}/configure" "{folder}/again" "${{settings[@]}}" && cp "{folder}/again/life-site.conf" "{folder}" || exit 1
kill -HUP "$(cat "{folder}/nginx.pid")"
wanted=$(sed -n "s/.*return 200 '\\([0-9a-f]*\\)'.*/\\1/p" "{folder}/life-site.conf")
until [ "$(curl -s "http://127.0.0.1:{port}/.life-configured")" = "$wanted" ]; do sleep 0.1; done
"""
SYSTEMCTL = """#!/bin/sh
[ "$1" != start ] || exec "{deploy}/life-index" --withdrawn "{folder}/withdrawn" "{folder}/copy.db" "{folder}/index"
"""
GONE = b'{"error":"withdrawn"}'
NUMBER = 2
# The routes and the pages of the deposit. The program reads a number with zeros before it as the same number.
ROUTES = ["", "/at/1", "/kind/4", "/none", "/"]


class Site:
    """A gateway with three deposits, and the scripts of its administrator."""

    def __init__(self, folder: str, first_port: int) -> None:
        scripts = os.path.join(folder, "scripts")
        self.gateway = Gateway(
            os.path.join(folder, "withdrawn.db"),
            first_port,
            f"LIFE_USER={getpass.getuser()}",
            f"SCRIPTS={scripts}",
            seconds=900,
        )
        self.folder, self.port = self.gateway.folder, self.gateway.port
        self.names = {"folder": self.folder, "deploy": DEPLOY, "port": self.port}
        self.configure, self.list = os.path.join(scripts, "life-configure"), os.path.join(self.folder, "withdrawn")
        self.stand_in(self.configure, CONFIGURE.format(**self.names))
        self.stand_in(os.path.join(folder, "bin", "systemctl"), SYSTEMCTL.format(**self.names))
        self.path = f"{folder}/bin:{os.environ['PATH']}"
        self.entries = [Entry(number, random.Random(number)) for number in range(1, 4)]
        for number, entry in enumerate(self.entries, 1):
            entry.name, entry.rule, entry.width, entry.height = f"Call {number}{number}5", "B3/S23", 3, 3
            entry.file = f"#N {entry.name}\nx = 3, y = 3, rule = B3/S23\nbo$2bo$3o!\n".encode()
        database = new_archive(os.path.join(self.folder, "copy.db"))
        fill(database, self.entries, 1)
        database.close()
        for number, entry in enumerate(self.entries, 1):
            headers = {"x-member": "ann", "x-token": f"d{number}"}
            same("a deposit", asked(self.port, 7, "POST", "/deposits", entry.file, headers)[0], 201)
        same("a census", self.asked(f"/deposits/{NUMBER}/censuses/0/4", "POST")[0], 201)
        subprocess.run([os.path.join(folder, "bin", "systemctl"), "start"], check=True, capture_output=True, timeout=60)

    def stand_in(self, path: str, text: str) -> None:
        os.makedirs(os.path.dirname(path), exist_ok=True)
        with open(path, "w", encoding="utf-8") as file:
            file.write(text)
        os.chmod(path, 0o755)

    def words(self, *words: str) -> list[str]:
        return [os.path.join(DEPLOY, "life-withdraw"), "--settings", os.path.join(self.folder, "settings"), *words]

    def withdraw(self, *words: str) -> tuple[int, list[str], str]:
        """The status of life-withdraw, its lines, and its errors."""
        own = os.environ | {"PATH": self.path}
        done = subprocess.run(self.words(*words), capture_output=True, text=True, timeout=120, env=own, check=False)
        return done.returncode, done.stdout.splitlines(), done.stderr

    def asked(self, path: str, method: str = "GET") -> Reply:
        return asked(self.port, 7, method, path, None, {"x-member": "ann", "x-token": "t1"})

    def title(self, number: int) -> tuple[int, bytes]:
        """The status of a deposit's page, and its title."""
        status, body, _ = self.asked(f"/d/{number}")
        return status, body.partition(b"<title>")[2].partition(b"</title>")[0]

    def cached(self, text: bytes) -> bool:
        """Whether nginx's cache has a text."""
        for folder, _, names in os.walk(os.path.join(self.folder, "web")):
            for name in names:
                with open(os.path.join(folder, name), "rb") as file:
                    if text in file.read():
                        return True
        return False


def is_gone(site: Site) -> None:
    """Each route and each page of the deposit is answered 410, and no other one."""
    for path in [f"/deposits/{zeros}{NUMBER}{route}" for zeros in ("", "00") for route in ROUTES]:
        status, body, headers = site.asked(path)
        same(path, (status, body, headers["cache-control"]), (410, GONE, "no-store"))
    same("a new census", site.asked(f"/deposits/{NUMBER}/censuses/0/4", "POST")[:2], (410, GONE))
    for path in (f"/d/{NUMBER}", f"/D/0{NUMBER}/", f"/d/{NUMBER}/at/3"):
        status, body, headers = site.asked(path)
        check(
            f"{path}: {status}, {headers}",
            (status, headers["content-type"], headers["cache-control"]) == (410, "text/html; charset=utf-8", "no-store")
            and b'<main id="main"' in body
            and b"Call" not in body,
        )
    for path in ("/deposits/1", "/deposits/3", f"/deposits/after/{NUMBER}", f"/d/after/{NUMBER}", "/d/3"):
        same(path, site.asked(path)[0], 200)
    same("a number that begins with the same digit", site.asked(f"/deposits/{NUMBER}0")[0], 404)


def is_left(site: Site) -> None:
    """What no step reaches, as OPERATING says: the row in the list, and the censuses."""
    listed = json.loads(site.asked(f"/deposits/after/{NUMBER - 1}")[1])["deposits"][0]
    same("its row", [listed[name] for name in ("id", "member", "rule")], [NUMBER, "ann", "B3/S23"])
    status, body, _ = site.asked("/censuses/1")
    same("its census", (status, json.loads(body)["deposit"]), (200, NUMBER))


def withdrawn_and_back(site: Site) -> None:
    """A deposit is withdrawn by one command, and taken back by another."""
    for path in (f"/deposits/{NUMBER}", f"/deposits/{NUMBER}/at/0", f"/deposits/{NUMBER}/at/00"):
        same("before", site.asked(path)[0], 200)
    same("the title before", site.title(NUMBER), (200, f"Call 225 · Deposit {NUMBER} · Life archive".encode()))
    check("the cache has it", site.cached(b"Call 225"))
    status, lines, err = site.withdraw(str(NUMBER), "a", "telephone number")
    same(
        "withdrawn",
        (status, lines[:4], err),
        (
            0,
            [
                f"{site.list}: deposit {NUMBER} is now in it",
                f"gateway: answers 410 at /deposits/{NUMBER}, at /d/{NUMBER} and below both",
                "nginx's cache: emptied",
                f"search index: made without deposit {NUMBER}, and so are titles and the feed",
            ],
            "",
        ),
    )
    row = f"its number, member and rule in /deposits/after/{NUMBER - 1}; its censuses"
    check(
        f"what is not reached: {lines[4:]}",
        len(lines) == 5 and lines[4].startswith("not reached: ") and lines[4].endswith(row),
    )
    is_gone(site)
    is_left(site)
    check("the cache no longer has it", not site.cached(b"Call 225"))
    same("the title of another", site.title(3), (200, "Call 335 · Deposit 3 · Life archive".encode()))
    same("the list", site.withdraw(), (0, [f"{NUMBER} a telephone number"], ""))
    same("who can read the list", stat.S_IMODE(os.stat(site.list).st_mode), 0o640)
    same(
        "again, with no other reason",
        (site.withdraw(str(NUMBER))[0], site.withdraw()[1]),
        (0, [f"{NUMBER} a telephone number"]),
    )
    status, lines, err = site.withdraw("--undo", str(NUMBER))
    same("taken back", (status, lines[1], err), (0, f"gateway: answers 200 at /deposits/{NUMBER}", ""))
    same("the title is back", site.title(NUMBER), (200, f"Call 225 · Deposit {NUMBER} · Life archive".encode()))
    same("an empty list", site.withdraw(), (0, [], ""))


def refused(site: Site) -> None:
    """A number without a deposit, and words that are not a number."""
    same("no deposit", site.withdraw("99"), (1, [], "life-withdraw: there is no deposit 99\n"))
    for words in (["0"], ["x"], ["--undo"], ["-1"], ["1" * 16], ["--undo", "2", "why"]):
        same(f"usage: {words}", site.withdraw(*words)[0], 2)
    with open(site.list, "w", encoding="utf-8") as file:
        file.write("# Ours.\nseven\n")
    status, lines, err = site.withdraw("2")
    check(f"a broken list: {err}", (status, lines) == (1, []) and "withdrawn, line 2: not the number" in err)
    os.remove(site.list)


def failed(site: Site) -> None:
    """If one step fails, the others are done, and the same command does the rest."""
    site.stand_in(site.configure, "#!/bin/sh\nexit 1\n")
    status, lines, err = site.withdraw(str(NUMBER))
    check(
        f"a gateway that does not follow: {lines}, {err}",
        status == 1
        and err.startswith(f"life-withdraw: gateway: it still answers 200 at /deposits/{NUMBER}: run life-configure")
        and lines[1:3]
        == [
            "nginx's cache: emptied",
            f"search index: made without deposit {NUMBER}, and so are titles and the feed",
        ],
    )
    same("the title has no name", site.title(NUMBER), (200, f"Deposit {NUMBER} · Life archive".encode()))
    site.stand_in(site.configure, CONFIGURE.format(**site.names))
    same("the same command", site.withdraw(str(NUMBER))[0], 0)
    is_gone(site)
    same("taken back", site.withdraw("--undo", str(NUMBER))[0], 0)


def signalled(site: Site) -> None:
    """A signal ends it after the current step, and the same command does the rest."""
    site.stand_in(site.configure, CONFIGURE.format(**site.names) + ": > begun\nsleep 1\n")
    begun = os.path.join(site.folder, "begun")
    with subprocess.Popen(
        site.words(str(NUMBER)),
        stdout=subprocess.PIPE,
        stderr=subprocess.PIPE,
        text=True,
        cwd=site.folder,
        env=os.environ | {"PATH": site.path},
    ) as process:
        while not os.path.exists(begun) and process.poll() is None:
            time.sleep(0.05)
        process.send_signal(signal.SIGTERM)
        out, err = process.communicate(timeout=60)
    same(
        "its end", (process.returncode, err), (-15, "life-withdraw: ended by SIGTERM; the same command does the rest\n")
    )
    check(f"the step has ended: {out}", "gateway: answers 410" in out and "cache" not in out)
    site.stand_in(site.configure, CONFIGURE.format(**site.names))
    same("the same command", site.withdraw(str(NUMBER))[0], 0)
    is_gone(site)


def withdrawals(folder: str, first_port: int) -> None:
    """All of these, with one gateway."""
    site = Site(folder, first_port)
    try:
        for part in (withdrawn_and_back, refused, failed, signalled):
            part(site)
    finally:
        same("the end of deploy/try", site.gateway.end(), 0)
