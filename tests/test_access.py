"""How clients reach the gateway of deploy/: members with passwords, TLS and plain HTTP, by IPv4 and IPv6, deposits that
were withdrawn, and the members' scripts with its limits as they are. Each test starts a gateway of its own, as
deploy/try runs it.

The members' scripts wait more than they work, so they can run beside everything else: `pytest -n 2 --dist loadgroup`.
"""
import base64
import concurrent.futures
import http.client
import os
import re
import shutil
import sqlite3
import ssl
import subprocess
import time
from collections.abc import Callable

import pytest

from clients import GLIDER, certify, check, free_port, same
from gateways import DEPLOY, Gateway, Reply, address, asked, listed, log, missing, pattern, requests
from withdrawals import withdrawals

# These gateways begin at the port of those of tests/test_gateway.py, so one process runs both files, except for
# test_scripts.
pytestmark = [pytest.mark.full, pytest.mark.xdist_group("gateway")]

FIRST_PORT = 9500
SCRIPTS = os.path.join(DEPLOY, "..", "examples", "scripts")
# What OPERATING says to set for a class.
CLASS = ["CENSUSES=60r/m", "CENSUSES_AT_ONCE=30", "SLOW_CONNECTIONS=30"]


@pytest.fixture(scope="session")
def servers(program: str) -> None:
    """nginx and HAProxy, for the tests that start a gateway of their own."""
    if gone := missing():
        pytest.skip(f"{' and '.join(gone)} not installed")


def script(name: str, *words: str, home: str) -> tuple[tuple[int, str, str], float]:
    """The status of a member's script, what it prints on its two streams, and how long it took. `home` is the member's
    own folder."""
    begun = time.monotonic()
    own = os.environ | {"HOME": home, "XDG_STATE_HOME": os.path.join(home, "state")}
    done = subprocess.run([os.path.join(SCRIPTS, name), *words], capture_output=True, text=True, timeout=300, env=own)
    return (done.returncode, done.stdout, done.stderr), time.monotonic() - begun


def sent_lines(gateway: Gateway) -> int:
    """How many requests of POST nginx has in its log, which it writes each second."""
    return sum(line["request"].startswith("POST /") for line in requests(gateway))


def new_patterns(folder: str, name: str, count: int) -> tuple[str, Callable[[int], str]]:
    """A folder with this many different files, and how the script names them from a number on."""
    where = os.path.join(folder, name)
    os.mkdir(where)
    for turn in range(count):
        with open(os.path.join(where, f"{turn:02}.rle"), "wb") as file:
            file.write(pattern(name, turn))
    return where, lambda first: "".join(f"{first + turn}\t{where}/{turn:02}.rle\n" for turn in range(count))


# ---- passwords


def scripts_with_passwords(gateway: Gateway, folder: str) -> None:
    """The members' scripts take the password from .netrc, and one that is in the URL is written down nowhere."""
    home = os.path.join(folder, "ann")
    os.mkdir(home)
    where, kept = new_patterns(folder, "secret", 2)
    url = f"http://127.0.0.1:{gateway.port}"
    wanted = "password: the club knows its members by passwords; write yours into ~/.netrc\n"
    same(
        "a folder without a password",
        script("put-folder", url, "ann", where, home=home)[0],
        (1, "", "put-folder: " + wanted),
    )
    with open(os.path.join(home, ".netrc"), "w", encoding="utf-8") as file:
        file.write("machine 127.0.0.1 login ann password of-ann\n")
    same("a folder with a password in .netrc", script("put-folder", url, "ann", where, home=home)[0], (0, kept(2), ""))
    # A list may be two seconds old.
    time.sleep(2.1)
    same(
        "censuses with a password in .netrc",
        script("census-all", url, "ann", "0", "4", home=home)[0],
        (0, "1\t2\n2\t3\n3\t4\n", ""),
    )
    os.remove(os.path.join(home, ".netrc"))
    with_password = url.replace("//", "//ann:of-ann@")
    with open(os.path.join(where, "02.rle"), "wb") as file:
        file.write(pattern("secret", 2))
    same(
        "a folder with a password in the URL",
        script("put-folder", with_password, "ann", where, home=home)[0],
        (0, kept(2) + f"4\t{where}/02.rle\n", ""),
    )
    with open(os.path.join(home, "state", "life", "kept"), encoding="utf-8") as file:
        record = file.read()
    check("no password is in the record", record.count("\n") == 6 and "of-ann" not in record)


def long_searches(gateway: Gateway) -> None:
    """With passwords a search for a period above 256 is for members, however its limit is written, and comes from the
    cache for them alone."""
    good = {"authorization": "Basic " + base64.b64encode(b"ann:of-ann").decode()}
    for path, alone, with_password in (
        ("/deposits/1/kind/256", 200, 200),
        ("/deposits/1/kind/257", 401, 200),
        ("/deposits/1/kind/257", 401, 200),
        ("/deposits/1/kind/2048", 401, 200),
        ("/deposits/1/kind/0256", 200, 200),
        ("/deposits/1/kind/02048", 401, 200),
        ("/deposits/1/at/2048", 200, 200),
        ("/objects/B3S23/xs4_33/256", 200, 200),
        ("/objects/B3S23/xs4_33/300", 401, 200),
        ("/objects/B3S23/xs4_33/9999", 401, 400),
        ("/objects/B3S23/~/999", 401, 422),
        ("/deposits/1/kind/0000", 400, 400),
    ):
        found = asked(gateway.port, 0, "GET", path)[0], asked(gateway.port, 0, "GET", path, headers=good)[0]
        same(f"{path} without a password and with one: {found}", found, (alone, with_password))


def guesses(gateway: Gateway) -> None:
    """Of wrong passwords at a long search one a second is tried, and each is in the log with its name."""
    wrong = {"authorization": "Basic " + base64.b64encode(b"eve:a-guess").decode()}
    begun = time.monotonic()
    statuses = [
        asked(gateway.port, 301, "GET", f"/deposits/1/kind/{300 + turn}", headers=wrong)[0] for turn in range(60)
    ]
    took = time.monotonic() - begun
    tried = statuses.count(401)
    check(
        f"of 60 guesses {tried} are tried in {took:.1f} s",
        20 <= tried <= 22 + took and tried + statuses.count(429) == 60,
    )
    names = [line["member"] for line in requests(gateway) if (line["address"], line["status"]) == (address(301), 401)]
    same("each of them is in the log", names, ["eve"] * tried)


def test_members(servers: None, folder: str) -> None:
    """With a file of members the name whose password came is the member, whatever a request says."""
    passwords = os.path.join(folder, "members")
    with open(passwords, "w", encoding="utf-8") as file:
        file.write("ann:{PLAIN}of-ann\n")
    gateway = Gateway(os.path.join(folder, "members.db"), FIRST_PORT, f"MEMBERS_FILE={passwords}", "READS_LOGGED=100%")
    try:
        for password, wanted in [(None, 401), ("of-bob", 401), ("of-ann", 201)]:
            words = {"x-member": "bob", "x-token": "t1"}
            if password:
                words["authorization"] = "Basic " + base64.b64encode(f"ann:{password}".encode()).decode()
            same(
                f"a deposit with the password {password}",
                asked(gateway.port, 0, "POST", "/deposits", GLIDER, words)[0],
                wanted,
            )
            same(
                f"a census with the password {password}",
                asked(gateway.port, 0, "POST", "/deposits/1/censuses/0/4", headers=words)[0],
                wanted,
            )
        same("the member is the one with the password", [row["member"] for row in listed(gateway.life_port)], ["ann"])
        status, _, head = asked(gateway.port, 0, "GET", "/deposits/1")
        same("anybody reads", (status, head.get("access-control-allow-origin")), (200, None))
        long_searches(gateway)
        guesses(gateway)
        claimed = {"x-member": "bob", "authorization": "Basic " + base64.b64encode(b"bob:of-bob").decode()}
        same(
            "a read with a password that nobody asks for",
            asked(gateway.port, 0, "GET", "/deposits/1", headers=claimed)[0],
            200,
        )
        lines = [
            (line["member"], line["request"].removesuffix(" HTTP/1.1"), line["status"]) for line in requests(gateway)
        ]
        for line in (
            ("ann", "POST /deposits", 201),
            ("ann", "POST /deposits/1/censuses/0/4", 201),
            ("ann", "POST /deposits", 401),
            ("", "POST /deposits", 401),
            ("", "GET /deposits/1", 200),
        ):
            check(f"the log has {line}", line in lines)
        check(
            "no log has a name that was only claimed",
            not any(
                "bob" in line for name in ("access.log", "error.log", "haproxy.out") for line in log(gateway, name)
            ),
        )
        scripts_with_passwords(gateway, folder)
    finally:
        gateway.end()


# ---- TLS, IPv6


def challenges(folder: str) -> str:
    """A folder as certbot fills it while a certificate is asked for."""
    acme = os.path.join(folder, "acme")
    os.makedirs(os.path.join(acme, ".well-known", "acme-challenge"), exist_ok=True)
    with open(os.path.join(acme, ".well-known", "acme-challenge", "a-token"), "w", encoding="utf-8") as file:
        file.write("a-token.of-the-account")
    return acme


def head_of(connection: http.client.HTTPConnection, path: str) -> Reply:
    """The status, the body and the header lines of a reply, on a new connection to some address."""
    try:
        connection.request("GET", path)
        reply = connection.getresponse()
        return reply.status, reply.read(), {name.lower(): value for name, value in reply.getheaders()}
    finally:
        connection.close()


def test_over_tls(servers: None, folder: str) -> None:
    """TLS by IPv4 and IPv6. Plain HTTP is sent on to it, but for what a certificate is given for; each reply says that
    https is to be asked."""
    if not shutil.which("openssl"):
        pytest.skip("openssl is not installed")
    cert, key = os.path.join(folder, "cert.pem"), os.path.join(folder, "key.pem")
    certify(cert, key)
    acme = challenges(folder)
    plain, also, plain_also = free_port(), free_port(), free_port()
    gateway = Gateway(
        os.path.join(folder, "tls.db"),
        FIRST_PORT,
        "TLS=yes",
        f"TLS_CERTIFICATE={cert}",
        f"TLS_KEY={key}",
        f"REDIRECT=127.0.0.1:{plain}",
        f"LISTEN_ALSO=[::1]:{also}",
        f"REDIRECT_ALSO=[::1]:{plain_also}",
        f"ACME_FOLDER={acme}",
        "HSTS=1000",
        "READS=1r/m",
        "READS_AT_ONCE=40",
    )
    context = ssl.create_default_context(cafile=cert)
    try:

        def secure(path: str, host: str = "localhost", port: int = gateway.port) -> Reply:
            return head_of(http.client.HTTPSConnection(host, port, timeout=60, context=context), path)

        for path, status in (
            ("/", 200),
            ("/web/none-AAAAAAAA.js", 404),
            ("/nothing", 404),
            ("/deposits/after/0", 200),
            ("/deposits/1", 404),
        ):
            reply = secure(path)
            check(
                f"{path} over TLS", reply[0] == status and reply[2].get("strict-transport-security") == "max-age=1000"
            )
        # (deploy/try asks until it is answered, from the same address.)
        many = [secure("/deposits/after/0") for _ in range(42)]
        same("a refusal over TLS", (many[-1][0], many[-1][2].get("strict-transport-security")), (429, "max-age=1000"))
        for name, port in (("127.0.0.1", plain), ("::1", plain_also)):
            sent_on = head_of(http.client.HTTPConnection(name, port, timeout=60), "/deposits/1")
            check(
                f"plain HTTP at {name} is sent on",
                sent_on[0] == 301
                and sent_on[2]["location"].startswith("https://")
                and sent_on[2]["location"].endswith("/deposits/1"),
            )
            given = head_of(http.client.HTTPConnection(name, port, timeout=60), "/.well-known/acme-challenge/a-token")
            same(f"what a certificate is given for is there at {name}", given[:2], (200, b"a-token.of-the-account"))
            check(
                "and nothing else",
                head_of(http.client.HTTPConnection(name, port, timeout=60), "/.well-known/acme-challenge/../../x")[0]
                in (301, 400, 404),
            )
        context.check_hostname = False
        check(
            "TLS by IPv6",
            secure("/web/none-AAAAAAAA.js", "::1", also)[0] == 404
            and secure("/web/robots.txt", "::1", also)[:2] == secure("/web/robots.txt")[:2],
        )
    finally:
        gateway.end()


def test_both_protocols(servers: None, folder: str) -> None:
    """Without TLS both protocols are answered, with what a certificate is given for, and no reply says that https is to
    be asked."""
    also = free_port()
    gateway = Gateway(
        os.path.join(folder, "both.db"), FIRST_PORT, f"LISTEN_ALSO=[::1]:{also}", f"ACME_FOLDER={challenges(folder)}"
    )
    try:
        for name, port in (("127.0.0.1", gateway.port), ("::1", also)):
            reply = head_of(http.client.HTTPConnection(name, port, timeout=60), "/deposits/after/0")
            check(
                f"the list at {name}",
                reply[:2] == (200, b'{"deposits":[]}') and "strict-transport-security" not in reply[2],
            )
            given = head_of(http.client.HTTPConnection(name, port, timeout=60), "/.well-known/acme-challenge/a-token")
            same(f"what a certificate is given for at {name}", given[:2], (200, b"a-token.of-the-account"))
    finally:
        gateway.end()


# ---- withdrawn deposits


def test_withdrawals(servers: None, folder: str) -> None:
    """The gateway, its cache and the search index without a deposit, by one command; and with it again."""
    withdrawals(folder, FIRST_PORT)


# ---- limits


def pupil(port: int, number: int) -> tuple[int, float]:
    """Requests a census as a web page does, from the address of the class: how often, and after how many seconds it was
    answered."""
    begun, tries = time.monotonic(), 0
    while True:
        tries += 1
        headers = {"x-member": f"pupil-{number}", "x-token": "t1"}
        status, _, lines = asked(port, 9, "POST", f"/deposits/{number}/censuses/0/4", None, headers)
        if status != 429 or tries > 60:
            same(f"the census of pupil {number}", status, 201)
            return tries, time.monotonic() - begun
        check(f"when it may be sent again: {lines}", lines["retry-after"] in ("1", "5"))
        time.sleep(int(lines["retry-after"]))


def school(folder: str, pupils: int, *settings: str) -> list[tuple[int, float]]:
    """A class behind one address: each pupil's tries and seconds, if all request a census at once."""
    gateway = Gateway(os.path.join(folder, f"class-{pupils}.db"), FIRST_PORT + 200, *settings, seconds=300)
    try:
        for number in range(1, pupils + 1):
            headers = {"x-member": f"pupil-{number}", "x-token": "t1"}
            same("a deposit", asked(gateway.port, number, "POST", "/deposits", pattern("c", number), headers)[0], 201)
        with concurrent.futures.ThreadPoolExecutor(pupils) as pool:
            return sorted(pool.map(lambda number: pupil(gateway.port, number), range(1, pupils + 1)))
    finally:
        gateway.end()


@pytest.mark.xdist_group("scripts")
def test_class(servers: None, folder: str) -> None:
    """With the usual settings 6 pupils are answered at once, then one every five seconds. With those for a class, all
    30 are."""
    found = school(folder, 10)
    same("pupils that are answered at once", [tries for tries, _ in found[:6]], [1] * 6)
    check(f"the others, one after the other: {found[6:]}", [round(took / 5) for _, took in found[6:]] == [1, 2, 3, 4])
    found = school(folder, 30, *CLASS)
    check(f"all at once: {found}", [tries for tries, _ in found] == [1] * 30 and found[-1][1] < 8)


@pytest.mark.xdist_group("scripts")
def test_scripts(servers: None, folder: str) -> None:
    """The members' scripts over a gateway with its limits as they are: one call does all, and a second one sends
    nothing and changes nothing."""
    home, database = os.path.join(folder, "home"), os.path.join(folder, "scripts.db")
    os.mkdir(home)
    few, few_kept = new_patterns(folder, "few", 20)
    many, many_kept = new_patterns(folder, "many", 72)
    gateway = Gateway(database, FIRST_PORT + 100, seconds=600)
    url = f"http://127.0.0.1:{gateway.port}"
    counted = "".join(f"{number}\t{number}\n" for number in range(1, 21))
    try:
        same("a folder within the limits", script("put-folder", url, "ann", few, home=home)[0], (0, few_kept(1), ""))
        # A list may be two seconds old.
        time.sleep(2.1)
        (status, printed, said), took = script("census-all", url, "ann", "0", "4", home=home)
        check(f"a census of each of 20 deposits in {took:.0f} s", (status, printed) == (0, counted) and took > 60)
        lines = said.splitlines()
        check(
            "it says how far it is",
            2 <= len(lines) <= 4
            and all(
                re.fullmatch("census-all: waiting, since the server limits requests; [0-9]+ of 20 done", line)
                for line in lines
            ),
        )
        before = sent_lines(gateway)
        result, took = script("census-all", url, "ann", "0", "4", home=home)
        check(f"the same again in {took:.1f} s", result == (0, counted, "") and took < 60)
        same("no census is asked for again", sent_lines(gateway), before)
        (status, printed, said), took = script("put-folder", url, "ann", many, home=home)
        check(f"a folder of 72 files in {took:.0f} s", (status, printed) == (0, many_kept(21)) and took > 9)
        same("72 files are kept", [row["id"] for row in listed(gateway.life_port)], list(range(1, 93)))
        before = sent_lines(gateway)
        result, took = script("put-folder", url, "ann", many, home=home)
        same(f"the same folder again in {took:.1f} s", result, (0, many_kept(21), ""))
        same("no file is sent again", sent_lines(gateway), before)
        same("nothing has changed", [row["id"] for row in listed(gateway.life_port)], list(range(1, 93)))
    finally:
        gateway.end()
    archive = sqlite3.connect(database)
    same(
        "each census of a script is there once",
        archive.execute("SELECT deposit, gens, lim FROM censuses ORDER BY id").fetchall(),
        [(n, 0, 4) for n in range(1, 21)],
    )
    archive.close()
