"""The real gateway of deploy/: nginx, HAProxy and the archive's program, as deploy/try runs them, with many clients at
once, each with its own address. tests/test_access.py has passwords, TLS and the members' scripts.
"""
import concurrent.futures
import datetime
import http.client
import json
import os
import random
import re
import select
import shutil
import signal
import socket
import sqlite3
import subprocess
import threading
import time
from collections.abc import Callable, Iterator
from typing import Any

import pytest

import clients
import paths
import abuse
from clients import GLIDER, Server, check, exchanged, free_port, message, same
from gateways import BUSY, DEPLOY, Gateway, Reply, address, asked, listed, log, missing, pattern, requests

# One gateway serves most tests, one after the other.
pytestmark = [pytest.mark.full, pytest.mark.xdist_group("gateway")]

FIRST_PORT = 9500
MANY = 200
NO_REPLY = b'{"error":"no-reply"}'
# No head of a message: of another protocol, with a byte that no path has, half a line, a path and a line that are too
# long.
NO_HEADS = [
    b"\x16\x03\x01\x02",
    b'GET /\xff\x01"\\ HTTP/1.1\r\nhost: x\r\n\r\n',
    b"GE\r\n\r\n",
    b"GET /" + b"a" * 40_000 + b" HTTP/1.1\r\nhost: x\r\n\r\n",
    b"GET / HTTP/1.1\r\nhost: x\r\nx: " + b"a" * 40_000 + b"\r\n\r\n",
]
# The members of a line of the log of requests.
LOGGED = {"time", "address", "member", "request", "status", "bytes", "cache", "upstream_seconds", "seconds"}


def sent(port: int, client: int, token: str, body: bytes) -> Reply:
    return asked(port, client, "POST", "/deposits", body, {"x-member": f"member-{client}", "x-token": token})


def sent_until_answered(port: int, client: int, token: str, body: bytes, tries: int = 40) -> int | None:
    """A deposit from a careful member: if no number comes back, it is sent again with its token. Returns the number, or
    None."""
    for _ in range(tries):
        try:
            status, answer, _ = sent(port, client, token, body)
            if status == 201:
                return int(json.loads(answer)["deposit"])
        except (OSError, http.client.HTTPException):
            pass
        time.sleep(0.2)
    return None


def side_by_side(count: int, one: Callable[[int], Any]) -> list[Any]:
    with concurrent.futures.ThreadPoolExecutor(count) as pool:
        return list(pool.map(one, range(count)))


# The number of each deposit that a client was given, by the client and its turn.
Kept = dict[tuple[int, int], int | None]


@pytest.fixture(scope="session")
def servers(program: str) -> None:
    """nginx and HAProxy, for the tests that start a gateway of their own."""
    if gone := missing():
        pytest.skip(f"{' and '.join(gone)} not installed")


@pytest.fixture(scope="module")
def gateway(servers: None, folder: str) -> Iterator[Gateway]:
    """The gateway that most tests share."""
    metrics_port = free_port()
    # The limit of pages is one that a client here does not reach.
    shared = Gateway(
        os.path.join(folder, "club.db"),
        FIRST_PORT,
        f"METRICS_PORT={metrics_port}",
        "READS_LOGGED=100%",
        "PAGES=100r/s",
        "PAGES_AT_ONCE=1000",
        seconds=1200,
    )
    shared.metrics_port = metrics_port
    yield shared
    shared.end()


@pytest.fixture(scope="module")
def kept() -> Kept:
    """What clients were given, in the order of the tests."""
    return {}


@pytest.fixture
def filled(kept: Kept) -> None:
    """Deposits of many clients. A test that reads them is skipped if they were not made."""
    if not kept:
        pytest.skip("it needs the deposits of test_many_clients, which has to run before it")


# ---- the tests


def test_the_beginning(gateway: Gateway) -> None:
    """deploy/try starts all three and says where."""
    check("the gateway begins", gateway.port != 0)


def test_many_clients(gateway: Gateway, kept: Kept) -> None:
    """Many at once deposit, read their deposit and a generation of it: each is answered, and each deposit is there
    once."""

    def one(client: int) -> bool:
        good = []
        for turn in range(3):
            status, answer, _ = sent(gateway.port, client, f"t{turn}", pattern(client, turn))
            number = json.loads(answer).get("deposit")
            kept[client, turn] = number
            shown = asked(gateway.port, client, "GET", f"/deposits/{number}")
            later = asked(gateway.port, client, "GET", f"/deposits/{number}/at/4")
            good.append(
                status == 201
                and shown[:2] == (200, pattern(client, turn))
                and later[:2] == (200, b"x = 3, y = 3, rule = B3/S23\nbo$2bo$3o!\n")
            )
        return good == [True] * 3

    begun = time.monotonic()
    good = sum(side_by_side(MANY, one))
    same(f"{good} of {MANY} clients at once in {time.monotonic() - begun:.1f} s", good, MANY)
    same("each deposit of many clients once", sorted(filter(None, kept.values())), list(range(1, 3 * MANY + 1)))
    same("the list behind many clients", [row["id"] for row in listed(gateway.life_port)], list(range(1, 3 * MANY + 1)))


def test_slow_clients(gateway: Gateway, filled: None) -> None:
    """Clients that are silent, stop in a head, in a small or a large body, drip, or take no reply, thirty of each, hold
    nobody."""
    head = b"POST /deposits HTTP/1.1\r\nhost: x\r\nx-member: slow\r\nx-token: t1\r\ncontent-length: 900000\r\n\r\n"
    begins = [
        b"",
        b"GET /deposits/1 HTTP/1.1\r\nhos",
        head,
        head + b"x = 3",
        message("GET", "/deposits/1", b"", "host: x") * 200,
        head + b" " * 200_000,
    ]
    peers = []
    for number in range(30):
        for kind, begin in enumerate(begins):
            peer = socket.socket()
            peer.setsockopt(socket.SOL_SOCKET, socket.SO_RCVBUF, 4096)
            peer.bind((address(300 + len(begins) * number + kind), 0))
            peer.connect(("127.0.0.1", gateway.port))
            peer.sendall(begin)
            peers.append(peer)
    slowest = 0.0
    answers = []
    for turn in range(20):
        for peer in peers[2 :: len(begins)]:
            peer.sendall(b" ")
        begun = time.monotonic()
        answers.append(asked(gateway.port, 250, "GET", f"/deposits/1/at/{100 + turn}")[0])
        slowest = max(slowest, time.monotonic() - begun)
    for peer in peers:
        peer.close()
    check(
        f"a quick client beside {len(peers)} slow ones waits {slowest:.2f} s", answers == [200] * 20 and slowest < BUSY
    )
    same("slow clients have kept nothing", [row for row in listed(gateway.life_port) if row["member"] == "slow"], [])


def test_half_heads(gateway: Gateway, filled: None) -> None:
    """Some thousand connections of one client with half a head hold nobody up."""
    with abuse.half_heads(gateway.port, "127.2.0.9", 3400) as held:
        slowest, statuses = 0.0, []
        for turn in range(30):
            begun = time.monotonic()
            statuses.append(asked(gateway.port, 270 + turn, "GET", "/deposits/1")[0])
            slowest = max(slowest, time.monotonic() - begun)
    check(
        f"thirty clients beside {held} half heads of one client wait {slowest:.2f} s",
        held > 3000 and statuses == [200] * 30 and slowest < BUSY,
    )


def test_no_room_for_bodies(gateway: Gateway) -> None:
    """A body that nginx can't put anywhere is answered in the gateway's words."""
    bodies = os.path.join(gateway.folder, "web", "body")
    os.rename(bodies, bodies + ".away")
    with open(bodies, "w", encoding="ascii"):
        pass
    try:
        status, body, lines = sent(gateway.port, 252, "away", b"#C " + b"a" * 100_000)
        same("a body that nginx can't write", (status, body, lines["retry-after"]), (503, NO_REPLY, "5"))
    finally:
        os.remove(bodies)
        os.rename(bodies + ".away", bodies)


def test_large_deposits(gateway: Gateway) -> None:
    """A file of 1 MiB is kept, one of a byte more is not."""
    rows = ["".join(random.Random(17 * row).choice("bo") for _ in range(1000)) for row in range(1000)]
    soup = ("x = 1000, y = 1000, rule = B3/S23\n" + "$\n".join(rows) + "!\n").encode()
    largest = soup + b" " * (1_048_576 - len(soup))
    status, answer, _ = sent(gateway.port, 251, "t1", largest)
    number = json.loads(answer).get("deposit")
    same("a deposit of 1 MiB", status, 201)
    shown = asked(gateway.port, 251, "GET", f"/deposits/{number}")
    check(
        "it is shown as the program shows it",
        shown[0] == 200 and shown[1] == asked(gateway.life_port, 251, "GET", f"/deposits/{number}")[1],
    )
    same("the same again has its number", sent(gateway.port, 251, "t1", largest)[:2], (201, answer))
    same(
        "a deposit of a byte more",
        sent(gateway.port, 251, "t2", largest + b" ")[:2],
        (400, b'{"error":"bad-message","refusal":14}'),
    )


def test_kept_pages(gateway: Gateway, filled: None) -> None:
    """A page from the cache is the program's own, byte by byte; what is not there is not kept; lists are renewed."""
    made = asked(gateway.port, 252, "POST", "/deposits/1/censuses/0/4", headers={"x-member": "ann", "x-token": "c1"})
    same("a census", made[:2], (201, b'{"census":1}'))
    again = asked(gateway.port, 252, "POST", "/deposits/1/censuses/0/4", headers={"x-member": "ann", "x-token": "c1"})
    same("the same census again", again[:2], (201, b'{"census":1}'))
    fixed = [path for n, limit in ((0, 4), (2000, 1)) for path in paths.reading("fixed", id=1, n=n, limit=limit)]
    for path in dict.fromkeys(fixed):
        own = asked(gateway.life_port, 252, "GET", path)
        first = asked(gateway.port, 252, "GET", path)
        second = asked(gateway.port, 252, "GET", path + "?again")
        check(f"{path} through the gateway", (200, own[1]) == first[:2] == second[:2])
        check(
            f"{path} comes from the cache",
            second[2].get("x-cache") == "HIT" and "immutable" in second[2]["cache-control"],
        )
        same(f"the type of {path}", second[2]["content-type"].split(";")[0], own[2]["content-type"])
    for path in [
        "/deposits/2000000",
        "/deposits/1/at/2049",
        "/deposits/1/kind/0",
        "/censuses/2000000/csv",
        "/objects/B3S23/xs4_34/2",
        "/deposits/1/at",
        "/censuses/x",
    ]:
        own = asked(gateway.life_port, 252, "GET", path)
        through = [asked(gateway.port, 252, "GET", path) for _ in range(2)]
        check(f"a refusal of {path}", own[0] >= 400 and all(reply[:2] == own[:2] for reply in through))
        check(
            f"a refusal of {path} is not kept",
            all(reply[2].get("x-cache") != "HIT" and reply[2]["cache-control"] == "no-store" for reply in through),
        )
    for status, target in [
        (b"400", b"/deposits/\xff"),
        (b"404", b"/deposits/1#x"),
        (b"422", b"/objects/B3S23/\xc3\xa9/2"),
        (b"404", b"/deposits/%31"),
        (b"404", b"/x/../deposits/1"),
        (b"404", b"//deposits/1"),
    ]:
        answers = [
            exchanged(port, [b"GET " + target + b" HTTP/1.1\r\nhost: x\r\nconnection: close\r\n\r\n"])
            for port in (gateway.life_port, gateway.port)
        ]
        direct, relayed = [(reply.split(b" ")[1], reply.partition(b"\r\n\r\n")[2]) for reply in answers]
        same(f"the target {target!r}", relayed, direct)
        same(f"the status of the target {target!r}", direct[0], status)
    check(
        "no page",
        asked(gateway.port, 252, "GET", "/x")[:2]
        == asked(gateway.life_port, 252, "GET", "/x")[:2]
        == (404, b'{"error":"no-such-page","refusal":12}'),
    )
    last = len(listed(gateway.life_port))
    same("a number that is not given yet", asked(gateway.port, 252, "GET", f"/deposits/{last + 1}")[0], 404)
    same(
        "a list before a deposit",
        asked(gateway.port, 252, "GET", f"/deposits/after/{last}")[:2],
        (200, b'{"deposits":[]}'),
    )
    same("a deposit behind them", sent(gateway.port, 252, "t9", GLIDER)[0], 201)
    same("the number once it is given", asked(gateway.port, 252, "GET", f"/deposits/{last + 1}")[0], 200)
    time.sleep(2.1)
    same(
        "a list renewed",
        [row["id"] for row in json.loads(asked(gateway.port, 252, "GET", f"/deposits/after/{last}")[1])["deposits"]],
        [last + 1],
    )


def test_both_forms(gateway: Gateway, filled: None) -> None:
    """A cache at the edge learns that a reply has a compressed form, from either form."""
    for form in ("identity", "gzip"):
        lines = asked(gateway.port, 252, "GET", "/deposits/after/0", headers={"accept-encoding": form})[2]
        same(
            f"the list as {form}",
            (lines.get("content-encoding", "identity"), lines.get("vary")),
            (form, "Accept-Encoding"),
        )


def test_limits(gateway: Gateway, filled: None) -> None:
    """A client that asks too much is answered 429, and no other."""
    # Some are let through at once, and some in each second, so the share of 1,500 depends on how long they take.
    for client, path, at_once, rate, peers in (
        (263, "/deposits/1", 200, 50, 20),
        (264, "/deposits/1/at/1", 200, 50, 4),
        (265, "/web/robots.txt", 1000, 100, 20),
        (266, "/none", 1000, 100, 20),
    ):
        wanted, begun = 404 if path == "/none" else 200, time.monotonic()
        with concurrent.futures.ThreadPoolExecutor(peers) as pool:
            replies = list(
                pool.map(lambda _, client=client, path=path: asked(gateway.port, client, "GET", path)[:2], range(1500))
            )
        took = time.monotonic() - begun
        good = sum(status == wanted for status, _ in replies)
        check(
            f"{good} of 1,500 requests of {path} by one client in {took:.1f} s",
            at_once <= good <= at_once + 2 + rate * took,
        )
        check(
            "what is answered above it",
            {reply for reply in replies if reply[0] != wanted} <= {(429, b'{"error":"too-many-requests"}')}
            and (good < 1500 or at_once + rate * took >= 1500),
        )
        same("another client beside it", asked(gateway.port, 254, "GET", path)[0], wanted)
    begun = time.monotonic()
    found = side_by_side(80, lambda turn: sent(gateway.port, 253, f"limit-{turn % 40}", pattern(253, turn % 40))[0])
    took = time.monotonic() - begun
    good = found.count(201)
    check(
        f"{good} of 80 deposits of one client in {took:.1f} s",
        20 <= good <= 22 + 5 * took and good + found.count(429) == 80,
    )
    check(
        "a deposit that was over the limit comes later",
        sent_until_answered(gateway.port, 253, "limit-39", pattern(253, 39)) is not None,
    )


def test_floods(gateway: Gateway, filled: None) -> None:
    """Of a client that asks far too much the logs have what it was given, and a trace of the 429 that it got
    besides."""
    each, threads, client = 1500, 4, 257
    before = [len(log(gateway, name)) for name in ("access.log", "error.log")]

    def asking(_: int) -> list[int]:
        connection = http.client.HTTPConnection(
            "127.0.0.1", gateway.port, timeout=60, source_address=(address(client), 0)
        )
        found = []
        for _ in range(each):
            connection.request("GET", "/deposits/1")
            reply = connection.getresponse()
            reply.read()
            found.append(reply.status)
        connection.close()
        return found

    statuses = [status for found in side_by_side(threads, asking) for status in found]
    good, many = statuses.count(200), statuses.count(429)
    check(
        f"a flood of {len(statuses)} reads: {good} are answered",
        good + many == len(statuses) and many > len(statuses) // 2,
    )
    lines, errors = requests(gateway)[before[0] :], log(gateway, "error.log")[before[1] :]
    own = [line["status"] for line in lines if line["address"] == address(client)]
    same("what was answered is in the log", own.count(200), good)
    traces = own.count(429)
    check(
        f"of {many} that were refused {traces} lines are in the log", traces < many // 100 and traces + good == len(own)
    )
    same(f"a flood leaves {len(errors)} lines in the log of errors", errors, [])


def test_many_connections(gateway: Gateway, filled: None) -> None:
    """A client with too many connections at once is no line in the log of errors either."""
    before = len(log(gateway, "error.log"))
    peers = []
    for _ in range(130):
        peers.append(
            socket.create_connection(("127.0.0.1", gateway.port), timeout=60, source_address=(address(258), 0))
        )
        peers[-1].sendall(b"POST /deposits/1 HTTP/1.1\r\nhost: x\r\ncontent-length: 1000\r\n\r\nx")
    refused: set[socket.socket] = set()
    until = time.monotonic() + BUSY
    while len(refused) < 30 and time.monotonic() < until:
        waiting = [peer for peer in peers if peer not in refused]
        refused.update(peer for peer in select.select(waiting, [], [], 1)[0] if b" 429 " in peer.recv(4096))
    for peer in peers:
        peer.close()
    same(f"of 130 connections at once {len(refused)} are refused", len(refused), 30)
    errors = log(gateway, "error.log")[before:]
    same(f"they leave {len(errors)} lines in the log of errors", errors, [])
    claimed = [
        line
        for line in requests(gateway)
        if line["member"] == "member-253" and line["request"].startswith("POST /deposits ")
    ]
    check("without passwords the log has the name that was claimed", claimed != [])


def test_logged(gateway: Gateway, filled: None) -> None:
    """The fields of a line in the log of requests, even for malformed requests."""
    before, begun, client = len(log(gateway, "access.log")), time.time(), 259
    for _ in range(2):
        body = asked(gateway.port, client, "GET", "/deposits/1/kind/7")[1]
    asked(gateway.port, client, "GET", '/deposits/x"y\\z')
    asked(gateway.port, client, "GET", "/deposits/1/" + "z" * 1000)
    asked(gateway.port, client, "GET", "/nowhere")
    for odd in (
        b"GET /deposits/1\r\n",
        b'POST /deposits HTTP/1.1\r\nhost: x\r\nx-member: "a\\\r\ncontent-length: 0\r\n\r\n',
        *NO_HEADS,
    ):
        exchanged(gateway.port, [odd])
    lines = requests(gateway)[before:]
    check(f"{len(lines)} lines of the log are objects", len(lines) >= 5 and all(set(line) == LOGGED for line in lines))
    own = [line for line in lines if line["address"] == address(client)]
    first, second, third, fourth = own
    same(
        "a request in the log",
        (first["request"], first["status"], first["bytes"], first["member"]),
        ("GET /deposits/1/kind/7 HTTP/1.1", 200, len(body), ""),
    )
    check("its time, in ISO 8601", abs(datetime.datetime.fromisoformat(first["time"]).timestamp() - begun) < BUSY)
    same("whether the cache had it", (first["cache"], second["cache"]), ("MISS", "HIT"))
    check(
        "how long the program and all of it took",
        0 <= float(first["upstream_seconds"]) <= first["seconds"] + 0.01 and second["upstream_seconds"] == "",
    )
    same("a request with marks of JSON", (third["request"], third["status"]), ('GET /deposits/x"y\\z HTTP/1.1', 404))
    same("a long request is cut", fourth["request"], "GET /deposits/1/" + "z" * 284)
    check("a member with marks of JSON", any(line["member"] == '"a\\' for line in lines))


def test_links(gateway: Gateway, folder: str) -> None:
    """What the archive's user links to in the folder of the index is not given out."""
    secret, index = os.path.join(folder, "not-for-all"), os.path.join(gateway.folder, "index")
    os.makedirs(index, exist_ok=True)
    for path in (secret, os.path.join(index, "index.json")):
        with open(path, "w", encoding="utf-8") as file:
            file.write("{}")
    os.symlink(secret, os.path.join(index, "feed.xml"))
    same("a file of the index", asked(gateway.port, 262, "GET", "/index/index.json")[:2], (200, b"{}"))
    same(
        "a link in its folder",
        asked(gateway.port, 262, "GET", "/index/feed.xml")[:2],
        (404, b'{"error":"no-such-page","refusal":12}'),
    )
    with open(secret, "w", encoding="utf-8") as file:
        file.write("4 Secret\n")
    names = os.path.join(index, "names-0.txt")
    shutil.copy(secret, names)
    check("a name in a title", b"<title>Secret \xc2\xb7 Deposit 4 " in asked(gateway.port, 262, "GET", "/d/4")[1])
    os.remove(names)
    os.symlink(secret, names)
    check("no name through a link", b"<title>Deposit 4 " in asked(gateway.port, 262, "GET", "/d/4")[1])
    for name in ("feed.xml", "index.json", "names-0.txt"):
        os.remove(os.path.join(index, name))


def test_no_heads(gateway: Gateway) -> None:
    """A malformed request, or one that is too long, gets the program's reply, and leaves no line in the log of
    errors."""
    before = len(log(gateway, "error.log"))
    for head in NO_HEADS:
        reply = exchanged(gateway.port, [head])
        check(
            f"the head {head[:20]!r} of {len(head)} bytes",
            reply.startswith(b"HTTP/1.1 400 ") and reply.endswith(b'\r\n\r\n{"error":"bad-message","refusal":14}'),
        )
    for head, status in (
        (b"TRACE / HTTP/1.1\r\nhost: x\r\n\r\n", b"405"),
        (b"POST /deposits HTTP/1.1\r\nhost: x\r\ntransfer-encoding: xchunked\r\n\r\n", b"501"),
    ):
        reply = exchanged(gateway.port, [head])
        check(f"{head[:20]!r} gets a page of nginx", reply.split(b" ")[1] == status and b"<center>nginx" in reply)
    errors = log(gateway, "error.log")[before:]
    same(f"malformed heads leave {errors} in the log of errors", errors, [])
    same(
        "the words of a bad head are no page",
        asked(gateway.port, 262, "GET", "/.bad-message")[:2],
        (404, b'{"error":"no-such-page","refusal":12}'),
    )


def test_numbers_for_prometheus(gateway: Gateway) -> None:
    """HAProxy's numbers are at the port of the setting alone, and count requests; nginx does not give them out."""

    def count() -> int | None:
        status, text, _ = asked(gateway.metrics_port, 0, "GET", "/metrics")
        found = re.search(rb'(?m)^haproxy_backend_http_requests_total\{proxy="archive"\} ([0-9]+)', text)
        return int(found[1]) if status == 200 and found else None

    before = count()
    for turn in range(3):
        asked(gateway.port, 261, "GET", f"/deposits/{3_000_000 + turn}")
    check(f"HAProxy counts three requests more than {before}", before is not None and count() == before + 3)
    same("nothing else is at its port", asked(gateway.metrics_port, 0, "GET", "/")[0], 404)
    same(
        "nginx gives no numbers out",
        asked(gateway.port, 0, "GET", "/metrics")[:2],
        (404, b'{"error":"no-such-page","refusal":12}'),
    )


def test_kills(gateway: Gateway, kept: Kept, filled: None) -> None:
    """The program is killed under a load of deposits; members who got no number send again. Nothing is lost, and
    nothing is kept twice."""
    killed = []
    over = threading.Event()

    def killing() -> None:
        for _ in range(5):
            until = time.monotonic() + BUSY
            enough = len(kept) + 20
            while len(kept) < enough and time.monotonic() < until:
                time.sleep(0.02)
            killed.append(len(kept))
            gateway.kill()
        over.set()

    def lost(client: int, turn: int) -> None:
        """Sends a deposit and goes away without its reply."""
        with socket.create_connection(
            ("127.0.0.1", gateway.port), timeout=60, source_address=(address(client), 0)
        ) as peer:
            peer.sendall(
                message(
                    "POST",
                    "/deposits",
                    pattern(client, turn),
                    "host: x",
                    f"x-member: member-{client}",
                    f"x-token: t{turn}",
                )
            )

    def one(client: int) -> None:
        for turn in range(10, 100):
            if over.is_set():
                return
            if (client + turn) % 4 == 0:
                lost(client, turn)
            kept[client, turn] = sent_until_answered(gateway.port, client, f"t{turn}", pattern(client, turn))

    killer = threading.Thread(target=killing)
    killer.start()
    before = len(kept)
    side_by_side(40, one)
    killer.join()
    check(
        f"kills between {before} and {len(kept)} deposits: {killed}",
        all(a < b for a, b in zip([before, *killed], killed)),
    )
    check("each deposit beside kills is answered", None not in kept.values())
    same("each has a number of its own", len(set(kept.values())), len(kept))
    good = sum(
        asked(gateway.life_port, 0, "GET", f"/deposits/{number}")[1] == pattern(*which)
        for which, number in kept.items()
    )
    same(f"{good} of {len(kept)} deposits are shown behind the kills", good, len(kept))


def test_copies(gateway: Gateway, kept: Kept, filled: None, folder: str) -> None:
    """A copy of the archive while it is served and written is an archive, and has all that was answered before it was
    begun."""
    over = threading.Event()
    writing = threading.Thread(
        target=lambda: [
            sent(gateway.port, 260 + turn % 40, f"copy-{turn}", pattern(260, turn))
            for turn in range(2000)
            if not over.is_set()
        ]
    )
    writing.start()
    for turn in range(3):
        copy = os.path.join(folder, f"copy-{turn}.db")
        before = max(row["id"] for row in listed(gateway.life_port))
        done = subprocess.run(
            [os.path.join(DEPLOY, "life-copy"), os.path.join(folder, "club.db"), copy], capture_output=True, timeout=60
        )
        same(f"a copy beside deposits: {done.stderr.decode().strip()}", done.returncode, 0)
        check("a copy is one file", not os.path.exists(copy + "-wal"))
        with Server(copy, 100) as server:
            rows = listed(server.port)
            check(
                f"a copy has all {before} deposits",
                [row["id"] for row in rows] == list(range(1, len(rows) + 1)) and len(rows) >= before,
            )
            same(
                "a copy shows what was kept",
                asked(server.port, 0, "GET", f"/deposits/{kept[0, 10]}")[1],
                pattern(0, 10),
            )
    over.set()
    writing.join()
    again = subprocess.run(
        [os.path.join(DEPLOY, "life-copy"), os.path.join(folder, "club.db"), copy], capture_output=True, timeout=60
    )
    check(
        "a later copy, beside the log of whoever looked at the last one", again.returncode == 0 and again.stderr == b""
    )


def seeds() -> bytes:
    """A file of a thousand seeds that mostly grow for ever, under a rule in which no law says so: each is followed to
    the limit, which takes minutes."""
    chance, rows = random.Random(19), [["b"] * 1024 for _ in range(1024)]
    for number in range(1000):
        for place in range(16):
            rows[16 * (number // 64) + place // 4][16 * (number % 64) + place % 4] = chance.choice("bo")
    return (
        "x = 1024, y = 1024, rule = B34/S2345\n" + "$\n".join("".join(row).rstrip("b") for row in rows) + "!\n"
    ).encode()


def test_long_requests(gateway: Gateway, filled: None, folder: str) -> None:
    """A census or a kind that takes long is ended by the watch, is not sent again, and others are served after it. No
    kind takes long enough on every machine, so while one is asked for, a signal suspends the program."""
    number = json.loads(sent(gateway.port, 255, "seeds", seeds())[1])["deposit"]
    mark = os.path.join(folder, "watched")
    watch = [os.path.join(DEPLOY, "life-watch"), str(gateway.life_port), "1", "touch", mark]
    check(
        "the watch over an idle program",
        subprocess.run(watch, capture_output=True, timeout=30).returncode == 0 and not os.path.exists(mark),
    )
    for method, path in (("POST", f"/deposits/{number}/censuses/0/2048"), ("GET", f"/deposits/{number}/kind/2048")):
        lives = len(gateway.lives)
        answer: list[Reply] = []
        if method == "GET":
            os.kill(gateway.lives[-1], signal.SIGSTOP)
        asking = threading.Thread(
            target=lambda answer=answer, method=method, path=path: answer.append(
                asked(gateway.port, 255, method, path, headers={"x-member": "ann", "x-token": "long"})
            )
        )
        asking.start()
        time.sleep(1)
        check(
            f"the watch over a program at {path}",
            subprocess.run(watch, capture_output=True, timeout=30).returncode == 0 and os.path.exists(mark),
        )
        os.remove(mark)
        begun = time.monotonic()
        gateway.kill()
        reply = asked(gateway.port, 256, "GET", f"/deposits/1/at/{1999 - lives}")
        waited = time.monotonic() - begun
        asking.join()
        check(f"a reader behind {path} that was ended waits {waited:.1f} s", reply[0] == 200 and waited < BUSY)
        check(f"{path} has no reply", answer[0][0] in (502, 503) and answer[0][1] == NO_REPLY)
    same(
        "no census was kept",
        asked(gateway.life_port, 255, "GET", "/censuses/2")[:2],
        (404, b'{"error":"no-such-census","refusal":2}'),
    )


def test_the_end(gateway: Gateway, kept: Kept, filled: None, folder: str) -> None:
    """deploy/try ends all that it started and leaves nothing; the archive's file has each token once."""
    same("the end of deploy/try", gateway.end(), 0)
    check("its folder is gone", gateway.folder != "" and not os.path.exists(gateway.folder))
    for port in (gateway.port, gateway.life_port, gateway.life_port + 1):
        with socket.socket() as probe:
            check(f"nobody listens at {port}", probe.connect_ex(("127.0.0.1", port)) != 0)
    archive = sqlite3.connect(os.path.join(folder, "club.db"))
    rows = {
        (member, token): number for number, member, token in archive.execute("SELECT id, member, token FROM deposits")
    }
    check(
        "each token is kept under its number",
        all(rows.get((f"member-{client}", f"t{turn}")) == number for (client, turn), number in kept.items()),
    )
    same(
        "no content is kept twice",
        archive.execute("SELECT max(id), count(DISTINCT rle) FROM deposits").fetchone(),
        (len(rows), len(rows)),
    )
    archive.close()


def test_new_archives(servers: None, folder: str) -> None:
    """deploy/try says on standard error that it creates a new archive, with the file's name, and nothing if the file is
    there."""
    database = os.path.join(folder, "new.db")
    words = [
        os.path.join(DEPLOY, "try"),
        "--seconds",
        "0",
        "--first-port",
        str(FIRST_PORT),
        "--program",
        clients.PROGRAM,
        "--db",
        database,
    ]
    for said in (f"try: {database} does not exist: creating a new archive\n", ""):
        done = subprocess.run(words, capture_output=True, text=True, timeout=60)
        check(f"deploy/try says {said!r}", (done.returncode, done.stderr) == (0, said) and os.path.exists(database))


# ---- strangers


def test_one_network(servers: None, folder: str) -> None:
    """Two hundred addresses of one network of IPv6 are one client, and another network is another one."""
    abuse.one_network(folder)


def test_connections(servers: None, folder: str) -> None:
    """With the packet filter's rules, a client has at most 400 connections, and another one is answered."""
    abuse.connections(folder)


def test_strangers(servers: None, folder: str) -> None:
    """Floods, and honest clients beside requests that take the program long."""
    abuse.strangers(folder)
