"""Messages for an archive, good and malformed, chosen by a seed. tests/test_archive.py sends streams of them."""
import random

import paths
from clients import BLOCKS, GLIDER, deposit, message

FILES = [
    GLIDER,
    BLOCKS,
    b"x = 3, y = 1\n3o!\n",
    b"#N Toad\nx = 4, y = 2\nb3o$3o!\n",
    b"x = 2, y = 2, rule = B36/S23\n2o$2o!\n",
    b"x = 0, y = 0\n!\n",
    b"x = 11, y = 2\n2o8b3o$2o!\n",
    b"x = 1\n",
    b"x = 1, y = 1\n0o!\n",
    b"",
    b"x = 1, y = 1, rule = B9/S\no!\n",
]
# Each route that only reads, other spellings, and what is refused.
TARGETS = [
    *paths.reading(id="{0}", n="{1}", limit="{2}", rule="B3S23", code="xs4_33"),
    "/objects/b3s23/xp2_7/{2}",
    "/objects/B3S23/xs4_330/1",
    "/objects/B36S23/xs4_33/1",
    "/objects/B3S23/xs4_33/0",
    "/",
    "/deposits",
    "/deposits/{0}/",
    "/deposits/x",
    "/deposits/{0}/at",
    "/deposits/{0}?x=/1",
    "/deposits/00{0}",
    "/objects/B/S/1",
    "/deposits/99999999999999999999",
    "/deposits/{0}/at/1025",
    "/deposits/{0}/at/2049",
    "/deposits/{0}/kind/0",
    "/deposits//at/1",
    "*",
]
LINES = [
    "host: a",
    "connection: keep-alive",
    "accept: */*",
    "x-member: zed",
    "connection: a , b",
    "content-type: text/plain",
]
ENDS = ["connection: close", "connection: x, Close", "connection:  close\t"]
FAULTS = [
    b"GET /deposits/1\r\n\r\n",
    b"GET  /deposits/1 HTTP/1.1\r\n\r\n",
    b"GET /deposits/1 HTTP/2.0\r\n\r\n",
    b"\x00\x01\x02\r\n\r\n",
    b"GET /deposits/1 HTTP/1.1\r\nhost a\r\n\r\n",
    b"GET /deposits/1 HTTP/1.1\r\ntransfer-encoding: chunked\r\n\r\n",
    b"GET /deposits/1 HTTP/1.1\r\ncontent-length: 1\r\ncontent-length: 1\r\n\r\nx",
    b"GET /deposits/1 HTTP/1.1\r\ncontent-length: 1048577\r\n\r\n",
    b"GET /deposits/1 HTTP/1.1\r\ncontent-length: +1\r\n\r\nx",
    b"GET /deposits/1 HTTP/1.1\r\ncontent-length:\r\n\r\n",
    b"GET /deposits/1 HTTP/1.1\r\n" + b"a: b\r\n" * 33 + b"\r\n",
    b"GET /" + b"a" * 8200 + b" HTTP/1.1\r\n\r\n",
    b"POST /deposits HTTP/1.1\r\ncontent-length: 5\r\n\r\nabc",
]


def seeded_message(chosen: random.Random) -> bytes:
    kind = chosen.random()
    number, n, limit = chosen.randrange(0, 8), chosen.randrange(0, 6), chosen.randrange(1, 5)
    lines = chosen.sample(LINES, chosen.randrange(0, 3)) + (chosen.sample(ENDS, 1) if chosen.random() < 0.1 else [])
    version = "1.0" if chosen.random() < 0.05 else "1.1"
    member, token = chosen.choice(["ann", "bob", "ann", "Ann", ""]), chosen.choice(
        ["t1", "t2", "t3", "t4", "t5", "t_1"]
    )
    if kind < 0.35:
        made = deposit(member, token, chosen.choice(FILES), *lines, version=version)
    elif kind < 0.5:
        made = message(
            "POST",
            f"/deposits/{number}/censuses/{n}/{limit}",
            b"",
            f"X-Member: {member}".lower(),
            f"x-token: {token}",
            *lines,
            version=version,
        )
    elif kind < 0.92:
        method = "GET" if chosen.random() < 0.95 else chosen.choice(["POST", "HEAD", "get", "PUT"])
        made = message(
            method,
            chosen.choice(TARGETS).format(number, n, limit),
            chosen.choice([b"", b"", b"body"]),
            *lines,
            version=version,
        )
    else:
        return chosen.choice(FAULTS)
    if chosen.random() < 0.1:
        made = made.replace(b"\r\n", b"\n", made[: made.index(b"\r\n\r\n")].count(b"\r\n") + 2)
    if chosen.random() < 0.1:
        made = chosen.choice([b"\r\n", b"\n", b"\r\n\r\n"]) + made
    return made
