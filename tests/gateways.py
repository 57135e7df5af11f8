"""Runs deploy/try for tests, sends requests through the gateway as clients with addresses of their own, and reads its
logs.
"""
import http.client
import json
import os
import shutil
import signal
import subprocess
import threading
import time
from collections.abc import Iterable
from typing import Any

import clients
from clients import HERE

DEPLOY = os.path.join(HERE, "..", "deploy")
# How many seconds a client waits at most, on a busy machine.
BUSY = 8
# The status, the body and the header lines of a reply.
Reply = tuple[int, bytes, dict[str, str]]


def missing() -> list[str]:
    """The programs of the gateway that are not installed."""
    return [
        name
        for name in ("nginx", "haproxy", "esbuild")
        if not shutil.which(name, path=os.environ.get("PATH", "") + ":/usr/sbin:/usr/local/sbin:/sbin")
    ]


class Gateway:
    """A run of deploy/try on an archive's file."""

    def __init__(self, database: str, first_port: int, *settings: str, seconds: int = 120) -> None:
        words = [
            os.path.join(DEPLOY, "try"),
            "--seconds",
            str(seconds),
            "--first-port",
            str(first_port),
            "--program",
            clients.PROGRAM,
            "--db",
            database,
            "--index",
            "0",
            *settings,
        ]
        self.process = subprocess.Popen(words, stdout=subprocess.PIPE, stderr=subprocess.STDOUT, text=True)
        # The numbers of the processes that ran the program, the last one now; and what deploy/try says of itself.
        self.lives: list[int] = []
        self.folder, self.port, self.life_port, self.metrics_port = "", 0, 0, 0
        assert self.process.stdout is not None
        lines = self.process.stdout
        while not self.port and (line := lines.readline()):
            self.read(line)
        self.reader = threading.Thread(target=self.read_all, args=(lines,))
        self.reader.start()

    def read(self, line: str) -> None:
        if line.startswith("life at "):
            self.life_port = int(line.split(",")[0].split(":")[1])
            self.lives.append(int(line.split()[-1]))
        elif line.startswith("running in "):
            self.folder = line.removeprefix("running in ").split(";")[0]
        elif line.startswith(("http://", "https://")):
            self.port = int(line.rsplit(":", 1)[1])
        elif line.endswith(" does not exist: creating a new archive\n"):
            pass
        else:
            print(line, end="")

    def read_all(self, lines: Iterable[str]) -> None:
        for line in lines:
            self.read(line)

    def kill(self) -> None:
        """Kills the running program, as a crash would, and waits for the next one."""
        before = len(self.lives)
        os.kill(self.lives[-1], signal.SIGKILL)
        until = time.monotonic() + BUSY
        while len(self.lives) == before and time.monotonic() < until:
            time.sleep(0.02)

    def end(self) -> int | None:
        self.process.terminate()
        try:
            status: int | None = self.process.wait(30)
        except subprocess.TimeoutExpired:
            self.process.kill()
            status = None
        self.reader.join(5)
        return status


# ---- requests and logs


def address(number: int) -> str:
    """The address of a client, of which this machine has many."""
    return f"127.1.{number // 250}.{number % 250 + 1}"


def reply_on(
    connection: http.client.HTTPConnection,
    method: str,
    path: str,
    body: bytes | str | None,
    headers: dict[str, str] | None,
) -> Reply:
    """The reply to one request on a new connection, which is closed then."""
    try:
        connection.request(method, path, body=body, headers=headers or {})
        reply = connection.getresponse()
        return reply.status, reply.read(), {name.lower(): value for name, value in reply.getheaders()}
    finally:
        connection.close()


def asked(
    port: int,
    client: int,
    method: str,
    path: str,
    body: bytes | None = None,
    headers: dict[str, str] | None = None,
    timeout: float = 60,
) -> Reply:
    """The reply to a client that has an address of its own."""
    own = (address(client), 0)
    connection = http.client.HTTPConnection("127.0.0.1", port, timeout=timeout, source_address=own)
    return reply_on(connection, method, path, body, headers)


def pattern(client: int | str, turn: int) -> bytes:
    """A file that no other client sends, which is its own canonical text."""
    return f"#N Of {client}, the {turn}.\nx = 3, y = 3, rule = B3/S23\nbo$2bo$3o!\n".encode()


def listed(port: int) -> list[dict[str, Any]]:
    """All deposits of the archive, by its lists."""
    found: list[dict[str, Any]] = []
    after = 0
    while True:
        rows = json.loads(asked(port, 0, "GET", f"/deposits/after/{after}")[1])["deposits"]
        if not rows:
            return found
        found += rows
        after = rows[-1]["id"]


def log(gateway: Gateway, name: str) -> list[str]:
    """The lines of a log, once nginx has written what it holds for a second."""
    time.sleep(1.5)
    with open(os.path.join(gateway.folder, name), encoding="utf-8", errors="replace") as file:
        return file.read().splitlines()


def requests(gateway: Gateway) -> list[dict[str, Any]]:
    """The lines of the log of requests, each of which is an object."""
    return [json.loads(line) for line in log(gateway, "access.log")]
