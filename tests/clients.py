"""What the tests of the archive's program share: counting results, a server that a test starts, messages to it, and
certificates.

A server is one that a script started, and is ended by its process number alone.
"""
import collections
import os
import shutil
import socket
import subprocess
import tempfile
import threading
from collections.abc import Iterable
from typing import IO, Protocol

HERE = os.path.dirname(os.path.abspath(__file__))
GLIDER = b"x = 3, y = 3\nbo$2bo$3o!\n"
GLIDER_TEXT = b"x = 3, y = 3, rule = B3/S23\nbo$2bo$3o!\n"
BLOCKS = b"x = 6, y = 2\n2o2b2o$2o2b2o!\n"
BLOCKS_TEXT = b"x = 6, y = 2, rule = B3/S23\n2o2b2o$2o2b2o!\n"
UNAVAILABLE = (
    b"HTTP/1.1 503 Service Unavailable\r\ncontent-type: application/json\r\ncontent-length: 36\r\n\r\n"
    b'{"error":"unavailable","refusal":11}'
)
# How many checks passed and failed, and what to say of those that failed. conftest.py fails a test by it.
PASSED = [0, 0]
FAILED: list[str] = []
# Figures of a test that the run prints at its end, and what a test left out since it is missing here.
NOTES: list[str] = []
LEFT_OUT: list[str] = []
ALONE = threading.Lock()


def note(text: str) -> None:
    """Keeps a line that the run prints at its end, for example a time that was measured."""
    NOTES.append(text)


def left_out(why: str) -> None:
    """Counts as skipped what a part of a test would have checked."""
    LEFT_OUT.append(why)


def count(good: bool, message: str) -> None:
    """Counts a check, and keeps the message if it failed. The test continues."""
    with ALONE:
        PASSED[0 if good else 1] += 1
        if not good:
            FAILED.append(message)


def check(name: str, good: object) -> None:
    """Counts a check."""
    count(bool(good), f"{name}: failed")


def same(name: str, came: object, wanted: object) -> None:
    """Counts a check that two values are equal. If they are not, it shows both."""
    count(came == wanted, f"{name}\n  came:   {came!r:.400}\n  wanted: {wanted!r:.400}")


# The program `life`. conftest.py sets another one if it is given.
PROGRAM = os.path.join(HERE, "..", "crates", "life_cli", "out", "life_cli")


# Parallel processes of a test start their servers at separate ports, below those that the system gives to clients.
FIRST_PORT = 12000
PORTS = {"first": FIRST_PORT, "many": 4000, "last": 0}
# A name of the system for each of the last ports, by which no other test here takes them, of another gate neither. It
# goes with the process.
TAKEN: collections.deque[socket.socket] = collections.deque()
MOST_TAKEN = 200


def take(port: int) -> bool:
    """Whether no other test has this port. It is this one's from now on, until some hundred others are."""
    name = socket.socket(socket.AF_UNIX)
    try:
        name.bind(f"\0life-test-port-{port}")
    except OSError:
        name.close()
        return False
    with ALONE:
        TAKEN.append(name)
        if len(TAKEN) > min(MOST_TAKEN, PORTS["many"] // 2):
            TAKEN.popleft().close()
    return True


def free_port() -> int:
    while True:
        with ALONE:
            PORTS["last"] = (PORTS["last"] + 1) % PORTS["many"]
            port = PORTS["first"] + PORTS["last"]
        if not take(port):
            continue
        with socket.socket() as probe:
            # A process that starts meanwhile inherits the probe until its program runs; it must not block the server.
            probe.setsockopt(socket.SOL_SOCKET, socket.SO_REUSEADDR, 1)
            try:
                probe.bind(("127.0.0.1", port))
                return port
            except OSError:
                pass


class Archive(Protocol):
    """An archive that a test keeps itself, as reference.py has one."""

    def replies(self, message: bytes) -> bytes:
        ...


class Server:
    """A server on an archive's file for this many connections, at a free port unless one is given."""

    def __init__(
        self,
        database: str,
        connections: int,
        environment: dict[str, str] | None = None,
        stderr: int | IO[bytes] = subprocess.PIPE,
        port: int | None = None,
    ) -> None:
        self.port = port or free_port()
        words = [PROGRAM, "serve", "--db", database, "--port", str(self.port), "--connections", str(connections)]
        self.process = subprocess.Popen(words, stdout=subprocess.PIPE, stderr=stderr, env=environment)
        assert self.process.stdout is not None
        self.line = self.process.stdout.readline()

    def __enter__(self) -> "Server":
        return self

    def __exit__(self, *_: object) -> None:
        if self.process.poll() is None:
            self.process.kill()
        self.process.communicate()

    def ended(self) -> int | None:
        """The status after the last connection."""
        try:
            return self.process.wait(30)
        except subprocess.TimeoutExpired:
            return None


def exchanged(port: int, pieces: Iterable[bytes]) -> bytes:
    """The reply to a stream that is sent in these pieces and then ended."""
    with socket.create_connection(("127.0.0.1", port), timeout=60) as peer:
        peer.setsockopt(socket.IPPROTO_TCP, socket.TCP_NODELAY, 1)
        try:
            for piece in pieces:
                peer.sendall(piece)
            peer.shutdown(socket.SHUT_WR)
        except OSError:
            pass
        back = b""
        while True:
            try:
                more = peer.recv(65536)
            except OSError:
                return back
            if not more:
                return back
            back += more


def message(method: str, target: str, body: bytes = b"", *lines: str, version: str = "1.1") -> bytes:
    head = [f"{method} {target} HTTP/{version}", *lines]
    if body:
        head.append(f"content-length: {len(body)}")
    return "".join(line + "\r\n" for line in head).encode() + b"\r\n" + body


def deposit(member: str, token: str, body: bytes, *lines: str, version: str = "1.1") -> bytes:
    return message("POST", "/deposits", body, f"x-member: {member}", f"x-token: {token}", *lines, version=version)


def run(*words: str, data: bytes = b"") -> tuple[int, bytes, bytes]:
    done = subprocess.run([PROGRAM, *words], input=data, capture_output=True, timeout=60)
    return done.returncode, done.stdout, done.stderr


def unavailable(path: str, reason: str) -> tuple[int, bytes, bytes]:
    """What a command answers if it can't use the file of an archive."""
    return 1, b"", f"refused: unavailable\n{path}: {reason}\n".encode()


def is_answered(archive: Archive, messages: Iterable[bytes], back: bytes) -> bool:
    """Whether each reply is that of this reference archive, or unavailable. The archive then includes the messages that
    were answered."""
    for one in messages:
        if back.startswith(UNAVAILABLE):
            back = back[len(UNAVAILABLE) :]
            continue
        wanted = archive.replies(one)
        if not back.startswith(wanted):
            return False
        back = back[len(wanted) :]
    return back == b""


def certify(certificate: str, key: str, name: str = "localhost") -> None:
    """Makes a self-signed certificate for a name, valid for two days, and its key."""
    words = ["openssl", "req", "-x509", "-newkey", "rsa:2048", "-nodes", "-days", "2", "-subj", f"/CN={name}"]
    subprocess.run([*words, "-out", certificate, "-keyout", key], capture_output=True, check=True, timeout=60)


def new_folder() -> str:
    """A folder in memory, if the system has room for one: programs wait for a disk at each commit, and tests kill only
    the program, not the system."""
    memory = "/dev/shm"
    fits = (
        os.access(memory, os.W_OK)
        and not os.statvfs(memory).f_flag & os.ST_NOEXEC
        and shutil.disk_usage(memory).free > 1 << 28
    )
    return tempfile.mkdtemp(prefix="life-archive-", dir=memory if fits else None)


def fresh(folder: str, name: str) -> str:
    """The path of a database with this name, after removing its files."""
    database = os.path.join(folder, name)
    for ending in ("", "-wal", "-shm", "-journal"):
        if os.path.exists(database + ending):
            os.remove(database + ending)
    return database
