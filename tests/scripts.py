"""Runs the members' scripts for tests, and other programs: what they print, the folders that they send, and a server
that answers as a test says.
"""
import contextlib
import hashlib
import http.server
import os
import re
import shutil
import ssl
import subprocess
import threading
import time
from collections.abc import Iterator, Mapping

import pytest

import clients
from clients import HERE, Server

TOP = os.path.join(HERE, "..")
EXAMPLES = os.path.join(TOP, "examples")
HAUL = os.path.abspath(os.path.join(TOP, "crates", "life_haul", "out", "life_haul"))
UNFINISHED = b"x = 1, y = 1\n3o"
# The status of a command, and what it prints on its two streams.
Said = tuple[int, str, str]


@contextlib.contextmanager
def own_record(folder: str) -> Iterator[None]:
    """Scripts keep their record of what was stored in this folder, and not in that of who runs this."""
    with pytest.MonkeyPatch.context() as own:
        own.setenv("XDG_STATE_HOME", os.path.join(folder, "state"))
        # The program that makes soups for deposit-finds.
        own.setenv("LIFE_HAUL", HAUL)
        yield


def said(*words: str, env: Mapping[str, str] | None = None, cwd: str | None = None) -> Said:
    done = subprocess.run(words, capture_output=True, text=True, timeout=120, env=env, cwd=cwd, check=False)
    return done.returncode, done.stdout, done.stderr


def script(name: str, *words: str, env: Mapping[str, str] | None = None) -> Said:
    return said(os.path.join(EXAMPLES, "scripts", name), *words, env=env)


def url(server: "Server | Pretender") -> str:
    return f"http://127.0.0.1:{server.port}"


def is_unanswered(result: Said, printed: str, last: str) -> bool:
    """Whether a script ended because no reply came: it says a line of curl's and one of its own."""
    status, out, errors = result
    return (status, out) == (1, printed) and re.fullmatch(
        r"curl: \(\d+\) [^\n]+\n" + re.escape(last), errors
    ) is not None


def needs(*programs: str) -> None:
    """Skips a test if one of these programs is not installed."""
    for name in programs:
        if not shutil.which(name):
            pytest.skip(f"{name} is not installed")


def new_folder(room: str, name: str, files: Mapping[str, bytes]) -> str:
    """A folder with these files, each a name and its bytes."""
    folder = os.path.join(room, name)
    os.mkdir(folder)
    for file, content in files.items():
        with open(os.path.join(folder, file), "wb") as out:
            out.write(content)
    return folder


def digest(content: bytes) -> str:
    return hashlib.sha256(content).hexdigest()


# ---- a server that answers as a test says

# A status, a body and maybe the value of 'Retry-After'.
Reply = tuple[int, bytes] | tuple[int, bytes, str]
NOT_THERE: Reply = (404, b'{"error":"no-such-deposit","refusal":1}')


class Pretender:
    """A server that answers with these replies, whatever is asked, and then with `NOT_THERE`. The server notes what was
    sent by POST, what was read by GET, and when each request came."""

    def __init__(self, *replies: Reply, certificate: tuple[str, str] | None = None) -> None:
        sent: list[tuple[str, str | None, str | None, bytes]] = []
        read: list[str] = []
        times: list[float] = []
        self.sent, self.read, self.times = sent, read, times
        left = list(replies)

        class Handler(http.server.BaseHTTPRequestHandler):
            def reply(self) -> None:
                times.append(time.monotonic())
                reply = left.pop(0) if left else NOT_THERE
                self.send_response(reply[0])
                self.send_header("content-length", str(len(reply[1])))
                for value in reply[2:]:
                    self.send_header("Retry-After", value)
                self.end_headers()
                self.wfile.write(reply[1])

            def do_POST(self) -> None:
                body = self.rfile.read(int(self.headers.get("content-length", "0")))
                sent.append((self.path, self.headers["x-member"], self.headers["x-token"], body))
                self.reply()

            def do_GET(self) -> None:
                read.append(self.path)
                self.reply()

            def log_message(self, *_: object) -> None:
                pass

        self.server = http.server.ThreadingHTTPServer(("127.0.0.1", clients.free_port()), Handler)
        if certificate:
            secured = ssl.SSLContext(ssl.PROTOCOL_TLS_SERVER)
            secured.load_cert_chain(*certificate)
            self.server.socket = secured.wrap_socket(self.server.socket, server_side=True)
        self.port = self.server.server_port
        threading.Thread(target=self.server.serve_forever).start()

    def __enter__(self) -> "Pretender":
        return self

    def __exit__(self, *_: object) -> None:
        self.server.shutdown()
        self.server.server_close()
