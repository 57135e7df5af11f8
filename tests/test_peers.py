"""Slow, silent or many peers, each next to another client that is served in time; the lines for connections that fail;
and two programs on one file.

The tests wait more than they work, so they may run side by side: -n 8.
"""
import errno
import http.client
import os
import shutil
import socket
import sqlite3
import struct
import subprocess
import threading
import time
from collections.abc import Callable

import pytest

import clients
import reference
from clients import BLOCKS, GLIDER, GLIDER_TEXT, Server, check, deposit, exchanged, message, run, same, unavailable
from test_allocations import preloaded

pytestmark = [pytest.mark.full, pytest.mark.usefixtures("program")]

# What a member waits for at most, in seconds: the time that a peer has, and some for a machine that is busy.
BUSY = 8
SHOWN = reference.reply(200, "text/plain", GLIDER_TEXT)
# A level, an option of a socket and its value.
Option = tuple[int, int, int | bytes]


def new_archive(folder: str, name: str) -> str:
    database = os.path.join(folder, name)
    run("deposit", "--db", database, "ann", "t1", data=GLIDER)
    return database


def connected(port: int, *options: Option) -> socket.socket:
    peer = socket.socket()
    for level, option, value in options:
        peer.setsockopt(level, option, value)
    peer.settimeout(60)
    peer.connect(("127.0.0.1", port))
    return peer


def received(peer: socket.socket) -> bytes:
    """What comes until the other side ends."""
    back = b""
    try:
        while more := peer.recv(65536):
            back += more
    except OSError:
        pass
    return back


def end_of(server: Server) -> tuple[int | None, bytes]:
    """The status of a server after its last connection, and what it printed on standard error."""
    status = server.ended()
    assert server.process.stderr
    return status, b"" if status is None else server.process.stderr.read()


# ---- slow and silent peers


def says_nothing(port: int) -> tuple[socket.socket, bytes]:
    return connected(port), b""


def keeps_alive(port: int) -> tuple[socket.socket, bytes]:
    peer = connected(port)
    peer.sendall(message("GET", "/deposits/1"))
    return peer, SHOWN


def promises_a_body(port: int) -> tuple[socket.socket, bytes]:
    peer = connected(port)
    peer.sendall(b"POST /deposits HTTP/1.1\r\nx-member: ann\r\nx-token: t2\r\ncontent-length: 100\r\n\r\nx = 1")
    return peer, b""


def asks_for_close(port: int) -> tuple[socket.socket, bytes]:
    peer = connected(port)
    peer.sendall(message("GET", "/deposits/1", b"", "connection: close"))
    return peer, SHOWN


def reads_nothing(port: int) -> tuple[socket.socket, None]:
    """It asks for so much that the replies fit in no buffer, and takes none."""
    peer = connected(port, (socket.SOL_SOCKET, socket.SO_RCVBUF, 4096))
    peer.settimeout(1)
    try:
        while True:
            peer.sendall(message("GET", "/deposits/1") * 100)
    except OSError:
        return peer, None


# A peer, how long it may be waited for, and the line that is printed of it.
SLOW: list[tuple[str, Callable[[int], tuple[socket.socket, bytes | None]], int, bytes]] = [
    ("says nothing", says_nothing, 1, b""),
    ("keeps a connection alive", keeps_alive, 1, b""),
    ("asks for close and stays", asks_for_close, 2, b""),
    ("promises a body", promises_a_body, 12, b"connection: read\n"),
    ("reads nothing", reads_nothing, 14, b"connection: write\n"),
]


@pytest.mark.parametrize("name, begin, most, line", SLOW, ids=[name for name, *_ in SLOW])
def test_slow_peer(
    folder: str, name: str, begin: Callable[[int], tuple[socket.socket, bytes | None]], most: int, line: bytes
) -> None:
    """A peer that takes its time, and a client that comes after it."""
    with Server(new_archive(folder, f"{name}.db"), 2) as server:
        peer, wanted = begin(server.port)
        begun = time.monotonic()
        same(f"another client where one {name}", exchanged(server.port, [message("GET", "/deposits/1")]), SHOWN)
        waited = time.monotonic() - begun
        check(f"it waits {waited:.1f} s where one {name}", waited < most + BUSY)
        same(f"what one gets that {name}", None if wanted is None else received(peer), wanted)
        peer.close()
        same(f"the line of one that {name}", end_of(server), (0, line))


def test_silent_peers(folder: str) -> None:
    """Peers that say nothing, or nothing more, cost the others one second each: they are not waited for a second
    time."""
    count = 6
    with Server(new_archive(folder, "silent-peers.db"), count + 1) as server:
        peers = [(says_nothing, keeps_alive)[number % 2](server.port)[0] for number in range(count)]
        begun = time.monotonic()
        same("another client after silent peers", exchanged(server.port, [message("GET", "/deposits/1")]), SHOWN)
        waited = time.monotonic() - begun
        # A second wait of two seconds for each would make it 18 s.
        check(f"it waits {waited:.1f} s for {count} silent peers", waited < 2.5 * count)
        for peer in peers:
            peer.close()


def test_dripping_peer(folder: str) -> None:
    """A peer that sends a byte a second for a body of 1 MiB has ten seconds in all."""
    with Server(new_archive(folder, "drips.db"), 2) as server:
        peer = connected(server.port)
        begun = time.monotonic()
        peer.sendall(b"POST /deposits HTTP/1.1\r\nx-member: ann\r\nx-token: t2\r\ncontent-length: 1048576\r\n\r\n")

        def drip() -> None:
            try:
                while time.monotonic() - begun < 60:
                    time.sleep(1)
                    peer.sendall(b" ")
            except OSError:
                pass

        dripping = threading.Thread(target=drip)
        dripping.start()
        same("another client beside one that drips", exchanged(server.port, [message("GET", "/deposits/1")]), SHOWN)
        waited = time.monotonic() - begun
        check(f"it waits {waited:.1f} s beside one that drips", 9 < waited < 12 + BUSY)
        dripping.join()
        peer.close()
        same("the line of one that drips", end_of(server), (0, b"connection: read\n"))


# ---- what a peer has time for


class Late(Exception):
    """This test itself was too slow, on a busy machine, to show anything."""


class Peer:
    """A connection whose steps come at set times after its begin, which is before the server's own waits begin."""

    def __init__(self, port: int, *options: Option) -> None:
        self.begun = time.monotonic()
        self.socket = connected(port, *options)

    def send_at(self, seconds: float, data: bytes, least: float) -> None:
        """Sends at a moment; what comes after the end of the wait shows nothing."""
        time.sleep(max(0, self.begun + seconds - time.monotonic()))
        self.socket.sendall(data)
        if time.monotonic() - self.begun > least:
            raise Late


ASKED, HALF = message("GET", "/deposits/1"), 12
LAST = message("GET", "/deposits/1", b"", "connection: close")


def begins_late(port: int) -> bool:
    """A second to begin, on a new connection."""
    peer = Peer(port)
    peer.send_at(0.8, LAST, 0.97)
    return received(peer.socket) == SHOWN


def goes_on_late(port: int) -> bool:
    """A second to begin the next message. The wait begins with the reply, which comes after the begin."""
    peer = Peer(port)
    peer.send_at(0, ASKED, 0.97)
    peer.send_at(0.8, LAST, 0.97)
    return received(peer.socket) == SHOWN * 2


def sends_the_rest_late(port: int) -> bool:
    """Ten seconds for the rest of a message."""
    peer = Peer(port)
    peer.send_at(0, LAST[:HALF], 0.97)
    peer.send_at(8, LAST[HALF:], 9.9)
    return received(peer.socket) == SHOWN


def sends_half_a_message_behind_another(port: int) -> bool:
    """If its first bytes came in one piece with the message before, the ten seconds begin with the next byte, for which
    there is a second."""
    peer = Peer(port)
    peer.send_at(0, ASKED + LAST[:HALF], 0.97)
    peer.send_at(0.8, LAST[HALF : HALF + 1], 0.97)
    peer.send_at(8, LAST[HALF + 1 :], 9.9)
    return received(peer.socket) == SHOWN * 2


def takes_late(port: int) -> bool:
    """Ten seconds to take a reply: a peer that has asked until nothing more fits gets all replies after eight."""
    peer = Peer(port, (socket.SOL_SOCKET, socket.SO_RCVBUF, 4096))
    peer.socket.settimeout(0.5)
    sent = 0
    try:
        while True:
            sent += peer.socket.send((ASKED * 100)[sent % len(ASKED) :])
    except TimeoutError:
        pass
    time.sleep(max(0, peer.begun + 8 - time.monotonic()))
    peer.socket.settimeout(60)
    whole, back = -(-sent // len(ASKED)), b""
    try:
        while len(back) < len(SHOWN) * (sent // len(ASKED)) and (more := peer.socket.recv(65536)):
            back += more
        # What was begun is ended, and no more is asked.
        peer.socket.sendall(ASKED[sent - (whole - 1) * len(ASKED) :] if sent % len(ASKED) else b"")
        peer.socket.shutdown(socket.SHUT_WR)
        if back + received(peer.socket) == SHOWN * whole:
            return True
    except ConnectionResetError:
        pass
    if time.monotonic() - peer.begun > 9.9:
        raise Late
    return False


def sends_on_after_the_last_reply(port: int) -> bool:
    """Two seconds in all for what comes after the last reply: until then nothing is reset, and the reply is whole."""
    peer = Peer(port)
    peer.send_at(0, LAST, 0.97)
    try:
        for turn in range(1, 9):
            peer.send_at(turn / 5, b"x" * 1000, 1.97)
    except OSError:
        return False
    peer.socket.shutdown(socket.SHUT_WR)
    return received(peer.socket) == SHOWN


PATIENT = [
    begins_late,
    goes_on_late,
    sends_the_rest_late,
    sends_half_a_message_behind_another,
    takes_late,
    sends_on_after_the_last_reply,
]


@pytest.mark.parametrize("part", PATIENT, ids=[part.__name__ for part in PATIENT])
def test_patient_peer(folder: str, part: Callable[[int], bool]) -> None:
    """A peer that uses most of its time is served. If this test comes too late itself, it tries again."""
    for turn in range(10):
        with Server(new_archive(folder, f"{part.__name__}-{turn}.db"), 1) as server:
            try:
                good = part(server.port)
            except Late:
                continue
            check(f"a peer that {part.__name__}", good)
            same(f"nothing is printed of one that {part.__name__}", end_of(server), (0, b""))
            return
    pytest.skip(f"this machine is too busy for {part.__name__}")


def test_clients_in_turn(folder: str) -> None:
    """Three clients that keep their connections alive and ask in turn are all served, though one connection is served
    after the other."""
    answers: list[bytes] = []
    with Server(new_archive(folder, "turns.db"), 1000) as server:
        begun = time.monotonic()
        pool = [http.client.HTTPConnection("127.0.0.1", server.port, timeout=60) for _ in range(3)]
        for _ in range(3):
            for client in pool:
                for _ in range(2):
                    try:
                        client.request("GET", "/deposits/1")
                        answers.append(client.getresponse().read())
                        break
                    except (http.client.HTTPException, OSError):
                        # Its connection ended while others were served: it asks once more, as clients do.
                        client.close()
        waited = time.monotonic() - begun
        for client in pool:
            client.close()
    same("clients in turn are served", answers, [GLIDER_TEXT] * 9)
    check(f"clients in turn take {waited:.1f} s", waited < 10 + 2 * BUSY)


# ---- lines


def reset(port: int) -> None:
    """A connection that its peer resets in the middle of a message."""
    peer = connected(port, (socket.SOL_SOCKET, socket.SO_LINGER, struct.pack("ii", 1, 0)))
    peer.sendall(b"GET /deposits/1 HTTP/1.1\r\n")
    time.sleep(0.2)
    peer.close()


# A sender that is faster than the server takes: a byte a call, and what comes back is dropped, also while there is no
# room to send: else the server would wait for a peer that waits for it. If the system allows it, it goes before other
# work, so that no silence of a second ends the stream on a busy machine. Within a message a silence may be longer, so
# messages have bodies.
SENDER = r"""
#include <arpa/inet.h>
#include <errno.h>
#include <netinet/tcp.h>
#include <poll.h>
#include <sched.h>
#include <stdlib.h>
#include <string.h>
#include <sys/socket.h>

int main(int count, char **words) {
  static const char head[] = "GET /x HTTP/1.1\r\ncontent-length: 1000\r\n\r\n";
  static char message[sizeof head - 1 + 1000], dropped[65536];
  memset(message, 'x', sizeof message);
  memcpy(message, head, sizeof head - 1);
  struct sockaddr_in to = {
    .sin_family = AF_INET, .sin_port = htons(atoi(words[1])), .sin_addr.s_addr = htonl(INADDR_LOOPBACK)
  };
  sched_setscheduler(0, SCHED_RR, &(struct sched_param) {.sched_priority = 1});
  int on = 1, peer = socket(AF_INET, SOCK_STREAM, 0);
  setsockopt(peer, IPPROTO_TCP, TCP_NODELAY, &on, sizeof on);
  if (connect(peer, (struct sockaddr *) &to, sizeof to)) return 1;
  for (long sent = 0;;) {
    int is_sent = send(peer, message + sent % sizeof message, 1, MSG_NOSIGNAL | MSG_DONTWAIT) == 1;
    if (!is_sent && errno != EAGAIN) return 0;
    sent += is_sent;
    if (!is_sent || sent % 64 == 0) while (recv(peer, dropped, sizeof dropped, MSG_DONTWAIT) > 0) {}
    if (!is_sent) poll(&(struct pollfd) {.fd = peer, .events = POLLIN | POLLOUT}, 1, 1000);
  }
}
"""


def read_byte_by_byte(sender: str, database: str) -> tuple[int | None, bytes]:
    """The status and the line of a server to which messages come byte by byte."""
    with Server(database, 1) as server:
        subprocess.run([sender, str(server.port)], timeout=600, check=True)
        return end_of(server)


# What a stream ends with if the sender had to wait: for a second between two messages, or for ten in a reply.
WAITED = ((0, b""), (0, b"connection: read\n"), (0, b"connection: write\n"))


def test_many_reads(folder: str) -> None:
    """A stream of many messages that come byte by byte ends after 1,048,576 takes. On a busy machine the sender may
    have to wait nonetheless, and the stream ends before that, so it is tried up to five times."""
    if not shutil.which("cc"):
        pytest.skip("cc is not installed")
    sender = os.path.join(folder, "sender")
    subprocess.run(["cc", "-O1", "-x", "c", "-o", sender, "-"], input=SENDER.encode(), check=True)
    for turn in range(5):
        found = read_byte_by_byte(sender, new_archive(folder, f"many-{turn}.db"))
        if found not in WAITED:
            break
        print(f"the sender had to wait: {found}")
    same("the line of too many reads", found, (0, b"connection: too-many-reads\n"))


# Refuses the first accept with the error ERRNO, as the system does if a peer has gone before it was accepted, or if the
# program has too many files open.
REFUSED_ACCEPT = r"""
#define _GNU_SOURCE
#include <dlfcn.h>
#include <errno.h>
#include <stdlib.h>

static int is_refused(void) {
  static int calls;
  if (calls++) return 0;
  errno = atoi(getenv("ERRNO"));
  return 1;
}

int accept(int listener, void *address, void *length) {
  int (*next)(int, void *, void *) = dlsym(RTLD_NEXT, "accept");
  return is_refused() ? -1 : next(listener, address, length);
}

int accept4(int listener, void *address, void *length, int flags) {
  int (*next)(int, void *, void *, int) = dlsym(RTLD_NEXT, "accept4");
  return is_refused() ? -1 : next(listener, address, length, flags);
}
"""


@pytest.mark.parametrize("name", ["ECONNABORTED", "EMFILE"])
def test_refused_accept(folder: str, name: str) -> None:
    """An accept that the system refuses counts as a connection, and has a line. The next connection is served."""
    library = preloaded(folder, "refused-accept", REFUSED_ACCEPT)
    environment = {**os.environ, "LD_PRELOAD": library, "ERRNO": str(getattr(errno, name))}
    with Server(new_archive(folder, f"{name}.db"), 2, environment) as server:
        same(f"a client after {name}", exchanged(server.port, [message("GET", "/deposits/1")]), SHOWN)
        same(f"the line of {name}", end_of(server), (0, b"connection: read\n"))


def test_without_standard_error(folder: str) -> None:
    """A server whose standard error is gone serves on after a connection that failed."""
    back, front = os.pipe()
    os.close(back)
    with Server(new_archive(folder, "silent.db"), 2, stderr=front) as server:
        os.close(front)
        reset(server.port)
        same("a client where standard error is gone", exchanged(server.port, [message("GET", "/deposits/1")]), SHOWN)
        same("the end where standard error is gone", server.ended(), 0)


def test_taken_port(folder: str) -> None:
    with Server(new_archive(folder, "port.db"), 1) as server:
        other = new_archive(folder, "other-port.db")
        same(
            "a port that is taken",
            run("serve", "--db", other, "--port", str(server.port), "--connections", "1"),
            (1, b"", b"refused: no-port\n"),
        )


# ---- many clients, and two programs


def test_many_clients(folder: str) -> None:
    with Server(new_archive(folder, "clients.db"), 1000) as server:
        good = sum(exchanged(server.port, [message("GET", "/deposits/1")]) == SHOWN for _ in range(1000))
        same(f"{good} of 1,000 clients one after the other", good, 1000)
        same("the end after 1,000 clients", server.ended(), 0)


def test_two_programs(folder: str) -> None:
    """A second program on a file that is served is refused, and nothing is lost."""
    database = new_archive(folder, "two.db")
    with Server(database, 2) as server:
        same(
            "a deposit beside a server",
            run("deposit", "--db", database, "bob", "t1", data=BLOCKS),
            unavailable(database, "another program has it open"),
        )
        same(
            "a server beside a server",
            run("serve", "--db", database, "--port", str(clients.free_port()), "--connections", "1"),
            unavailable(database, "another program has it open"),
        )
        same(
            "the server continues",
            exchanged(server.port, [deposit("ann", "t2", BLOCKS)]),
            reference.deposited(2),
        )
        same("the server has all", exchanged(server.port, [message("GET", "/deposits/1")]), SHOWN)
        same("the end of the server", server.ended(), 0)
    same(
        "a deposit behind a server",
        run("deposit", "--db", database, "bob", "t1", data=BLOCKS),
        (0, b"deposit 3\n", b""),
    )
    kept = sqlite3.connect(database)
    same(
        "rows of two programs",
        kept.execute("SELECT member, token FROM deposits ORDER BY id").fetchall(),
        [("ann", "t1"), ("ann", "t2"), ("bob", "t1")],
    )
    kept.close()


def test_this_address_alone(folder: str) -> None:
    """The program listens at 127.0.0.1 alone: at another address of this machine nobody answers."""
    with Server(new_archive(folder, "address.db"), 1) as server:
        for address in ("127.0.0.2", "::1"):
            with socket.socket(socket.AF_INET6 if ":" in address else socket.AF_INET) as peer:
                check(f"nobody answers at {address}", peer.connect_ex((address, server.port)) != 0)
        check(
            "somebody does at 127.0.0.1",
            exchanged(server.port, [message("GET", "/deposits/1", b"", "connection: close")]).endswith(GLIDER_TEXT),
        )
