"""Messages to a server at a port of this machine, and the client that sends them. `bench/serve` and `bench/compare` ask
with these."""
import socket


class Client:
    def __init__(self, port: int) -> None:
        self.peer = socket.create_connection(("127.0.0.1", port))
        self.peer.setsockopt(socket.IPPROTO_TCP, socket.TCP_NODELAY, 1)
        self.held = b""

    def ask(self, request: bytes) -> bytes:
        self.peer.sendall(request)
        while b"\r\n\r\n" not in self.held:
            self.held += self.peer.recv(65536)
        head, rest = self.held.split(b"\r\n\r\n", 1)
        length = next(
            int(line.split(b":")[1]) for line in head.lower().split(b"\r\n") if line.startswith(b"content-length:")
        )
        while len(rest) < length:
            rest += self.peer.recv(65536)
        self.held = rest[length:]
        return rest[:length]


def get(target: str) -> bytes:
    return f"GET {target} HTTP/1.1\r\nhost: a\r\n\r\n".encode()


def deposit(token: str, body: bytes) -> bytes:
    return (
        "POST /deposits HTTP/1.1\r\nhost: a\r\nx-member: ann\r\n"
        f"x-token: {token}\r\ncontent-length: {len(body)}\r\n\r\n"
    ).encode() + body


def census(token: str, number: int, generation: int, limit: int) -> bytes:
    return (
        f"POST /deposits/{number}/censuses/{generation}/{limit} HTTP/1.1\r\nhost: a\r\nx-member: ann\r\n"
        f"x-token: {token}\r\ncontent-length: 0\r\n\r\n"
    ).encode()


def number_of(body: bytes) -> int:
    """The number that a reply acknowledges."""
    return int(body.split(b":")[1][:-1])


def free_port() -> int:
    with socket.socket() as probe:
        probe.bind(("127.0.0.1", 0))
        port: int = probe.getsockname()[1]
        return port
