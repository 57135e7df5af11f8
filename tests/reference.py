"""A second implementation of the archive for the tests, from docs/API.md and docs/FORMATS.md. It shares no code with
the program. Numbers, names and statuses of refusals and faults are those of these pages, and limits those of
docs/limits.csv.

`Archive.replies(stream)` gives the bytes that a stream of messages is answered with. Nothing here is fast.
"""
import json
import os
import re
from collections.abc import Callable, Iterable, Iterator
from typing import Any, TypeVar

import life

# The rows of a census by code, how many clusters have no code, and how many there are.
Tally = tuple[list[tuple[str, int]], int, int]
# What a census is of: the number of a deposit, a generation and a limit.
Asked = tuple[int, int, int]
Content = TypeVar("Content")


def rows_of(page: str, part: str) -> Iterator[list[str]]:
    """The rows that begin with a number and a name, of a table in docs/."""
    with open(os.path.join(os.path.dirname(os.path.abspath(__file__)), "..", "docs", page), encoding="utf-8") as file:
        table = file.read().split(f"<!-- {part}:")[1].split(f"<!-- end of {part} -->")[0]
    for row in re.findall(r"(?m)^\| (\d+ \| `.*) \|$", table):
        yield [cell.strip("`") for cell in row.split(" | ")]


RLE_NAMES = {int(number): name for number, name, *_ in rows_of("FORMATS.md", "faults of files")}


class Refused(Exception):
    """A refusal by its number, with the fault of a file if there is one."""

    def __init__(self, number: int, rle: int | None = None) -> None:
        super().__init__(number)
        self.number, self.rle = number, rle


# ---- clusters


def clusters(cells: Iterable[life.Cell]) -> list[life.Cells]:
    left, found = set(cells), []
    while left:
        first = left.pop()
        part, todo = {first}, [first]
        while todo:
            x, y = todo.pop()
            for dx in range(-2, 3):
                for dy in range(-2, 3):
                    if (x + dx, y + dy) in left:
                        left.remove((x + dx, y + dy))
                        part.add((x + dx, y + dy))
                        todo.append((x + dx, y + dy))
        found.append(frozenset(part))
    return found


def tally(rule: life.Rule, cells: Iterable[life.Cell], limit: int) -> Tally:
    counts: dict[str | None, int] = {}
    parts = clusters(cells)
    for part in parts:
        code = life.code_of(rule, part, limit)
        counts[code] = counts.get(code, 0) + 1
    rows = sorted((code, count) for code, count in counts.items() if code is not None)
    return rows, counts.get(None, 0), len(parts)


def is_steady(rule: life.Rule, cells: Iterable[life.Cell], limit: int) -> bool:
    """Whether each cluster is a still life or an oscillator within the limit, and no phase of one comes near a phase of
    another."""
    reached: list[set[life.Cell]] = []
    for part in clusters(cells):
        kind = life.kind_of(rule, part, limit)
        if kind[0] not in ("still", "oscillator"):
            return False
        reached.append(set[life.Cell]().union(*(life.generation(rule, part, n) for n in range((1, *kind[1:])[-1]))))
    near = [(dx, dy) for dx in range(-2, 3) for dy in range(-2, 3)]
    for i, one in enumerate(reached):
        others = set[life.Cell]().union(*reached[:i])
        if any((x + dx, y + dy) in others for x, y in one for dx, dy in near):
            return False
    return True


# ---- the archive

NAMES = {int(number): (name, int(status)) for number, name, status, *_ in rows_of("API.md", "refusals")}
PHRASES = {
    200: "OK",
    201: "Created",
    400: "Bad Request",
    404: "Not Found",
    405: "Method Not Allowed",
    409: "Conflict",
    422: "Unprocessable Entity",
}


def reply(status: int, kind: str, body: bytes) -> bytes:
    head = f"HTTP/1.1 {status} {PHRASES[status]}\r\ncontent-type: {kind}\r\ncontent-length: {len(body)}\r\n\r\n"
    return head.encode() + body


def compact(value: dict[str, Any]) -> bytes:
    return json.dumps(value, separators=(",", ":"), sort_keys=True).encode()


def json_reply(status: int, value: dict[str, Any]) -> bytes:
    return reply(status, "application/json", compact(value))


def deposit_body(number: int) -> bytes:
    """The body of the reply to a deposit. Other tests take it from here."""
    return compact({"deposit": number})


def deposited(number: int) -> bytes:
    return reply(201, "application/json", deposit_body(number))


def refusal(number: int, rle: int | None = None) -> bytes:
    name, status = NAMES[number]
    return json_reply(status, {"error": name, "refusal": number, **({"rle": rle} if rle is not None else {})})


def judge_generation(n: int) -> None:
    if n > life.LIMITS["GENERATION_LIMIT"]:
        raise Refused(6)


def judge_limit(limit: int) -> None:
    if not 1 <= limit <= life.LIMITS["PERIOD_LIMIT"]:
        raise Refused(6)


def has_form(characters: bytes, longest: str, text: bytes) -> bool:
    """Whether a text has only these characters, at least one, and at most as many as this limit says."""
    return re.fullmatch(b"[%s]{1,%d}" % (characters, life.LIMITS[longest]), text) is not None


class Archive:
    def __init__(self, capacity: int = life.LIMITS["CAPACITY"]) -> None:
        self.capacity = capacity
        # The member, the token and the content of each.
        self.deposits: list[tuple[bytes, bytes, life.Record]] = []
        self.censuses: list[tuple[bytes, bytes, Asked]] = []

    # -- requests

    def kept(self, rows: list[tuple[bytes, bytes, Content]], member: bytes, token: bytes, content: Content) -> int:
        """The number of the row with this member and token, or of a new one."""
        for place, row in enumerate(rows):
            if row[:2] == (member, token):
                if row[2] == content:
                    return place + 1
                raise Refused(5)
        if len(rows) >= self.capacity:
            raise Refused(10)
        rows.append((member, token, content))
        return len(rows)

    def names(self, member: bytes, token: bytes) -> None:
        if not has_form(b"a-z0-9-", "LONGEST_MEMBER", member):
            raise Refused(3)
        if not has_form(b"A-Za-z0-9-", "LONGEST_TOKEN", token):
            raise Refused(4)

    def deposit(self, member: bytes, token: bytes, data: bytes) -> bytes:
        self.names(member, token)
        try:
            record = life.read_file(data)
        except life.Fault as fault:
            raise Refused(7, fault.args[0])
        return deposited(self.kept(self.deposits, member, token, record))

    def record(self, number: int) -> life.Record:
        if not 1 <= number <= len(self.deposits):
            raise Refused(1)
        return self.deposits[number - 1][2]

    def show(self, number: int) -> bytes:
        return reply(200, "text/plain", life.file_text(self.record(number)))

    def list_after(self, number: int) -> bytes:
        rows = [
            {
                "id": place + 1,
                "member": row[0].decode(),
                "population": len(row[2][4]),
                "rule": life.rule_text(row[2][3]),
            }
            for place, row in enumerate(self.deposits)
            if place + 1 > number
        ]
        return json_reply(200, {"deposits": rows[: life.LIMITS["LONGEST_LIST"]]})

    def at(self, number: int, n: int) -> bytes:
        judge_generation(n)
        _, _, _, rule, cells = self.record(number)
        return reply(
            200, "text/plain", life.file_text((None, None, (), rule, life.normal(life.generation(rule, cells, n))))
        )

    def kind(self, number: int, limit: int) -> bytes:
        judge_limit(limit)
        _, _, _, rule, cells = self.record(number)
        kind, code = life.kind_of(rule, cells, limit), life.code_of(rule, cells, limit)
        value = {"kind": kind[0], **({"code": code} if code is not None else {})}
        if len(kind) > 1:
            value["period"] = kind[1]
        if len(kind) > 2:
            value["dx"], value["dy"] = kind[2:]
        return json_reply(200, value)

    def census(self, member: bytes, token: bytes, number: int, n: int, limit: int) -> bytes:
        self.names(member, token)
        judge_generation(n)
        judge_limit(limit)
        self.record(number)
        return json_reply(201, {"census": self.kept(self.censuses, member, token, (number, n, limit))})

    def counted(self, number: int) -> tuple[int, int, int, Tally, bool]:
        if not 1 <= number <= len(self.censuses):
            raise Refused(2)
        deposit, n, limit = self.censuses[number - 1][2]
        _, _, _, rule, cells = self.record(deposit)
        later = life.generation(rule, cells, n)
        return deposit, n, limit, tally(rule, later, limit), is_steady(rule, later, limit)

    def show_census(self, number: int) -> bytes:
        deposit, n, limit, (rows, unresolved, total), steady = self.counted(number)
        return json_reply(
            200,
            {
                "census": number,
                "clusters": total,
                "deposit": deposit,
                "generation": n,
                "limit": limit,
                "rows": [{"code": code, "count": count} for code, count in rows],
                "steady": steady,
                "unresolved": unresolved,
            },
        )

    def census_csv(self, number: int) -> bytes:
        _, _, _, (rows, unresolved, _), _ = self.counted(number)
        lines = ["code,count"] + [f"{code},{count}" for code, count in rows] + [f"unresolved,{unresolved}"]
        return reply(200, "text/csv", "".join(line + "\n" for line in lines).encode())

    def total(self, text: bytes, code: bytes, limit: int) -> bytes:
        judge_limit(limit)
        try:
            rule = life.read_rule(text)
        except life.Fault:
            raise Refused(8)
        if not life.is_code(rule, code.decode("latin-1"), limit):
            raise Refused(9)
        total = 0
        for place in range(len(self.censuses)):
            if self.deposits[self.censuses[place][2][0] - 1][2][3] == rule:
                total += dict(self.counted(place + 1)[3][0]).get(code.decode(), 0)
        return json_reply(200, {"total": total})

    # -- messages

    def answered(self, method: bytes, target: bytes, headers: dict[bytes, bytes], body: bytes) -> bytes:
        parts = target.split(b"?")[0].split(b"/")
        number = rb"[0-9]+"
        pages: list[tuple[tuple[bytes, ...], bytes, Callable[..., bytes]]] = [
            (
                (b"deposits",),
                b"POST",
                lambda: self.deposit(headers.get(b"x-member", b""), headers.get(b"x-token", b""), body),
            ),
            ((b"deposits", number), b"GET", self.show),
            ((b"deposits", b"after", number), b"GET", self.list_after),
            ((b"deposits", number, b"at", number), b"GET", self.at),
            ((b"deposits", number, b"kind", number), b"GET", self.kind),
            (
                (b"deposits", number, b"censuses", number, number),
                b"POST",
                lambda *numbers: self.census(headers.get(b"x-member", b""), headers.get(b"x-token", b""), *numbers),
            ),
            ((b"censuses", number), b"GET", self.show_census),
            ((b"censuses", number, b"csv"), b"GET", self.census_csv),
            ((b"objects", rb"[^/]+", rb"[^/]+", number), b"GET", self.total),
        ]
        for page, wanted, answer in pages:
            if parts[0] or len(parts) != len(page) + 1 or not all(map(re.fullmatch, page, parts[1:])):
                continue
            if method != wanted:
                return refusal(13)
            words = [part for form, part in zip(page, parts[1:]) if form.startswith(b"[")]
            if page[0] == b"objects":
                values: list[Any] = [words[0], words[1], min(int(words[2]), 2**64 - 1)]
            else:
                values = [min(int(word), 2**64 - 1) for word in words]
            try:
                return answer(*values)
            except Refused as refused:
                return refusal(refused.number, refused.rle)
        return refusal(12)

    def replies(self, stream: bytes) -> bytes:
        """The bytes that answer a stream. It only knows the forms of heads that the tests use."""
        out = b""
        while True:
            if not stream.strip(b"\r\n"):
                return out
            match = re.match(
                rb"(?:[\r\n]*)([A-Za-z]+) ([!-~]+) HTTP/1\.([01])\r?\n((?:[a-z-]+:[^\r\n]*\r?\n)*)\r?\n",
                stream[: life.LIMITS["HEAD_LIMIT"]],
            )
            if not match:
                return out + refusal(14)
            method, target, version, lines = match.groups()
            headers: dict[bytes, bytes] = {}
            lengths, closes, coded, count = [], version == b"0", False, 0
            for line in lines.replace(b"\r", b"").split(b"\n")[:-1]:
                count += 1
                name, value = line.split(b":", 1)
                value = value.strip(b" \t")
                headers.setdefault(name, value)
                if name == b"content-length":
                    lengths.append(value)
                if name == b"transfer-encoding":
                    coded = True
                if name == b"connection" and b"close" in [part.strip(b" \t").lower() for part in value.split(b",")]:
                    closes = True
            if (
                count > life.LIMITS["HEAD_LINES"]
                or coded
                or len(lengths) > 1
                or not all(length.isdigit() and int(length) <= life.LIMITS["BODY_LIMIT"] for length in lengths)
            ):
                return out + refusal(14)
            length = int(lengths[0]) if lengths else 0
            body = stream[match.end() : match.end() + length]
            if len(body) < length:
                return out + refusal(14)
            stream = stream[match.end() + length :]
            out += self.answered(method, target, headers, body)
            if closes:
                return out
