"""A ledger of deposits outside the archive: each number that was acknowledged, with its content. At the end of a case
it is compared with what the archive serves, or with what a file has.
"""
import json
import os
import shutil
import sqlite3
import tempfile
from collections.abc import Callable
from typing import NamedTuple

from reference import deposit_body


class Deposit(NamedTuple):
    """What a number names: its member, the token, and the text that the archive shows."""

    member: str
    token: str
    text: bytes


# The numbers of an archive and what they name.
Ledger = dict[int, Deposit]
# A request: its method, path, header lines and body; and a reply: its status and body.
Request = tuple[str, str, dict[str, str], bytes]
Reply = tuple[int, bytes]
# Sends some requests one after the other.
Ask = Callable[[list[Request]], list[Reply]]
MOST_OF_A_LIST = 100


def beginning(ledger: Ledger, count: int) -> Ledger:
    """The first numbers of a ledger."""
    return {number: content for number, content in ledger.items() if number <= count}


def faults(ledger: Ledger, ask: Ask, tokens: bool = True) -> list[str]:
    """What an archive that is served has otherwise than the ledger, which has all of its numbers: a text, a member, a
    number too many, or a token, which has to lead to its number again. Without tokens nothing but reads is asked."""
    count = len(ledger)
    reads: list[Request] = [("GET", f"/deposits/{number}", {}, b"") for number in range(1, count + 2)]
    lists: list[Request] = [
        ("GET", f"/deposits/after/{after}", {}, b"") for after in range(0, count + 1, MOST_OF_A_LIST)
    ]
    replies = ask(reads + lists)
    found = [
        f"{number}: {reply}" for number, reply in enumerate(replies[:count], 1) if reply != (200, ledger[number].text)
    ]
    if replies[count][0] != 404:
        found.append(f"{count + 1}: {replies[count]}, and it was never given")
    rows = [row for _, body in replies[count + 1 :] for row in rows_in(body)]
    if rows != [(number, ledger[number].member) for number in range(1, count + 1)]:
        found.append(f"the list: {rows}")
    return found or (token_faults(ledger, ask) if tokens else [])


def token_faults(ledger: Ledger, ask: Ask) -> list[str]:
    again = [
        ("POST", "/deposits", {"x-member": one.member, "x-token": one.token}, one.text)
        for _, one in sorted(ledger.items())
    ]
    replies = ask(again)
    return [
        f"the token of {number}: {reply}"
        for number, reply in enumerate(replies, 1)
        if reply != (201, deposit_body(number))
    ]


def rows_in(body: bytes) -> list[tuple[int, str]]:
    try:
        return [(row["id"], row["member"]) for row in json.loads(body)["deposits"]]
    except (ValueError, KeyError):
        return []


def rows_of(path: str) -> Ledger | None:
    """The deposits of an archive's file and its log, read by way of a copy; nothing if it can't be read as a whole."""
    with tempfile.TemporaryDirectory() as room:
        for ending in ("", "-wal"):
            if os.path.exists(path + ending):
                shutil.copyfile(path + ending, os.path.join(room, "read.db" + ending))
        try:
            database = sqlite3.connect(os.path.join(room, "read.db"))
            whole = database.execute("PRAGMA integrity_check").fetchall() == [("ok",)]
            rows = {
                row[0]: Deposit(*row[1:])
                for row in database.execute("SELECT id, member, token, rle FROM deposits ORDER BY id")
            }
            database.close()
            return rows if whole else None
        except sqlite3.Error:
            return None
