"""Builds the search index of an archive from a copy: static files for a web server.

    life-index [--archive FILE] [--withdrawn LIST] [--draw PROGRAM] COPY FOLDER

COPY is a copy that life-copy made, or a folder of copies, from which it takes the newest; with --archive, the newest
copy of FILE. The deposits in LIST are left out: their texts are empty, their sizes 0. It writes these files into
FOLDER, which it creates if necessary:

    index.json            how many deposits and censuses there are, and the names of all blocks
    deposits-N-SUM.json   up to 1,000 deposits from N on: name, author, member, rule, population, width, height, the day
                          first seen
    censuses-N-SUM.json   censuses from N on: deposit, generation, limit, clusters, unresolved, steady, the day first
                          seen
    objects-N-SUM.json    for each rule and each code, which of these censuses have it, and how often
    comments-N-SUM.json   the comments of up to 1,000 deposits from N on
    feed.xml              the newest deposits, as Atom
    names-K.txt           the names of deposits 1,000 K to 1,000 K + 999: the gateway writes them into the titles of
                          pages
    previews/N.png        a picture of deposit N, which other sites show for a link to it: made if PROGRAM is installed
                          (life-draw), for the newest 10,000 deposits, a part of them in each run
    rows.json             for life-index only: a digest of the rows of each block, and the deposits that are left out

SUM is the beginning of the file's SHA-256 digest, so a file with a given name never changes. A block is made again if a
row of it has changed. A block that is no longer listed stays for an hour, or goes at once if a deposit was withdrawn.
An archive has no dates: the day is when this program first saw the row, in UTC, or that of SOURCE_DATE_EPOCH. Nothing
about the index is proved; its links lead to the archive's own answers.

If the copy is damaged or not an archive, all files stay as they are. If the index can't be built, one line on standard
error says why, and the status is 1.
"""
import argparse
import contextlib
import datetime
import hashlib
import itertools
import json
import os
import pathlib
import re
import sqlite3
import sys
import time
import uuid
from collections.abc import Collection, Iterable
from typing import Any
from xml.sax.saxutils import escape

from life_operate import previews
from life_operate.archive import Copies, Refused, sync
from life_operate.exchange import own_lock
from life_operate.settings import BadSetting
from life_operate.withdrawals import reasons_in

VERSION = 1
BLOCK = 1000
HEAD = "index.json"
FEED = "feed.xml"
# The next run compares with this. nginx does not serve it.
ROWS = "rows.json"
LOCK = "lock"
IN_FEED = 50
# Names for titles are cut after this many characters.
MOST_OF_NAME = 80
NAMES_FILE = re.compile(r"names-[0-9]+\.txt")
BLOCK_NAME = re.compile(r"(deposits|censuses|objects|comments)-[0-9]+-([0-9a-f]{16})\.json")
# Blocks that are no longer listed stay for this many seconds: a browser may still have the list that names them.
STAYS = 3600
# How many seconds a run waits for another one.
LOCKED_WITHIN = 600
# The texts and the header of a canonical pattern file. Its texts have at most 13,500 bytes (docs/FORMATS.md).
BEGIN_OF_FILE = 14_000
TEXTS = re.compile(rb"(?:#N (.+)\n)?(?:#O (.+)\n)?((?:#C.*\n)*)x = ([0-9]+), y = ([0-9]+), rule = (.+)\n")
TABLES = ("deposits", "censuses")
KINDS = ("deposits", "censuses", "objects", "comments")
# The rows of a block, from a number on.
ROWS_OF = {
    "deposits": f"SELECT id, member, rule, population, substr(rle, 1, {BEGIN_OF_FILE}) FROM deposits"
    " WHERE id >= ? ORDER BY id LIMIT ?",
    "censuses": "SELECT deposit, gens, lim, clusters, unresolved, steady"
    " FROM censuses LEFT JOIN census_flags ON census = id WHERE id >= ? ORDER BY id LIMIT ?",
}
# How many characters of a deposit's comments the index keeps. Titles and authors are usually in the first lines.
MOST_OF_COMMENTS = 1000


# ---- the copy


def newest(path: str, archive: str | None) -> str:
    """The copy itself, or the newest one in a folder, of this archive if one is given."""
    if not os.path.isdir(path):
        return path
    if archive:
        copies = Copies(archive, path)
        # A copy with a time in the future is older than its name says: a clock was wrong.
        found = [copies.path(stamp) for stamp in copies.past() or copies.stamps]
    else:
        named = [os.path.join(path, name) for name in os.listdir(path) if name.endswith(".db")]
        found = sorted(named, key=lambda copy: (os.stat(copy).st_mtime_ns, copy), reverse=True)
    if not found:
        raise Refused(f"{path} has no copy" + (f" of {archive}" if archive else ""))
    return found[0]


class Archive:
    """The content of a copy. The file is only read; a log next to it is ignored."""

    def __init__(self, path: str, withdrawn: Collection[int] = ()) -> None:
        self.path = path
        with open(path, "rb"):
            pass
        self.database = sqlite3.connect(
            pathlib.Path(os.path.realpath(path)).as_uri() + "?mode=ro&immutable=1", uri=True
        )
        found = self.rows("PRAGMA integrity_check")
        if found != [("ok",)]:
            raise Refused(f"{path} is damaged: {found[0][0].splitlines()[-1]}")
        self.counts = {table: self.count(table) for table in TABLES}
        self.withdrawn = frozenset(number for number in withdrawn if number <= self.counts["deposits"])

    def rows(self, statement: str, *values: object) -> list[tuple[Any, ...]]:
        try:
            return self.database.execute(statement, values).fetchall()
        except (sqlite3.Error, UnicodeDecodeError) as fault:
            raise Refused(f"{self.path} can't be read as an archive: {fault}") from fault

    def count(self, table: str) -> int:
        count, last = self.rows(f"SELECT count(*), coalesce(max(id), 0) FROM {table}")[0]
        if count != last:
            raise Refused(f"{self.path}: the {table} have gaps")
        return int(count)

    def mark(self, counts: dict[str, int]) -> str:
        """A digest of the first and the last row of each table, up to these numbers of rows. It tells whether an
        archive is the same, only longer."""
        numbers = [{1, counts[table]} for table in TABLES]
        rows = [
            self.rows(
                f"SELECT id, member, rule, rle FROM deposits WHERE id IN ({', '.join('?' * len(numbers[0]))})",
                *numbers[0],
            ),
            self.rows(
                "SELECT id, deposit, gens, lim, clusters FROM censuses"
                f" WHERE id IN ({', '.join('?' * len(numbers[1]))})",
                *numbers[1],
            ),
        ]
        return hashlib.sha256(repr([sorted(found) for found in rows]).encode()).hexdigest()

    def digest(self, table: str, first: int) -> str:
        """A digest of all that a block is made from. (The rows of a census follow from its numbers.)"""
        rows = self.rows(ROWS_OF[table], first, BLOCK)
        withdrawn = self.withdrawn_from(first) if table == "deposits" else {}
        return hashlib.sha256(repr((rows, withdrawn)).encode()).hexdigest()

    # -- the content of blocks, from a number on

    def withdrawn_from(self, first: int) -> dict[str, list[int]]:
        """The deposits of a block that were withdrawn, if there are any."""
        found = sorted(number for number in self.withdrawn if first <= number < first + BLOCK)
        return {"withdrawn": found} if found else {}

    def deposits(self, first: int) -> dict[str, Any]:
        rows = self.rows(ROWS_OF["deposits"], first, BLOCK)
        names, authors, members, rules, populations, widths, heights = zip(*(self.deposit(*row) for row in rows))
        return {
            "first": first,
            "name": names,
            "author": columned(authors),
            "member": columned(members),
            "rule": columned(rules),
            "cells": populations,
            "width": widths,
            "height": heights,
            **self.withdrawn_from(first),
        }

    def deposit(
        self, number: int, member: str, rule: str, population: int, text: bytes
    ) -> tuple[str, str, str, str, int, int, int]:
        """The columns of a deposit."""
        if number in self.withdrawn:
            return "", "", "", "", 0, 0, 0
        name, author, _, width, height = self.texts(number, rule, text)
        return name, author, member, rule, population, width, height

    def comments(self, first: int) -> dict[str, Any]:
        """The comments of each deposit as one text."""
        rows = self.rows(ROWS_OF["deposits"], first, BLOCK)
        texts = [
            "" if number in self.withdrawn else self.texts(number, rule, text)[2] for number, _, rule, _, text in rows
        ]
        return {"first": first, "text": texts, **self.withdrawn_from(first)}

    def texts(self, number: int, rule: str, text: bytes) -> tuple[str, str, str, int, int]:
        """The name, author, comments, width and height that the stored file begins with."""
        found = TEXTS.match(text) if isinstance(text, bytes) else None
        if not found or found[6] != rule.encode():
            raise Refused(f"{self.path}: deposit {number} is not in the form that an archive writes")
        name, author, comments = ((words or b"").decode(errors="replace") for words in found.group(1, 2, 3))
        lines = (line[2:].strip() for line in comments.split("\n"))
        return name, author, " ".join(filter(None, lines))[:MOST_OF_COMMENTS], int(found[4]), int(found[5])

    def censuses(self, first: int) -> dict[str, Any]:
        rows = self.rows(ROWS_OF["censuses"], first, BLOCK)
        names = ("deposit", "generation", "limit", "clusters", "unresolved", "steady")
        if any(None in row for row in rows):
            raise Refused(f"{self.path}: a census from {first} on has no flag")
        return {"first": first, **dict(zip(names, zip(*rows)))}

    def objects(self, first: int) -> dict[str, Any]:
        """For each rule and code, pairs of the place of a census in the block and the count there, as a flat list."""
        rows = self.rows(
            "SELECT rule, code, census, n"
            " FROM census_rows JOIN censuses ON censuses.id = census JOIN deposits ON deposits.id = deposit"
            " WHERE census >= ? AND census < ? ORDER BY rule, code, census",
            first,
            first + BLOCK,
        )
        found: dict[str, dict[str, list[int]]] = {}
        for rule, code, census, count in rows:
            found.setdefault(rule, {}).setdefault(code, []).extend((census - first, count))
        return {"first": first, "rules": found}


def columned(values: Iterable[str]) -> dict[str, Any]:
    """A column with repeating values: the distinct values, and for each row the index of its value."""
    different = sorted(set(values))
    places = {value: place for place, value in enumerate(different)}
    return {"of": different, "at": [places[value] for value in values]}


# ---- the folder


class Folder:
    """The existing index."""

    def __init__(self, path: str) -> None:
        self.path = path
        os.makedirs(path, exist_ok=True)
        # Two runs at the same time would remove each other's blocks. The lock ends with the program.
        self.lock = contextlib.ExitStack()
        self.lock.enter_context(own_lock(os.path.join(path, LOCK), LOCKED_WITHIN, "another life-index is at work"))
        self.head = self.read_head()
        # The digest of the rows of each block, and the deposits that were left out.
        self.rows, self.withdrawn = self.read_rows()

    def read_rows(self) -> tuple[dict[str, str], frozenset[int]]:
        """The notes of the last run for this one. Without it all blocks are made again."""
        try:
            with open(os.path.join(self.path, ROWS), "rb") as file:
                found = json.load(file)
            return dict(found["digests"]), frozenset(found["withdrawn"])
        except (OSError, ValueError, KeyError, TypeError):
            return {}, frozenset()

    def read_head(self) -> dict[str, Any]:
        """The list in index.json. It is empty if the file is missing or has another version."""
        nothing = {
            "version": VERSION,
            "mark": "",
            "counts": dict.fromkeys(TABLES, 0),
            "blocks": {kind: [] for kind in KINDS},
        }
        try:
            with open(os.path.join(self.path, HEAD), "rb") as file:
                head = json.load(file)
            return dict(head) if head["version"] == VERSION and head.keys() >= nothing.keys() else nothing
        except (OSError, ValueError, KeyError, TypeError):
            return nothing

    def content(self, name: str) -> bytes | None:
        """The bytes of a block; None if it is missing or was changed."""
        found = BLOCK_NAME.fullmatch(name)
        try:
            with open(os.path.join(self.path, name), "rb") as file:
                content = file.read()
        except FileNotFoundError:
            return None
        return content if found and hashlib.sha256(content).hexdigest().startswith(found[2]) else None

    def block(self, kind: str, place: int) -> dict[str, Any] | None:
        """A block that the list names; None if it is not complete."""
        names = self.head["blocks"].get(kind, [])
        content = self.content(names[place]) if place < len(names) else None
        return json.loads(content) if content else None

    def write(self, name: str, content: bytes) -> None:
        path = os.path.join(self.path, name)
        with open(path + ".new", "wb") as file:
            file.write(content)
        sync(path + ".new")
        os.replace(path + ".new", path)

    def write_block(self, kind: str, block: dict[str, Any]) -> str:
        """Writes a block unless it exists, and returns its name."""
        content = json_of(block)
        name = f"{kind}-{block['first']}-{hashlib.sha256(content).hexdigest()[:16]}.json"
        if self.content(name) is None:
            self.write(name, content)
        return name

    def remove_others(self, head: dict[str, Any], withdrawn: Collection[int]) -> None:
        """Removes old blocks that are no longer listed, or all of them if more deposits are withdrawn than before."""
        named = {name for names in head["blocks"].values() for name in names}
        old = time.time() - STAYS if self.withdrawn.issuperset(withdrawn) else float("inf")
        for name in os.listdir(self.path):
            path = os.path.join(self.path, name)
            if BLOCK_NAME.fullmatch(name) and name not in named and os.stat(path).st_mtime < old:
                os.remove(path)


def json_of(value: object) -> bytes:
    return json.dumps(value, ensure_ascii=False, separators=(",", ":")).encode()


# ---- days


def this_moment() -> datetime.datetime:
    """The time of this run, or SOURCE_DATE_EPOCH, if it is set, for reproducible output."""
    moment = float(os.environ.get("SOURCE_DATE_EPOCH") or time.time())
    return datetime.datetime.fromtimestamp(moment, datetime.timezone.utc)


def today() -> str:
    return this_moment().strftime("%Y-%m-%d")


COMPARED = {
    "deposits": ("name", "cells", "width", "height"),
    "censuses": ("deposit", "generation", "limit", "clusters", "unresolved"),
}


def common(kind: str, old: dict[str, Any], new: dict[str, Any]) -> int:
    """How many rows at their beginning a block and an older one have in common. A withdrawn deposit is like any."""
    empty = {number - new["first"] for block in (old, new) for number in block.get("withdrawn", [])}
    rows = [zip(*(block[name] for name in COMPARED[kind])) for block in (old, new)]
    same = (place in empty or row == other for place, (row, other) in enumerate(zip(*rows)))
    return len(list(itertools.takewhile(bool, same)))


def days_of(kind: str, old: dict[str, Any] | None, new: dict[str, Any]) -> list[list[Any]]:
    """When the rows of a block were first seen: `[number, day]` for the first row of each day. Old rows keep their
    day."""
    known = new["first"] + (common(kind, old, new) if old else 0)
    end = new["first"] + len(new[COMPARED[kind][0]])
    days = [run for run in old["seen"] if run[0] < known] if old else []
    if known < end and (not days or days[-1][1] != today()):
        days.append([known, today()])
    return days


# ---- the feed

# The identity and the time of an entry, as `feed_of` writes them.
FEED_TIME = re.compile(r"<id>(urn:uuid:[0-9a-f-]+)</id>\n<updated>([0-9TZ:-]+)</updated>\n<link")


def times_in(feed: str) -> dict[str, str]:
    """When the entries of a feed were first seen, by their identities."""
    try:
        with open(feed, encoding="utf-8") as file:
            return dict(FEED_TIME.findall(file.read()))
    except (FileNotFoundError, UnicodeDecodeError):
        return {}


def feed_of(archive: Archive, folder: Folder, names: list[str]) -> bytes:
    """The newest deposits as an Atom feed (RFC 4287), with relative links to the web pages, which the gateway makes
    absolute. An entry keeps the time that it has in the feed before. A new one is as old as this run, unless the index
    has an earlier day for it."""
    entries = []
    for name in names[-2:]:
        if content := folder.content(name):
            entries += entries_of(json.loads(content))
    entries = entries[-IN_FEED:][::-1]
    origin = uuid.uuid5(
        uuid.NAMESPACE_OID, archive.mark({"deposits": min(1, archive.counts["deposits"]), "censuses": 0})
    )
    known, now = times_in(os.path.join(folder.path, FEED)), this_moment().strftime("%Y-%m-%dT%H:%M:%SZ")
    for entry in entries:
        entry["urn"] = uuid.uuid5(origin, str(entry["number"])).urn
        early = now if now.startswith(entry["day"]) else f"{entry['day']}T00:00:00Z"
        entry["time"] = known.get(entry["urn"], early)
    updated = max((entry["time"] for entry in entries), default="1970-01-01T00:00:00Z")
    lines = [
        '<?xml version="1.0" encoding="utf-8"?>',
        '<feed xmlns="http://www.w3.org/2005/Atom">',
        "<title>Life archive: new deposits</title>",
        f"<id>{origin.urn}</id>",
        f"<updated>{updated}</updated>",
        '<link rel="self" href="/index/feed.xml"/>',
        '<link href="/"/>',
        "<author><name>Life archive</name></author>",
    ]
    for entry in entries:
        title = escape(printable(entry["name"] or f"Deposit {entry['number']}"))
        said = f"{entry['cells']} cells, {entry['width']} by {entry['height']}, {entry['rule']}"
        lines += [
            "<entry>",
            f"<title>{title}</title>",
            f"<id>{entry['urn']}</id>",
            f"<updated>{entry['time']}</updated>",
            f'<link href="/d/{entry["number"]}"/>',
            f"<author><name>{escape(entry['member'])}</name></author>",
            f"<summary>{escape(said)}</summary>",
            "</entry>",
        ]
    return "\n".join([*lines, "</feed>", ""]).encode()


def entries_of(block: dict[str, Any]) -> list[dict[str, Any]]:
    """The deposits of a block that were not withdrawn, one by one."""
    days, withdrawn = dict(block["seen"]), set(block.get("withdrawn", []))
    day, found = "", []
    for place, name in enumerate(block["name"]):
        number = block["first"] + place
        day = days.get(number, day)
        if number in withdrawn:
            continue
        found.append(
            {
                "number": number,
                "name": name,
                "day": day,
                **{key: block[key][place] for key in ("cells", "width", "height")},
                **{key: block[key]["of"][block[key]["at"][place]] for key in ("author", "member", "rule")},
            }
        )
    return found


def printable(text: str) -> str:
    return "".join(letter if letter.isprintable() else "\ufffd" for letter in text)


# ---- names for the titles of pages


def write_names(folder: Folder, blocks: list[str]) -> None:
    """Writes a line `NUMBER NAME` for each deposit with a name. Of blocks that the index had before, the files are
    there already. Files beyond the last deposit are removed."""
    before, known = set(folder.head["blocks"]["deposits"]), set()
    # The first number of a file is the last of a block.
    for place in range(len(blocks) + 1):
        sources, file = blocks[max(place - 1, 0) : place + 1], f"names-{place}.txt"
        if before.issuperset(sources) and os.path.exists(os.path.join(folder.path, file)):
            known.add(file)
        elif lines := "".join(name_line(*named) for named in named_in(folder, sources) if named[0] // BLOCK == place):
            folder.write(file, lines.encode())
            known.add(file)
    for name in os.listdir(folder.path):
        if NAMES_FILE.fullmatch(name) and name not in known:
            os.remove(os.path.join(folder.path, name))


def named_in(folder: Folder, blocks: list[str]) -> Iterable[tuple[int, str]]:
    """The deposits of these blocks that have a name."""
    for name in blocks:
        block = json.loads(folder.content(name) or b'{"first": 1, "name": []}')
        yield from ((number, text) for number, text in enumerate(block["name"], block["first"]) if text)


def name_line(number: int, name: str) -> str:
    return f"{number} {printable(name)[:MOST_OF_NAME].strip()}\n"


# ---- the index


def names_of(kind: str, archive: Archive, folder: Folder, digests: list[str]) -> list[str]:
    """The names of all blocks of a kind, whose rows have these digests. A block is kept if its rows are as before."""
    # An index of an earlier release has no comments.
    listed, names = folder.head["blocks"].get(kind, []), []
    for place, digest in enumerate(digests):
        if place < len(listed) and folder.rows.get(listed[place]) == digest and folder.content(listed[place]):
            names.append(listed[place])
            continue
        block = getattr(archive, kind)(1 + place * BLOCK)
        if kind in COMPARED:
            block["seen"] = days_of(kind, folder.block(kind, place), block)
        names.append(folder.write_block(kind, block))
    return names


def make_index(words: argparse.Namespace) -> str:
    """Builds the index, and returns a description of it."""
    withdrawn = reasons_in(words.withdrawn) if words.withdrawn else {}
    archive, folder = Archive(newest(words.copy, words.archive), withdrawn), Folder(words.folder)
    digests = {
        table: [archive.digest(table, first) for first in range(1, count + 1, BLOCK)]
        for table, count in archive.counts.items()
    }
    rows = {kind: digests["deposits" if kind in ("deposits", "comments") else "censuses"] for kind in KINDS}
    blocks = {kind: names_of(kind, archive, folder, rows[kind]) for kind in KINDS}
    head = {
        "version": VERSION,
        "mark": archive.mark(archive.counts),
        "counts": archive.counts,
        "blocks": blocks,
        "made": datetime.datetime.now(datetime.timezone.utc).strftime("%Y-%m-%dT%H:%M:%SZ"),
    }
    folder.write(FEED, feed_of(archive, folder, blocks["deposits"]))
    write_names(folder, blocks["deposits"])
    folder.write(HEAD, json_of(head))
    folder.remove_others(head, archive.withdrawn)
    of_blocks = {name: digest for kind in KINDS for name, digest in zip(blocks[kind], rows[kind])}
    folder.write(ROWS, json_of({"digests": of_blocks, "withdrawn": sorted(archive.withdrawn)}))
    previews.update(archive, words.folder, digests["deposits"], words.draw)
    sync(words.folder)
    return ", ".join(f"{table}: {archive.counts[table]}" for table in TABLES)


def line_of(fault: Exception) -> str:
    """One line that says why the index could not be built."""
    if isinstance(fault, OSError) and fault.filename:
        return f"{fault.filename}: {fault.strerror}"
    return " ".join(str(fault).split())


def main() -> None:
    parser = argparse.ArgumentParser(description=__doc__, formatter_class=argparse.RawDescriptionHelpFormatter)
    parser.add_argument("--archive", metavar="FILE")
    parser.add_argument("--withdrawn", metavar="LIST")
    parser.add_argument("--draw", metavar="PROGRAM", default="life-draw")
    parser.add_argument("copy", metavar="COPY")
    parser.add_argument("folder", metavar="FOLDER")
    words = parser.parse_args()
    try:
        print(f"{words.folder}: {make_index(words)}")
    except (OSError, Refused, BadSetting) as fault:
        sys.exit(f"life-index: {line_of(fault)}")
