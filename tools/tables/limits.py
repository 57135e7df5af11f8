"""docs/limits.csv: each limit, its value, and where a crate has it."""
from __future__ import annotations

import re
from typing import Dict, Iterator, List, NamedTuple, Optional

from .texts import Fault, Read, markdown, rows_of, without_marked

PATH = "docs/limits.csv"
# In the crate's `file` the text `before` comes in front of the value. A limit with `web` is a constant of the web
# pages. One with a `table` has a row in API: its meaning, and the `cells` that follow. `prose` lists the pages that
# name the value in a sentence, where no script writes it.
COLUMNS = ["name", "value", "web", "file", "before", "meaning", "table", "cells", "prose"]
HEADERS = {"limits": "Part | Limit", "waits": "Wait for | Seconds | Then"}


class Limit(NamedTuple):
    name: str
    value: int
    web: str
    file: str
    before: str
    meaning: str
    table: str
    cells: str
    prose: str


class Limits(Dict[str, Limit]):
    """The limits by their names."""

    def put_into(self, text: str) -> str:
        """The text with numbers in place of names. {LONGEST_SIDE} is 1024, {LONGEST_SIDE-1} is 1023, {LONGEST_SIDE:,}
        is 1,024."""

        def number(found: re.Match[str]) -> str:
            if found[1] not in self:
                raise Fault(f"{PATH}: no limit is called {found[1]}, which this names: {text[:60]}")
            value = self[found[1]].value + int(found[2] or 0)
            return f"{value:,}" if found[3] else written(value)

        return re.sub(r"\{([A-Z_]+)([+-]1)?(:,)?\}", number, text)

    def named(self, name: str) -> Limit:
        if name not in self:
            raise Fault(f"{PATH}: no limit is called {name}")
        return self[name]


def written(value: int) -> str:
    """A number as documents have it: with commas from five digits on."""
    return f"{value:,}" if value >= 10_000 else str(value)


def read_limits(read: Read) -> Limits:
    limits = Limits()
    for row in rows_of(read, PATH, COLUMNS):
        name = row["name"]
        if not re.fullmatch(r"[A-Z]+(_[A-Z]+)*", name) or name in limits:
            raise Fault(f"{PATH}: {name}: names are in capitals, each once")
        if not re.fullmatch(r"[1-9][0-9]*", row["value"]):
            raise Fault(f"{PATH}: {name}: the value is a number, without commas")
        if row["web"] not in ("", "yes") or row["table"] not in ("", *HEADERS):
            raise Fault(f"{PATH}: {name}: web is yes or empty, table is {' or '.join(HEADERS)} or empty")
        limits[name] = Limit(name, int(row["value"]), *(row[column] for column in COLUMNS[2:]))
    return limits


def forms(value: int) -> List[str]:
    """A number as texts and sources write it."""
    return sorted({str(value), f"{value:,}", f"{value:_}"})


def has_number(page: str, value: int) -> bool:
    """Whether a page has a number, or the one before or after it: some sentences name the first number that is
    refused."""
    known = "|".join(re.escape(form) for near in (value - 1, value, value + 1) for form in forms(near))
    return re.search(rf"(?<![\w.,])(?:{known})(?![\w]|,\d)", page) is not None


def compare(limits: Limits, read: Read) -> Iterator[Optional[str]]:
    """For each limit, the problem if a crate, or the prose of a page, has a value that differs from the table's."""
    for limit in limits.values():
        for path in limit.prose.split():
            there = has_number(without_marked(read(path)), limit.value)
            yield None if there else f"{path}: {limit.name} is {written(limit.value)} in {PATH}: change the sentence"
        found = re.findall(re.escape(limit.before) + r" ([\d_]+)\b", read(limit.file))
        if len(found) != 1:
            yield f"{limit.file}: {limit.name}: '{limit.before} NUMBER' is there {len(found)} times, and not once"
        elif int(found[0]) != limit.value:
            own, listed = written(int(found[0])), written(limit.value)
            yield f"{limit.file}: {limit.name} is {own}, and {listed} in {PATH}: change one of them"
        else:
            yield None


def table(limits: Limits, name: str) -> List[str]:
    """A table of API."""
    rows = [limit for limit in limits.values() if limit.table == name]
    return markdown(HEADERS[name], [f"{limit.meaning} | {limits.put_into(limit.cells)}" for limit in rows])


def script_module(limits: Limits) -> str:
    """The constants of the web pages."""
    values = {limit.name: written(limit.value).replace(",", "_") for limit in limits.values() if limit.web}
    lines = [
        f"// Limits of the archive, which {PATH} explains. Written by tools/make-tables.",
        "",
        *(f"export const {name} = {value};" for name, value in values.items()),
    ]
    return "\n".join(lines) + "\n"


def shell_limits(limits: Limits) -> List[str]:
    """The limits that the members' scripts check."""
    return [f"{name.lower()}={limits.named(name).value}" for name in ("LONGEST_FILE", "LONGEST_MEMBER")]
