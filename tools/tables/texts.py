"""Tables and the texts that repeat them: reading both, and replacing a part of a text."""
from __future__ import annotations

import csv
import os
import re
from typing import Callable, Dict, List, Sequence

TOP = os.path.normpath(os.path.join(os.path.dirname(os.path.abspath(__file__)), "..", ".."))

# Gives the text of a file by its path from the top of the repository. The check of tests/test_documents.py gives
# changed texts.
Read = Callable[[str], str]


class Fault(Exception):
    """An error in a table or a missing part of a text, and what to do about it."""


def read_file(path: str) -> str:
    """The text of a file; empty if the file does not exist yet."""
    try:
        with open(os.path.join(TOP, path), encoding="utf-8", newline="") as file:
            return file.read()
    except FileNotFoundError:
        return ""


def write_file(path: str, text: str) -> None:
    with open(os.path.join(TOP, path), "w", encoding="utf-8", newline="") as file:
        file.write(text)


def most_columns() -> int:
    """The most columns of a line, which .editorconfig has."""
    widths = re.findall(r"(?m)^max_line_length = (\d+)$", read_file(".editorconfig"))
    if len(widths) != 1:
        raise Fault(f".editorconfig: max_line_length is there {len(widths)} times, and not once")
    return int(widths[0])


def rows_of(read: Read, path: str, columns: Sequence[str]) -> List[Dict[str, str]]:
    """The rows of a table with exactly these columns."""
    lines = read(path).splitlines()
    if not lines or lines[0] != ",".join(columns):
        raise Fault(f"{path}: its first line has to be {','.join(columns)}")
    rows = list(csv.DictReader(lines, restval=""))
    for row in rows:
        if None in row:
            raise Fault(f"{path}: too many cells: {', '.join(list(row.values())[:3])}")
    return rows


def markdown(header: str, rows: List[str]) -> List[str]:
    """A table of a document. Cells are separated by ' | '."""
    rule = " | ".join("---" for _ in header.split(" | "))
    return ["", *(f"| {row} |" for row in [header, rule, *rows]), ""]


# How a comment begins that marks a part, as a regular expression.
MARK = r"(?m)^[ \t]*(?://|#|<!--) "


def without_marked(text: str) -> str:
    """The text without the parts that tools/make-tables writes."""
    return re.sub(MARK + r"(.*): written by tools/make-tables from (?s:.*?)(?://|#|<!--) end of \1\b", "", text)


def with_marked(text: str, name: str, lines: List[str]) -> str:
    """The text with these lines between the two comments of that name."""
    begins = list(re.finditer(MARK + re.escape(name) + r": written by tools/make-tables from .*\n", text))
    ends = list(re.finditer(MARK + f"end of {re.escape(name)}(?: -->)?$", text))
    if len(begins) != 1 or len(ends) != 1 or ends[0].start() < begins[0].end():
        raise Fault(f"needs the comments '{name}: written by tools/make-tables from ..' and 'end of {name}' once each")
    return text[: begins[0].end()] + "".join(line + "\n" for line in lines) + text[ends[0].start() :]
