"""The version, a constant of life_words, in all other places that have it."""
from __future__ import annotations

import re

from .texts import Fault, Read

PATH, BEFORE = "crates/life_words/src/commands.rt", 'pub const VERSION: &str = "'
NUMBER = r"\d+\.\d+\.\d+"
# What comes before it and after it in each file.
PLACES = {
    "docs/OPERATING.md": [("life_", "_amd64"), ("life-gateway_", "_all"), ("life-", "-x86_64-linux")],
    "docs/life-restore.8": [('"life ', '"')],
    "docs/life-index.8": [('"life ', '"')],
    "tests/debian.py": [('VERSION = "', '"')],
    "tests/cases/words/version.stdout": [("life ", "\n")],
}


def read_version(read: Read) -> str:
    found = re.search(f'^{re.escape(BEFORE)}({NUMBER})";$', read(PATH), re.M)
    if not found:
        raise Fault(f'{PATH}: no line {BEFORE}..";')
    return found[1]


def with_name(text: str, before: str, after: str, form: str, name: str) -> str:
    """The text with this name in place of one of its form between these two texts."""
    made, times = re.subn(f"({re.escape(before)}){form}(?={re.escape(after)})", rf"\g<1>{name}", text)
    if not times:
        raise Fault(f"no {form} between '{before}' and '{after.strip()}'")
    return made
