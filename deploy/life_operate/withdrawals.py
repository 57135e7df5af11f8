"""The list of deposits that a club has withdrawn: a number in each line, then a reason for the administrator only. The
gateway and the search index leave these deposits out; the archive keeps them."""
import contextlib
import os
import re

from life_operate.archive import sync
from life_operate.settings import BadSetting, lines_of

LINE = re.compile(r"0*([1-9][0-9]{0,14})(?:\s+(.*))?")


def reasons_in(path: str) -> dict[int, str]:
    """The reason for each number in the list. A missing list has no numbers."""
    found = {}
    try:
        lines = lines_of(path)
    except FileNotFoundError:
        return {}
    for place, line in lines:
        matched = LINE.fullmatch(line.strip())
        if not matched:
            raise BadSetting(f"{place}not the number of a deposit, with or without a reason: {line}")
        found[int(matched[1])] = matched[2] or ""
    return found


def change(path: str, number: int, reason: str | None, group: int) -> None:
    """Puts a number with its reason into the list, in place of an earlier reason; without a reason it takes the number
    out. Only root and this group can read the list."""
    lines = []
    if os.path.exists(path):
        with open(path, encoding="utf-8", errors="surrogateescape") as file:
            lines = [line for line in file.read().splitlines() if not is_about(number, line)]
    if reason is not None:
        lines.append(f"{number} {reason}".rstrip())
    new = path + ".new"
    try:
        with open(new, "w", encoding="utf-8", errors="surrogateescape") as file:
            os.fchown(file.fileno(), os.geteuid(), group)
            os.fchmod(file.fileno(), 0o640)
            file.write("".join(f"{line}\n" for line in lines))
        sync(new)
        os.replace(new, path)
        sync(os.path.dirname(path))
    finally:
        with contextlib.suppress(FileNotFoundError):
            os.remove(new)


def is_about(number: int, line: str) -> bool:
    matched = LINE.fullmatch(line.strip())
    return matched is not None and int(matched[1]) == number
