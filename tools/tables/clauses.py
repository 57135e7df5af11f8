"""docs/clauses.txt: a sentence about each clause. The rest of a row is written from the sources."""
from __future__ import annotations

import re
from typing import Iterator, List, NamedTuple, Optional, Tuple

from .limits import Limits
from .sources import Libraries
from .texts import Fault, Read, markdown

PATH, PROOFS = "docs/clauses.txt", "docs/PROOFS.md"
NAME = r"\w+(?:::\w+)?"
# The tables of PROOFS: each has rows of these crates.
SECTIONS = (
    ("life_core", "life_rle"),
    ("life_code", "life_census"),
    ("life_store", "life_desk", "life_check"),
    ("life_pages",),
    ("life_words", "life_jobs", "life_archive", "life_program", "life_cli"),
    ("life_pictures", "life_hauls"),
)


class Row(NamedTuple):
    """A row of a table: functions with a clause of this name, whether PROOFS has it, anchors for links to it there, and
    the sentence."""

    crate: str
    functions: Tuple[str, ...]
    clause: str
    in_proofs: bool
    anchors: Tuple[str, ...]
    sentence: str


def joined(text: str) -> List[str]:
    """The lines of the file, each with the lines that continue it, without empty lines and comments."""
    lines: List[str] = []
    for line in text.splitlines():
        if line.startswith("    ") and lines:
            lines[-1] += " " + line.strip()
        elif line.strip() and not line.startswith("#"):
            lines.append(line.rstrip())
    return lines


def read_rows(read: Read, limits: Limits) -> List[Row]:
    rows: List[Row] = []
    crate = ""
    functions: Tuple[str, ...] = ("",)
    for line in joined(read(PATH)):
        section = re.fullmatch(r"\[(\w+)\]", line)
        clause = re.fullmatch(r"  (\*?)(\w+)((?: #[\w-]+)*): (.+)", line)
        if section:
            crate, functions = section[1], ("",)
        elif re.fullmatch(f"{NAME}(?:, {NAME})*", line) and crate:
            functions = tuple(line.split(", "))
        elif clause and functions != ("",) and (clause[1] or not clause[3]):
            anchors = tuple(anchor[1:] for anchor in clause[3].split())
            rows.append(Row(crate, functions, clause[2], bool(clause[1]), anchors, limits.put_into(clause[4])))
        else:
            raise Fault(f"{PATH}: this line is no crate, no functions, and no clause of a function: {line[:60]}")
    return rows


def compare(rows: List[Row], libraries: Libraries) -> Iterator[Optional[str]]:
    """For each clause of a function, the problem if it has no sentence or two, and for each sentence, if it has no
    clause."""
    placed = [crate for crates in SECTIONS for crate in crates]
    yield None if sorted(placed) == sorted(libraries) else f"{PROOFS}: a library has no table, or two: see SECTIONS"
    wanted = {
        (crate, name, clause)
        for crate, functions in libraries.items()
        for name, found in functions.items()
        for clause in found.names
    }
    seen = set()
    for row in rows:
        for name in row.functions:
            one = row.crate, name, row.clause
            if one not in wanted:
                yield f"{PATH}: {row.crate}: {name} has no clause {row.clause}: take its sentence out"
            else:
                yield f"{PATH}: {row.crate}: {name}: {row.clause} has two sentences" if one in seen else None
            seen.add(one)
    for crate, name, clause in sorted(wanted - seen):
        yield f"{PATH}: {crate}: {name}: {clause} has no sentence: write one"


def links(row: Row, libraries: Libraries) -> str:
    """The functions of a row, each with a link to its file."""
    functions = libraries.get(row.crate, {})
    return ", ".join(f"[`{name}`](../{functions[name].path})" for name in row.functions if name in functions)


def table(rows: List[Row], libraries: Libraries) -> List[str]:
    """A table of these rows."""
    lines = []
    for row in rows:
        anchors = "".join(f'<a id="{anchor}"></a>' for anchor in row.anchors)
        lines.append(f"{anchors}{links(row, libraries)} | `{row.clause}` | {row.sentence}")
    return markdown("Function | Clause | Statement", lines)


def table_of_proofs(rows: List[Row], crates: Tuple[str, ...], libraries: Libraries) -> List[str]:
    """A table of PROOFS: the chosen rows of some crates."""
    return table([row for row in rows if row.crate in crates and row.in_proofs], libraries)


def document(rows: List[Row], libraries: Libraries) -> str:
    """A document with the rows of all clauses, for the same folder as PROOFS."""
    lines = [
        "# All clauses",
        "",
        "[PROOFS](PROOFS.md) says how to read a row. `tools/make-tables --clauses` printed these.",
    ]
    for crate in [crate for crates in SECTIONS for crate in crates]:
        named = [row._replace(anchors=()) for row in rows if row.crate == crate]
        lines += ["", f"## {crate}", *table(named, libraries)[:-1]]
    return "\n".join(lines).replace("](#", "](PROOFS.md#") + "\n"
