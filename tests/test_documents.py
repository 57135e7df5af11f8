"""Compares the documents with one another and with the sources.

Links lead to a file and a heading that are there, and so do paths. Every name in backquotes in docs/PROOFS.md is a name
of the sources. Each clause of each public function of a library has a sentence, and no sentence is about another. Each
link of README.md to a row has the name of its function or clause. Each definition that docs/DEFINITIONS.md quotes is
line by line the one of its file, and has a law. Each part of the gate has its row in docs/TESTING.md. Everything that
tools/make-tables writes is as it would write it. Pages have their lengths. No file that a person reads has one of the
phrases of tests/phrases.py. At the end the same checks read files that were changed, and have to fail. Each mutation
test changes a line that its source has.

Each link, name, row, quotation, place, page, file and change is one check. The checks are in document_checks.py, the
changes in document_changes.py.
"""
import functools
import re
from collections.abc import Callable

import pytest

from clients import check, same
from document_changes import CHANGES, PLANTED
from document_checks import (
    API,
    CHECKS,
    FILES,
    OPERATING,
    OTHERS,
    PARTS,
    PROXY,
    ROUTES,
    SITE,
    TABLES,
    Pages,
    Problems,
    cells_of,
    read,
)
from drifts import DRIFTS
from tables import clauses, places
from tables.sources import libraries

pytestmark = pytest.mark.quick

PAGES = {path: read(path) for path in FILES if path.endswith(".md") or path in [*OTHERS, *PLANTED, PARTS["members"]]}


@functools.cache
def usual(problems: Callable[[Pages], Problems]) -> frozenset[str | None]:
    """What a check has against the pages as they are."""
    return frozenset(problems(PAGES))


@pytest.mark.parametrize("problems", CHECKS, ids=[problems.__name__ for problems in CHECKS])
def test_pages(problems: Callable[[Pages], Problems]) -> None:
    """Each thing that a check looks at is right."""
    for problem in problems(PAGES):
        check(problem or problems.__name__, not problem)


ROUTE_MORE = "GET,/deposits/{id}/cells/{n}/{code},some cells,their text,fixed,slow\n"


def test_route_more() -> None:
    """With one route more in the program and in the table, each file that has the routes is written, and what is
    written needs no change."""
    listed = '{ "method": "GET", "path": "/deposits/{id}/cells/{n}/{code}" },'
    tables = PAGES[TABLES].replace('  "routes": [\n', f'  "routes": [\n    {listed}\n')
    pages = {**PAGES, TABLES: tables, ROUTES: PAGES[ROUTES] + ROUTE_MORE}
    written, problems = places.written(lambda path: pages[path] if path in pages else read(path))
    same("problems of one route more", problems, [])
    for path, name in [
        (API, "/cells/"),
        (SITE, "/cells/[0-9]+/[0-9a-z_]+)$"),
        (PROXY, " /cells/"),
    ]:
        check(f"{path} has the route", name in written[path] and name not in read(path))
    pages |= written
    again = places.compare(lambda path: pages[path] if path in pages else read(path))
    same("what is written again", [problem for problem in again if problem], [])


def test_drifts() -> None:
    """The table of what life-configure compares has the differences that test_boot.py tries, in their order."""
    table = PAGES[OPERATING].split("| If one of these differs |")[1].split("\n\n")[0].split("\n")[2:]
    names = [name for line in table for name in cells_of(line)[0].split(", ")]
    same("the differences of docs/OPERATING.md", names, [drift.name for drift in DRIFTS])


# How many mutation tests a library has at most, and how many of them the gate tries.
MOST_MUTATIONS, MOST_TRIED = 10, 6


@pytest.mark.parametrize("crate", libraries())
def test_mutations(crate: str) -> None:
    """A library has mutation tests, but not too many, and what each of them changes is in its source once."""
    tried, left = (
        [path for path in FILES if re.fullmatch(rf"crates/{crate}/{folder}/\w+\.edit", path)]
        for folder in ("must-fail", "mutations")
    )
    check(f"{crate} has {len(tried)} mutation tests for the gate", 1 <= len(tried) <= MOST_TRIED)
    check(f"{crate} has {len(left)} more", len(tried) + len(left) <= MOST_MUTATIONS)
    for name in tried + left:
        source = re.findall(r"(?m)^file: (.+)$", read(name))
        same(f"{name} names one source", len(source), 1)
        text = read(f"crates/{crate}/{source[0]}")
        for old in re.findall(r"(?m)^old: (.+)$", read(name)):
            same(f"{name}: how often its source has {old}", text.count(old), 1)


def test_no_source_is_written() -> None:
    """tools/make-tables writes nothing below crates/."""
    written, problems = places.written(read)
    same("problems", problems, [])
    same("sources that it writes", [path for path in written if path.startswith("crates/")], [])


def test_all_clauses() -> None:
    """The document of all clauses has a row for each clause of each public function, with its file."""
    facts = places.read_facts(read)
    page = clauses.document(facts.rows, facts.libraries)
    for crate, functions in facts.libraries.items():
        of_crate = page.split(f"\n## {crate}\n")[1].split("\n## ")[0].splitlines()
        for name, found in functions.items():
            for clause in found.names:
                rows = [
                    line for line in of_crate if f"[`{name}`](../{found.path})" in line and f" | `{clause}` | " in line
                ]
                same(f"{crate}: {name}: rows of {clause}", len(rows), 1)


@pytest.mark.parametrize("problems, path, before, after", CHANGES)
def test_change(problems: Callable[[Pages], Problems], path: str, before: str, after: str) -> None:
    """Each change of a page is seen by its check, which has nothing against the page as it is."""
    changed = re.sub(before, after, PAGES[path], count=0 if after == "\n" * 3 else 1)
    more = set(problems({**PAGES, path: changed})) - usual(problems)
    check(f"{problems.__name__} sees {before!r} changed in {path}", changed != PAGES[path] and more - {None})
