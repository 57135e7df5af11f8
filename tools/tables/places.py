"""The places that tools/make-tables writes: for each file, the part and its source."""
from __future__ import annotations

import os
from functools import partial
from typing import Callable, Dict, Iterator, List, NamedTuple, Optional, Tuple

from . import clauses, kit, limits, program, refusals, routes, sources, version
from .texts import Fault, Read, with_marked

# The text of a file, and that text with one part written again.
Write = Callable[[str], str]


class Place(NamedTuple):
    path: str
    source: str
    write: Write


class Facts(NamedTuple):
    """All tables."""

    limits: limits.Limits
    program: program.Program
    refusals: List[refusals.Refusal]
    routes: List[routes.Route]
    addresses: List[routes.Address]
    version: str
    kit: str
    rows: List[clauses.Row]
    libraries: sources.Libraries


def read_facts(read: Read) -> Facts:
    known, tables = limits.read_limits(read), program.read_program(read)
    return Facts(
        known,
        tables,
        refusals.read_refusals(read, known, tables),
        routes.read_routes(read, known),
        routes.read_addresses(read),
        version.read_version(read),
        kit.read_kit(read),
        clauses.read_rows(read, known),
        sources.public_clauses(read),
    )


def marked(path: str, source: str, name: str, lines: List[str]) -> Place:
    """The lines between two comments of a file."""
    return Place(path, source, lambda text: with_marked(text, name, lines))


def of_pages(facts: Facts) -> List[Place]:
    """The scripts of the web pages."""
    known = facts.limits
    return [
        marked("web/requests/refusals.js", refusals.PATH, "sentences", refusals.script_sentences(facts.refusals)),
        marked("web/main.js", routes.ADDRESSES, "addresses", routes.script_addresses(facts.addresses, known)),
        marked("web/ahead.js", routes.ADDRESSES, "addresses", routes.script_ahead(facts.addresses, known)),
        Place("web/shared/limits.js", limits.PATH, lambda _: limits.script_module(known)),
    ]


def of_scripts(facts: Facts) -> List[Place]:
    """What the members' scripts share."""
    script = partial(marked, "examples/scripts/asking.sh")
    return [
        script(limits.PATH, "limits", limits.shell_limits(facts.limits)),
        script(refusals.PATH, "faults", refusals.shell_faults(facts.refusals)),
        script(refusals.PATH, "refusals", refusals.shell_refusals(facts.refusals)),
    ]


def of_gateway(facts: Facts) -> List[Place]:
    """The site of nginx, and HAProxy's configuration."""
    site, known = partial(marked, routes.SITE, routes.ADDRESSES), partial(marked, routes.SITE, routes.ROUTES)
    return [
        *(
            known(f"{cache} {cost} routes", routes.site_location(facts.routes, cache, cost))
            for cache, cost in routes.CLASSES
        ),
        known("long searches", routes.site_realm(facts.routes)),
        marked(routes.PROXY, routes.ROUTES, "slow routes", routes.proxy_slow(facts.routes)),
        site(
            "titles",
            routes.site_titles(facts.addresses, facts.limits) + routes.site_deposit(facts.addresses, facts.limits),
        ),
        site("addresses", routes.site_pages(facts.addresses, facts.limits)),
        site("files", routes.site_files(facts.addresses, facts.limits)),
        site("addresses of files", routes.site_file(facts.addresses, facts.limits)),
    ]


def of_documents(facts: Facts) -> List[Place]:
    """The tables of the documents."""
    known, named, source = facts.limits, facts.refusals, refusals.PATH
    return [
        marked("docs/API.md", routes.ROUTES, "routes", routes.table(facts.routes)),
        marked("docs/API.md", source, "refusals", refusals.table_of_refusals(named)),
        marked("docs/API.md", limits.PATH, "limits", limits.table(known, "limits")),
        marked("docs/API.md", limits.PATH, "waits", limits.table(known, "waits")),
        marked("docs/FORMATS.md", source, "faults of files", refusals.table_of_faults(named, "file")),
        marked("docs/FORMATS.md", source, "faults of codes", refusals.table_of_faults(named, "code")),
        marked("docs/COMMANDS.md", source, "refusals", refusals.table_of_lines(named)),
    ]


def of_proofs(facts: Facts) -> List[Place]:
    """The tables of PROOFS."""
    return [
        marked(
            clauses.PROOFS,
            clauses.PATH,
            f"clauses of {', '.join(crates)}",
            clauses.table_of_proofs(facts.rows, crates, facts.libraries),
        )
        for crates in clauses.SECTIONS
    ]


def of_names(facts: Facts) -> List[Place]:
    """The version of the programs and the name of the kit."""
    tables = [
        (version.PATH, version.PLACES, version.NUMBER, facts.version),
        (kit.PATH, kit.PLACES, kit.NAME, facts.kit),
    ]
    return [
        Place(path, source, partial(version.with_name, before=before, after=after, form=form, name=name))
        for source, where, form, name in tables
        for path, pairs in where.items()
        for before, after in pairs
    ]


def places(facts: Facts) -> List[Place]:
    parts = (of_pages, of_scripts, of_gateway, of_documents, of_proofs, of_names)
    return [place for part in parts for place in part(facts)]


def difference(text: str, wanted: str) -> Optional[str]:
    """The number of the first line that differs, and what both have there, from a little before the difference on."""
    if text == wanted:
        return None
    at = len(os.path.commonprefix([text, wanted]))
    begin = max(text.rfind("\n", 0, at) + 1, at - 30)
    here, there = (one[begin:].split("\n")[0][:80] for one in (text, wanted))
    return f"{text.count(chr(10), 0, at) + 1} has '{here}' in place of '{there}'"


def compare(read: Read) -> Iterator[Optional[str]]:
    """The problems of each place and each fact."""
    try:
        facts = read_facts(read)
        known = places(facts)
    except Fault as fault:
        yield str(fault)
        return
    for place in known:
        text = read(place.path)
        try:
            found = difference(text, place.write(text))
            yield f"{place.path}:{found}: if that is right, change {place.source}" if found else None
        except Fault as fault:
            yield f"{place.path}: {fault}"
    yield from compare_with_sources(facts, read)


def compare_with_sources(facts: Facts, read: Read) -> Iterator[Optional[str]]:
    """The problems of facts that a crate and a table both have, if they differ. No script repairs these."""
    yield from refusals.compare(facts.refusals, facts.program, read)
    yield from limits.compare(facts.limits, read)
    yield from routes.compare(facts.routes, facts.program, read)
    yield from clauses.compare(facts.rows, facts.libraries)


def written(read: Read) -> Tuple[Dict[str, str], List[str]]:
    """The text of each file with all its places written, and what could not be written."""
    facts = read_facts(read)
    texts: Dict[str, str] = {}
    problems = []
    for place in places(facts):
        text = texts.get(place.path, read(place.path))
        try:
            texts[place.path] = place.write(text)
        except Fault as fault:
            problems.append(f"{place.path}: {fault}")
    problems += filter(None, compare_with_sources(facts, lambda path: texts.get(path) or read(path)))
    return texts, problems
