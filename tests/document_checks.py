"""The checks of tests/test_documents.py: each is a function of the texts of the documents, and of what they repeat."""
import fnmatch
import functools
import os
import re
import subprocess
import urllib.parse
from collections.abc import Callable, Iterator, Mapping

import phrases
from clients import HERE
from tables import clauses, kit, limits, places, program, refusals, routes, sources, texts

TOP = os.path.dirname(HERE)
# The text of each file that a check reads, by its path; and for each thing that it looks at, its problem or None.
Pages = Mapping[str, str]
Problems = Iterator[str | None]

FILES = sources.files_of_repository()
# The parts of the tests, each the script tests/NAME or the file tests/test_NAME.py, by their names.
PARTS = {
    found[1] or found[2]: path
    for path in sorted(FILES)
    if (found := re.fullmatch(r"tests/(?:test_([a-z]+)\.py|([a-z]+))", path))
}
PROOFS, DEFINITIONS = "docs/PROOFS.md", "docs/DEFINITIONS.md"
ARCHITECTURE, TESTING = "docs/ARCHITECTURE.md", "docs/TESTING.md"
API, FORMATS, COMMANDS, OPERATING = "docs/API.md", "docs/FORMATS.md", "docs/COMMANDS.md", "docs/OPERATING.md"
DECISIONS = "docs/DECISIONS.md"
# The tables, and what repeats them beside the documents.
REFUSALS, LIMITS, ROUTES, ADDRESSES, CLAUSES = refusals.PATH, limits.PATH, routes.ROUTES, routes.ADDRESSES, clauses.PATH
SENTENCES, SCRIPTS = "web/requests/refusals.js", "examples/scripts/asking.sh"
SITE, PROXY = routes.SITE, routes.PROXY
# What the program prints of its tables, its sentences, and the help that lists the names of refusals.
TABLES, EXPLAIN, HELP = program.PATH, "crates/life_words/src/explain.rt", refusals.HELP
OTHERS = [
    REFUSALS,
    LIMITS,
    ROUTES,
    ADDRESSES,
    CLAUSES,
    SENTENCES,
    SCRIPTS,
    SITE,
    PROXY,
    TABLES,
    EXPLAIN,
    HELP,
    kit.PATH,
    "web/main.js",
    "web/ahead.js",
    "web/shared/limits.js",
    "docs/life-index.8",
    "crates/life_core/src/generations.rt",
]
# The most lines of a page: README is two pages, the others with more are lists, or are looked things up in.
LENGTHS = {
    "README.md": 170,
    "bench/README.md": 155,
    "CHANGELOG.md": 65,
    "docs/GUIDE.md": 365,
    "docs/HAULS.md": 170,
    API: 265,
    COMMANDS: 175,
    DECISIONS: 360,
    DEFINITIONS: 540,
    FORMATS: 330,
    OPERATING: 295,
    PROOFS: 300,
}
MOST_LINES, MOST_COLUMNS, MOST_WORDS_OF_A_CELL = 250, texts.most_columns(), 40
# Pages whose lines may be longer: they have rows, definitions and replies that can't be broken.
WIDE = {API, FORMATS, PROOFS, DEFINITIONS, "docs/GUIDE.md"}


# ---- what there is


@functools.cache
def read(path: str) -> str:
    with open(os.path.join(TOP, path), encoding="utf-8") as text:
        return text.read()


def documents(pages: Pages) -> list[tuple[str, str]]:
    """The pages that are documents, without the table and the sources that are read beside them."""
    return sorted((path, page) for path, page in pages.items() if path.endswith(".md"))


FOLDERS = {"/".join(path.split("/")[:depth]) for path in FILES for depth in range(1, path.count("/") + 1)}


def without_code(page: str) -> str:
    """A page whose quoted lines and fences are empty, so that numbers of lines stay."""
    lines, fenced = [], False
    for line in page.split("\n"):
        fence = line.lstrip().startswith("```")
        lines.append("" if fence or fenced or line.startswith("    ") else line)
        fenced = fenced != fence
    return "\n".join(lines)


# ---- links


def headings(page: str) -> set[str]:
    """The anchors of a page: those of its headings, as GitHub makes them, and its own."""
    found: dict[str, int] = {}
    for title in re.findall(r"(?m)^#+ +(.*?) *#*$", without_code(page)):
        plain = re.sub(r"\[([^]]*)\]\([^)]*\)", r"\1", title)
        anchor = re.sub(r"[^\w\- ]", "", plain.lower()).replace(" ", "-")
        found[anchor] = found.get(anchor, -1) + 1
    own = set(re.findall(r'<a id="([^"]+)">', page))
    return own | {
        anchor + (f"-{again}" if again else "") for anchor, last in found.items() for again in range(last + 1)
    }


def links(pages: Pages) -> Problems:
    """Each link of a page to this repository leads to a file or a folder that is there, and to a heading of it."""
    for path, page in documents(pages):
        plain = re.sub(r"`[^`\n]*`", "``", without_code(page))
        for target in re.findall(r"\]\(([^)\s]+)\)", plain) + re.findall(r'(?:src|href)="([^"]+)"', plain):
            if re.match(r"[a-z]+:", target):
                continue
            place, _, anchor = target.partition("#")
            goal = os.path.normpath(os.path.join(os.path.dirname(path), urllib.parse.unquote(place))) if place else path
            if goal not in FILES and goal not in FOLDERS:
                yield f"{path}: {target}: there is no {goal}"
            elif anchor and anchor not in headings(pages.get(goal, "")):
                yield f"{path}: {target}: {goal} has no such heading"
            else:
                yield None


def paths(pages: Pages) -> Problems:
    """Each path in backquotes that begins with a folder or a crate of the repository is there, or made by a build."""
    crates = {path.split("/")[1] for path in FILES if path.startswith("crates/")}
    for path, page in documents(pages):
        for name in re.findall(r"`([\w.-]+/[\w./*-]*)`", without_code(page)):
            first = name.split("/")[0]
            if first in FOLDERS or first in crates:
                whole = (f"crates/{name}" if first in crates else name).rstrip("/")
                there = (
                    any(fnmatch.fnmatch(found, whole) for found in FILES | FOLDERS)
                    or "/out" in whole
                    or "NAME" in whole
                )
                yield None if there else f"{path}: there is no {whole}"


# ---- names of the sources

DECLARING = "fn|struct|enum|trait|mod|const|type|ensures|requires|record|data|module|abbrev|unfoldable"


@functools.cache
def names_of_sources() -> tuple[set[str], list[str]]:
    """Every name that a source declares: crates, modules, types and their variants, functions, clauses, definitions;
    and texts."""
    names = {path.split("/")[1] for path in FILES if path.startswith("crates/")} | {kit.read_kit(read)}
    quoted: list[str] = []
    for path in FILES:
        if not path.startswith("crates/") or not path.endswith((".rt", ".antt")):
            continue
        text = read(path)
        names.add(os.path.basename(path).rsplit(".", 1)[0])
        names.update(re.findall(rf"\b(?:{DECLARING}) +(?:pub +)?(\w+)", text))
        names.update(re.findall(r"(?m)^ +(?:pub )?(\w+)(?: :| = \d+,|,|\(.*\),|\()", text))
        names.update(re.findall(r"(?m)^pub use [\w:]+ as (\w+);", text))
        quoted += re.findall(r'"([^"\n]*)"', text)
    return names, quoted


# ---- PROOFS.md


def cells_of(line: str) -> list[str]:
    return [cell.strip() for cell in line.strip().strip("|").split(" | ")] if line.startswith("| ") else []


# How a sentence begins that needs the row above it.
NEEDS_ANOTHER = re.compile("(?:The same|As of|As in|So|Nor|Then|It|They|Also) ")


def rows(pages: Pages) -> Problems:
    """No sentence about a clause is long, nor a line of its file, and each can be read without the others. `copies`
    looks whether each clause has one."""
    for at, line in enumerate(pages[CLAUSES].split("\n"), 1):
        yield f"{CLAUSES}: line {at} is over {MOST_COLUMNS} columns" if len(line) > MOST_COLUMNS else None
    for row in clauses.read_rows(lambda path: pages[path], limits.read_limits(lambda path: pages[path])):
        words = len(row.sentence.split())
        yield (
            f"{CLAUSES}: {row.crate}: {row.clause}: a sentence of {words} words"
            if words > MOST_WORDS_OF_A_CELL
            else f"{CLAUSES}: {row.crate}: {row.clause}: '{row.sentence.split()[0]}' needs another row"
            if NEEDS_ANOTHER.match(row.sentence)
            else None
        )


def is_known(name: str, names: set[str], quoted: list[str]) -> bool:
    """Whether a text in backquotes is a path, a name, names joined by `::`, or the beginning of a text of the
    sources."""
    path = name.rstrip("/")
    if path in FILES or path in FOLDERS or f"crates/{path}" in FILES:
        return True
    if all(part in names or part in PACKAGES for part in name.split("::")):
        return True
    return any(text.startswith(name) for text in quoted)


# Names of the kit, its version, and programs: no source of this repository declares them.
PACKAGES = {
    "clap",
    "csv",
    "itoa",
    "memchr",
    "sqlite",
    "httparse",
    "matchit",
    "http",
    "serde_json",
    "sha2",
    "Unknown",
    "Leftover",
    "Read",
    "dac8208d650f15bf",
    "tools/make-tables --clauses",
    "CLAUSES.md.gz",
    "curl",
    "ensures",
    "specs/",
}


def names(pages: Pages) -> Problems:
    """Each text in backquotes of PROOFS.md, and of the sentences about clauses, is one of the sources."""
    for path in (PROOFS, CLAUSES):
        for name in re.findall(r"`([^`\n]+)`", pages[path]):
            yield None if is_known(name, *names_of_sources()) else f"{path}: nothing is called `{name}`"


def promises(pages: Pages) -> Problems:
    """Each link of README.md to a row of PROOFS.md has the name of the row's function, or of its clause."""
    for name, anchor in re.findall(r"\[`([^`]+)`\]\(docs/PROOFS\.md#([\w-]+)\)", pages["README.md"]):
        row = re.search(rf'(?m)^\| .*<a id="{anchor}"></a>.*$', pages[PROOFS])
        cells = cells_of(re.sub(r"<a id[^>]*></a>", "", row[0])) if row else ["", ""]
        there = name in re.findall(r"\[`([^`]+)`\]", cells[0]) or name == cells[1].strip("`")
        yield None if there else f"README.md: {name}: not the row {anchor} of {PROOFS}"


# ---- DEFINITIONS.md


def without_comments(text: str) -> list[str]:
    return [line for line in text.split("\n") if not line.lstrip().startswith("--")]


def quotations(pages: Pages) -> Problems:
    """Each quoted definition is one of the file that the line above it names, from its first line to its last, comments
    left out."""
    for path, quoted in re.findall(r"(?m)^.*`([\w/]+\.antt)`.*\n\n```antt\n((?:.*\n)*?)```$", pages[DEFINITIONS]):
        full = f"crates/{path}"
        source = without_comments(read(full)) if full in FILES else []
        for piece in quoted.rstrip("\n").split("\n\n"):
            lines = without_comments(piece)
            ends = [source[at + len(lines) :][:1] for at in range(len(source)) if source[at : at + len(lines)] == lines]
            # What follows is no more of it: neither an indented line nor one more equation of the same name.
            name = re.sub(r"^(?:\w+ )*?(?:pub )?(?:record |data )?", "", lines[0]).split(" ")[0]
            good = any(not following or not following[0].startswith((" ", f"{name} ")) for following in ends)
            yield None if good else f"{DEFINITIONS}: not in {full or path}: {lines[0]}"
    fences = len(re.findall(r"(?m)^```antt$", pages[DEFINITIONS]))
    with_file = len(re.findall(r"(?m)^.*`[\w/]+\.antt`.*\n\n```antt$", pages[DEFINITIONS]))
    yield None if fences == with_file else f"{DEFINITIONS}: {fences - with_file} quotations without a file"


def laws(pages: Pages) -> Problems:
    """Each law of DEFINITIONS.md is one that the function beside it is held to."""
    for several, function, crate in re.findall(r"Law ((?:`\w+`[^`(]*)+)\(`(\w+)`, (\w+)\)", pages[DEFINITIONS]):
        bodies = [read(path).split("\n") for path in FILES if re.fullmatch(rf"crates/{crate}/src/.*\.rt", path)]
        places_of_it = [
            (lines, at) for lines in bodies for at, line in enumerate(lines) if re.search(rf"\bfn {function}\b", line)
        ]
        held_to = " ".join(" ".join(sources.signature(lines, at)) for lines, at in places_of_it)
        for law in re.findall(r"`(\w+)`", several):
            yield None if re.search(rf"\b{law}\b", held_to) else f"{DEFINITIONS}: {crate}: {function} has no {law}"
    found, named = len(re.findall(r"(?m)^## ", pages[DEFINITIONS])), len(re.findall(r"(?m)^Law `", pages[DEFINITIONS]))
    yield None if found == named else f"{DEFINITIONS}: {found} definitions and {named} laws"


# ---- ARCHITECTURE.md


def proofs(pages: Pages) -> Problems:
    """Each proof of the table is a file of its crate."""
    for crate, several in re.findall(r"(?m)^\| (life_\w+) \| ((?:`\w+`(?:, )?)+) \|", pages[ARCHITECTURE]):
        for name in re.findall(r"`(\w+)`", several):
            yield (
                None
                if f"crates/{crate}/proofs/{name}.antt" in FILES
                else f"{ARCHITECTURE}: {crate} has no proofs {name}"
            )


# ---- TESTING.md


def parts(pages: Pages) -> Problems:
    """Each part of the gate has its row."""
    run = set(re.findall(r"tests/(?:test_)?([a-z]+)\b", read(".ci/run").split("room=", 1)[1])) - {"cases"}
    for part in sorted(run | PARTS.keys()):
        path = PARTS.get(part, f"tests/{part}")
        yield None if re.search(rf"(?m)^\| `{re.escape(path)}` \|", pages[TESTING]) else f"{TESTING}: {path} has no row"


# ---- what tools/make-tables writes


def copies(pages: Pages) -> Problems:
    """Each place that repeats a refusal, a limit, a route, an address or the version is written from its table."""
    for problem in places.compare(lambda path: pages[path] if path in pages else read(path)):
        yield f"{problem}; then run tools/make-tables" if problem else None


# A row as tools/make-tables writes it, by its page.
WRITTEN = {
    API: r"\| (?:\d+ \| `[a-z-]+` \| \d+|`(?:GET|POST) /[^`]*`) \|",
    FORMATS: r"\| \d+ \| `[a-z-]+` \|",
    COMMANDS: r"\| `refused: ",
    PROOFS: r"\| .*\[`[\w:]+`\]\(\.\./crates/",
}


def beside(pages: Pages) -> Problems:
    """Such a row is only in the parts that tools/make-tables writes."""
    for path, form in WRITTEN.items():
        found = [line for line in texts.without_marked(pages[path]).split("\n") if re.match(form, line)]
        yield f"{path}: not written by tools/make-tables: {found[0][:60]}" if found else None


# The kinds of refusals in their order, and those that have numbers.
KINDS, NUMBERED = list(refusals.LINES), {"refusal", "file", "code"}
MOST_WORDS_OF_A_SENTENCE = 30


def table_of(pages: Pages) -> list[refusals.Refusal]:
    """The refusals and faults, by the program and by the table."""

    def text(path: str) -> str:
        return pages[path] if path in pages else read(path)

    return refusals.read_refusals(text, limits.read_limits(text), program.read_program(text))


def columns(pages: Pages, kind: str, *names_of_columns: str) -> list[tuple[str, ...]]:
    """These columns of the rows of a kind, in the order of the table."""
    return [tuple(getattr(row, name) for name in names_of_columns) for row in table_of(pages) if row.kind == kind]


def faults_of_row(row: refusals.Refusal) -> Iterator[str]:
    """The faults of a row of the table by itself."""
    if not re.fullmatch(r"[a-z]+(-[a-z]+)*", row.name):
        yield "no name"
    if (
        bool(row.when) != (row.kind in NUMBERED)
        or row.command
        and not row.order()
        or row.kind == "program"
        and not row.command
    ):
        yield "no cell for its document, or one too many"
    if not row.sentence.isascii() or not row.sentence.endswith("."):
        yield "a sentence with other characters, or without its end"
    if any(len(sentence.split()) > MOST_WORDS_OF_A_SENTENCE for sentence in re.split(r"(?<=[.!?]) ", row.sentence)):
        yield "a long sentence"


def table(pages: Pages) -> Problems:
    """The table of refusals has its form: kinds and numbers in their order, each name once in a kind, sentences that
    fit everywhere."""
    try:
        all_rows = table_of(pages)
    except texts.Fault as fault:
        yield str(fault)
        return
    for row in all_rows:
        problems = list(faults_of_row(row))
        yield f"{REFUSALS}: {row.kind} {row.name}: {'; '.join(problems)}" if problems else None
    kinds = [row.kind for row in all_rows]
    yield None if kinds == sorted(kinds, key=KINDS.index) else f"{REFUSALS}: kinds in another order"
    for kind in KINDS:
        numbers, named = [number for number, in columns(pages, kind, "number")], columns(pages, kind, "name")
        in_order = (
            numbers == [str(number) for number in range(1, len(numbers) + 1)]
            if kind in NUMBERED
            else named == sorted(named)
        )
        yield None if in_order and named else f"{REFUSALS}: {kind}: numbers or names that are out of order"


def printed(pages: Pages) -> Problems:
    """The names of refusals in the prose of COMMANDS, and the replies of the gateway that OPERATING lists, are those of
    the table. A reply may also be one of the gateway's site, for which the program has no sentence."""
    known = columns(pages, "refusal", "name") + columns(pages, "program", "name")
    for name in sorted(set(re.findall(r"refused: ([a-z-]+)", pages[COMMANDS]))):
        yield None if (name,) in known else f"{COMMANDS}: not in {REFUSALS}: {name}"
    replies = re.findall(r'(?m)^\| ([\d, ]+) \| `\{"error":"([a-z-]+)"(?:,"refusal":(\d+))?\}`', pages[OPERATING])
    wanted = [row for kind in ("refusal", "gateway") for row in columns(pages, kind, "status", "name", "number")]
    wanted += [(*said, "") for said in re.findall(r"return (\d+) '\{\"error\":\"([a-z-]+)\"\}'", pages[SITE])]
    for status, name, number in replies:
        yield None if (
            status.replace(",", ""),
            name,
            number,
        ) in wanted else f"{OPERATING}: not in {REFUSALS}: {status} {name} {number}"
    for status, name in columns(pages, "gateway", "status", "name"):
        there = not status or re.search(rf"(?m)^\| {status.replace(' ', ', ')} \|", pages[OPERATING])
        yield None if there else f"{OPERATING}: no reply of status {status}, {name}"


# ---- lengths


def lengths(pages: Pages) -> Problems:
    for path, page in documents(pages):
        lines = page.split("\n")[:-1]
        wide = [at for at, line in enumerate(lines, 1) if len(line) > MOST_COLUMNS and path not in WIDE]
        if len(lines) > LENGTHS.get(path, MOST_LINES):
            yield f"{path}: {len(lines)} lines"
        elif wide:
            yield f"{path}: {len(wide)} lines over {MOST_COLUMNS} columns, the first {wide[0]}"
        else:
            yield None


def decisions(pages: Pages) -> Problems:
    """Each number of a decision is there once, in order, from 1 to the last."""
    numbers = map(int, re.findall(r"(?m)^(?:### |\*\*)(\d+)\. ", pages[DECISIONS]))
    for place, number in enumerate(numbers, 1):
        yield None if number == place else f"{DECISIONS}: the decision at place {place} has the number {number}"


def cells(pages: Pages) -> Problems:
    """No cell of a table is long; those of PROOFS.md are looked at row by row."""
    for path, page in documents(pages):
        for line in page.split("\n") if path != PROOFS else []:
            for words in [cell.split() for cell in cells_of(line)]:
                yield None if len(
                    words
                ) <= MOST_WORDS_OF_A_CELL else f"{path}: a cell of {len(words)} words: {' '.join(words[:6])}"


# ---- phrases

# The files that a person reads, and the phrases that a text of one has.
READ_BY_PEOPLE = [
    path for path in sorted(FILES) if not phrases.UNREAD.fullmatch(path) and not os.path.islink(os.path.join(TOP, path))
]
PHRASES_OF: dict[tuple[str, str], list[tuple[int, str, str]]] = {}


def wording(pages: Pages) -> Problems:
    """No file that a person reads has one of the phrases of tests/phrases.py, and none of its exceptions is in vain."""
    excepted = set()
    for path in READ_BY_PEOPLE:
        text = pages[path] if path in pages else read(path)
        if (path, text) not in PHRASES_OF:
            PHRASES_OF[path, text] = list(phrases.found(path, text))
        for line, words, instead in PHRASES_OF[path, text]:
            yield f"{path}: line {line}: {words!r}: write {instead}"
        if not PHRASES_OF[path, text]:
            yield None
        excepted |= {key for key in phrases.EXCEPTIONS if key[0] == path and key[1] in text}
    for path, words in sorted(set(phrases.EXCEPTIONS) - excepted):
        yield f"tests/phrases.py: {path} has no {words!r}"


# ---- ./check

# What ./check lists for these paths: crates and parts.
LISTED = [
    (["crates/life_hauls/src/lib.rt"], "life_hauls life_haul life_tests archive_tests", "documents finds hauls slurm"),
    (["crates/life_haul/src/main.rt"], "life_haul", "documents finds hauls slurm"),
    (["web/main.js"], "", "documents lint web"),
    (["tests/web_haul.py"], "", "lint web"),
    (["deploy/bundle"], "", "boot gateway lint web"),
    (["bench/soup.py"], "", "lint"),
    (["tools/make-tables", "tools/tables/limits.py", "docs/clauses.txt"], "", "documents lint"),
    (["tools/make-words"], "", "documents lint members"),
    (["docs/limits.csv"], "", "documents words"),
    (["deploy/templates/gateway/life-site.conf"], "", "boot deploy documents gateway health index lint restores"),
]


def what_changed(pages: Pages) -> Problems:
    """`./check` knows the crates that depend on one that changed, and the parts that look at a path; all files together
    are of all crates and parts."""
    crates = re.findall(r"(?m)^(\w+):", read("crates.txt"))
    for changed, wanted, looked_at in [*LISTED, (sorted(FILES), " ".join(crates), " ".join(sorted(PARTS)))]:
        said = subprocess.run(
            [os.path.join(TOP, "check"), "-n", "--", *changed], capture_output=True, text=True, check=False
        ).stdout
        good = said == f"crates: {wanted}".rstrip() + f"\nparts: {looked_at}".rstrip() + "\n"
        yield None if good else f"check: {changed[0]} and so on: {said!r}"


CHECKS: list[Callable[[Pages], Problems]] = [
    links,
    paths,
    names,
    rows,
    promises,
    quotations,
    laws,
    proofs,
    parts,
    copies,
    beside,
    table,
    printed,
    lengths,
    decisions,
    cells,
    wording,
    what_changed,
]
