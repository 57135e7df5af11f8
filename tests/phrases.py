"""Phrases that a fluent reader stumbles over, and what to write instead. tests/test_documents.py looks for them
wherever a person reads.

Documents, tables, manual pages, scripts, settings, web pages and tests are read as a whole; of Rattle sources the
comments, and the texts that a program prints; of specifications all comments, and of proofs the comment that a file
begins with.
"""
import re
from typing import Iterator, List, NamedTuple, Tuple


class Phrase(NamedTuple):
    """A phrase as a regular expression, and what to write instead. A space in it is any white space, also over the end
    of a line. The paths of files that may have it begin in the last way."""

    form: str
    instead: str
    spared: str = "(?!)"


# Comments of a crate are changed only with its code, since it is then proved again.
CRATES = "crates/"
# Messages, web pages and tests still have these phrases; documents no longer do.
NOT_DOCUMENTS = r"(?!.*\.(?:md|8)$)"
# What is said there, by other words: each phrase is one that people write, and that nobody says.
PHRASES: List[Phrase] = [
    Phrase(*row)
    for row in (
        (
            r"(?<!there\s)\b(?:is|are|was|were) (?-i:none)\b(?! of)",
            "say what is missing: 'there is no file', 'is not a file', 'without a file'",
        ),
        (r"\bso many\b", "'this many', 'that many' or the number"),
        (r"\bno [a-z]+ and no [a-z]+\b", "'X and Y never ..', 'neither X nor Y'"),
        (
            r"\b(?:this|it|that|which|what|who) (?:is|was) no (?!longer\b|more\b|less\b|better\b|worse\b)",
            "'is not a ..'",
        ),
        (r"\b(?:is|are|was|were|be) told\b", "'sees', 'learns', 'is reported'"),
        (
            r"\bwhat (?:is|was)(?:\x20[a-z]+){1,4}\x20(?:is|are) (?:said|told|shown|refused|reported)\b",
            "begin with who says it: 'the page reports ..'",
        ),
        (r"\bwhat is wrong with\b", "'the error in ..', 'the problem of ..'"),
        (r"\bstands?\b(?![ -](?:for|in|ins|alone)\b)", "'is', 'is written', 'occurs', 'depends on'"),
        (r"\b(?:goes|go|went|gone) on\b", "'continues', 'evolves', 'keeps'"),
        (r"\b(?:comes?|came) again\b", "'repeats', 'returns', 'is sent again'"),
        (r"\bas far as (?:it|they)\b", "'if', 'as long as', 'the part that ..'"),
        (r",? of which (?:nothing|no|none|each|every|one|some|all|the)\b", "a sentence of its own, or 'whose'"),
        (r"\bbehind (?:by|the (?:end|last)|(?:its|an?) end)\b", "'after', 'late'"),
        (r"\b(?:for|of) want of\b|\bwant of (?:memory|room)\b", "'out of memory', 'without'"),
        (r"\b(?:memory|a growth) (?:is|was|were|be) refused\b|\bgrowths?\b", "'out of memory', 'an allocation fails'"),
        (r"\bcarri(?:ed|es) over\b", "'migrated'"),
        (r"\bin 100\b", "'%'"),
        (r"\bfor finding\b", "'search index'"),
        (r"\b(?:error|refused|said|says?) in words\b", "'with a sentence', 'explained'"),
        (r"\b(?:a|of) time to come\b", "'in the future'"),
        (r"\bto be had\b", "'available'"),
        (r"\b(?:a|no|each) beginning of\b", "'a prefix of'"),
        (r"\balso (?:if|when|after)\b", "'even if', 'even after'"),
        (r"\banew\b", "'again', 'starts over', 'restarts'"),
        (r"\bmay be asked for\b", "'valid', 'in range'"),
        (r"\bexactly if\b", "'exactly when', 'if and only if'", CRATES),
        (r"\bit is seen that\b", "'we can show that'", CRATES),
        (r"\blikewise\b", "'also', 'the same'"),
        (r"\bmend(?:s|ing)? (?:it|them|an?|the|this)\b", "'repair', 'fix'"),
        (r"\bgive the same command\b", "'run the same command'"),
        (r"\b(?:is|are) well again\b", "'has recovered'"),
        (
            r"\b(?:file|archive|database|token|log|command|part|host|members?|root|row|copy|it|them) alone\b",
            "'only' before the word",
            NOT_DOCUMENTS,
        ),
        (r"\bbeside\b", "'next to', 'compared with', 'while'", NOT_DOCUMENTS),
        (r"\bnobody\b", "'no one', or say who does it", NOT_DOCUMENTS),
        (r"\bwhole (?:archive|file|message|folder|field|table|range|line|text|page)s?\b", "'complete'", NOT_DOCUMENTS),
        (r"\bjudge[sd]?\b", "'check', 'validate'", NOT_DOCUMENTS),
        (r"\b(?:is|are|was|were|be) tried\b", "'is tested'", NOT_DOCUMENTS),
        (r"(?-i:\bAs of\b)", "a row that can be read without the others"),
        (r"\bat work\b", "'is running'", NOT_DOCUMENTS),
        (r"\b(?:is|are) back\b", "'repeats', 'has returned'", NOT_DOCUMENTS),
        (
            r"\b(?:is|are|be|than|with|from|and|by|to|as) (?:that|those) of\b",
            "repeat the noun, or a genitive",
            NOT_DOCUMENTS,
        ),
        (r"\bof (?:its|their|your|his|one's) own\b", "'its own', 'separate'", NOT_DOCUMENTS),
        (
            r"\bwhat (?:it|they) (?:holds?|has|have|had|says?|said|shows?|keeps?|needs?|wants?|gives?|makes?)\b",
            "a noun: 'its contents', 'the reply'",
            NOT_DOCUMENTS,
        ),
        (r"\b(?:is|are|was|were) there(?=[.,;:)])", "'exists'", NOT_DOCUMENTS),
        (r"\bseen to\b", "name who acts: 'we can show'", NOT_DOCUMENTS),
    )
]

# Phrases that a file has to have, each with the reason.
EXCEPTIONS = {
    ("tests/document_checks.py", "As of"): "how a sentence about a clause must not begin",
    ("tests/test_members.py", "are told"): "a sentence that was withdrawn from docs/API.md, which must not come back",
}

# Nobody reads these as prose: stored runs, pictures, licences, sources of bench/, this list, and the changes of
# tests/document_changes.py.
UNREAD = re.compile(
    r"tests/cases/.*|tests/(?:phrases|document_changes)\.py|LICENSE-.*|.*\.(?:svg|png|ico|rle|edit|rattle)"
)
# Crates whose texts are only names of tests.
OF_TESTS = re.compile(r"crates/\w+_tests/.*")


def only(kept: str, text: str) -> str:
    """The matches of a regular expression. All else is blank, so that places and lines stay."""
    parts, last = [], 0
    for match in re.finditer(kept, text):
        parts += [re.sub(r"[^\n]", " ", text[last : match.start()]), match[0]]
        last = match.end()
    return "".join(parts) + re.sub(r"[^\n]", " ", text[last:])


def prose(path: str, text: str) -> str:
    """What a person reads of a file, without the marks of comments."""
    if path.endswith(".rt"):
        text = only(r"//[^\n]*" if OF_TESTS.fullmatch(path) else r'(?s)//[^\n]*|"(?:\\.|[^"\\])*"', text)
    elif path.endswith(".antt") and "/proofs/" in path:
        text = "".join(re.findall(r"\A(?:--[^\n]*\n)*", text))
    elif path.endswith(".antt"):
        text = only(r"\A(?:--[^\n]*\n)*" if "/proofs/" in path else r"--[^\n]*", text)
    return re.sub(r"(?m)^[ \t]*(?://[/!]?|--|#+|\*)(?= )", lambda mark: " " * len(mark[0]), text)


def found(path: str, text: str) -> Iterator[Tuple[int, str, str]]:
    """The phrases in a file: for each its line, its words, and what to write instead."""
    if UNREAD.fullmatch(path):
        return
    read = prose(path, text)
    for phrase in PHRASES:
        if re.match(phrase.spared, path):
            continue
        for match in re.finditer(phrase.form.replace(" ", r"\s+"), read, re.IGNORECASE):
            words = " ".join(match[0].split())
            if (path, words) not in EXCEPTIONS:
                yield read.count("\n", 0, match.start()) + 1, words, phrase.instead
